//! Scripts of logs, cut and spoilt anywhere.

use crate::author::Author;
use crate::call::Call;
use crate::mark::{Content, Mark, Value};
use crate::random::Random;
use crate::script::Script;

/// What may stand in place of a line, with its newline or without.
const LINES: [&str; 17] = [
    "",
    "\n",
    "op=insert\r\n",
    "op=remove\n",
    "op=length\n",
    "op=log_end\n",
    "op=log\n",
    "op=Insert\n",
    "tank=08\n",
    "tank=18446744073709551616\n",
    "key=65536\n",
    "cnt=-0\n",
    "cnt=00\n",
    "cnt=2147483647\n",
    "cnt=2147483648\n",
    "cnt=-2147483649\n",
    "value=-0\n",
];

fn mark(value: Value) -> Mark {
    Mark { id: (7, 1, 9), content: Content { cnt: i32::MIN, flags: 0x84, value } }
}

/// Edits of every kind of value, and one that is refused at its last line.
fn edits() -> Vec<Call> {
    let values = [Value::Null, Value::Bool(true), Value::Whole(-5), Value::Decimal(1 << 63)];
    let mut list = vec![Call::Insert { tank: 1, at: 0, len: 5 }];
    list.extend(values.into_iter().zip(2..).map(|(value, tank)| Call::Annotate {
        tank,
        start: 2,
        end: 4,
        mark: mark(value),
    }));
    list.push(Call::Delete { tank: 2, start: 0, end: 1 });
    list
}

fn text_of(edits: &[Call]) -> Vec<u8> {
    edits.iter().flat_map(Call::text).collect()
}

fn read(body: &[u8]) -> Call {
    Call::Log { body: body.to_vec() }
}

/// What the tanks hold afterwards.
fn questions() -> impl Iterator<Item = Call> {
    let asked =
        |tank| [Call::Length { tank }, Call::Runs { tank }, Call::Whole { tank, room: 1536 }];
    (0..8).flat_map(asked)
}

/// One log in two reads, for every cut of it; then its end, and what the tanks hold.
fn cuts() -> Vec<Call> {
    let log = text_of(&edits());
    let mut calls = Vec::new();
    for cut in 0..=log.len() {
        calls.push(Call::Open { settings: [(8, 64); 8] });
        calls.extend([read(&log[..cut]), read(&log[cut..]), Call::LogEnd]);
        calls.extend(questions());
    }
    calls
}

/// A log of one byte a read.
fn bytes() -> Vec<Call> {
    let log = text_of(&edits());
    let mut calls = vec![Call::Open { settings: [(8, 64); 8] }];
    calls.extend(log.iter().map(|&byte| read(&[byte])));
    calls.push(Call::LogEnd);
    calls.extend(questions());
    calls
}

/// Logs that stop: a line of every bad kind in the place of each, an edit that is refused, a log
/// that ends early, and reads after the stop.
fn stops() -> Vec<Call> {
    let log = text_of(&edits());
    let lines: Vec<&[u8]> = log.split_inclusive(|&byte| byte == b'\n').collect();
    let after = text_of(&[Call::Insert { tank: 0, at: 0, len: 1 }]);
    let mut bodies = Vec::new();
    for place in 0..lines.len() {
        for other in LINES {
            let text = [&lines[..place], &[other.as_bytes()], &lines[place + 1..]].concat();
            bodies.push(text.concat());
        }
    }
    for len in [54, 55, 56, 200] {
        let long = [b"op=insert\ntank=".to_vec(), vec![b'1'; len], b"\nat=0\nlen=1\n".to_vec()];
        bodies.push(long.concat());
        let padded = [b"op=insert\ntank=1".to_vec(), vec![b' '; len + 3], b"\n".to_vec()];
        bodies.push(padded.concat());
    }
    let refused = Call::Delete { tank: 8, start: 0, end: 1 };
    let nan =
        Call::Annotate { tank: 0, start: 0, end: 1, mark: mark(Value::Decimal(0x7ff8 << 48)) };
    for edit in [refused, nan, Call::Insert { tank: 0, at: 0, len: 0 }] {
        bodies.push([log.clone(), text_of(&[edit]), log.clone()].concat());
    }
    bodies.extend((0..log.len()).map(|end| log[..end].to_vec()));
    let mut calls = Vec::new();
    for body in bodies {
        calls.push(Call::Open { settings: [(8, 64); 8] });
        calls.extend([read(&body), read(&after), Call::LogEnd, Call::LogEnd]);
        calls.extend([
            Call::Length { tank: 0 },
            Call::Runs { tank: 2 },
            read(&after),
            Call::LogEnd,
        ]);
    }
    calls
}

/// The fixed calls that stand among the refusals.
pub fn refused() -> Vec<Call> {
    let log = text_of(&edits());
    let wrong = text_of(&[Call::Insert { tank: 0, at: 0, len: 0 }]);
    let mut calls = vec![Call::LogEnd, Call::Open { settings: [(8, 64); 8] }];
    calls.extend([read(&log[..40]), read(&log[40..]), Call::LogEnd]);
    calls.extend([read(&wrong), read(&log), Call::LogEnd, read(b"op=remove\n"), Call::LogEnd]);
    let open = Call::Open { settings: [(8, 64); 8] };
    calls.extend([read(&log[..40]), open, read(&log[40..]), Call::LogEnd]);
    calls
}

/// Fixed scripts: every cut, every bad line, a byte a read.
pub fn scripts() -> Vec<Script> {
    let script =
        |seed: u64, calls: Vec<Call>| Script { class: "log", seed, calls, tail: Vec::new() };
    vec![script(0, refused()), script(1, cuts()), script(2, bytes()), script(3, stops())]
}

/// Bytes that are changed somewhere.
fn spoilt(random: &mut Random, text: &[u8]) -> Vec<u8> {
    let mut other = text.to_vec();
    let at = random.below(text.len() as u64) as usize;
    match random.below(5) {
        0 => other.truncate(at),
        1 => other[at] = random.pick(b"\n=0159 -\r\0\xff"),
        2 => other.insert(at, random.pick(b"\n=0159 -\r\0\xff")),
        3 => {
            let mut lines: Vec<&[u8]> = text.split_inclusive(|&byte| byte == b'\n').collect();
            let place = random.below(lines.len() as u64) as usize;
            lines[place] = random.pick(&LINES).as_bytes();
            other = lines.concat();
        }
        _ => {
            other.remove(at);
        }
    }
    other
}

/// One more log in a few reads, mostly a good one, with calls between them; not always its end.
pub fn go_on(author: &mut Author) {
    let mut text = Vec::new();
    for _ in 0..1 + author.random.below(8) {
        let edit = author.edit();
        if matches!(edit, Call::Annotate { .. } | Call::Insert { .. } | Call::Delete { .. }) {
            text.extend(edit.text());
        }
    }
    if author.random.one_in(4) && !text.is_empty() {
        text = spoilt(&mut author.random, &text);
    }
    while !text.is_empty() {
        let most = author.random.pick(&[1, 7, 30, 400]);
        let size = (1 + author.random.below(most)).min(text.len() as u64) as usize;
        let rest = text.split_off(size);
        author.say(read(&text));
        text = rest;
        if author.random.one_in(6) {
            author.go_on(3);
        }
    }
    if !author.random.one_in(5) {
        author.say(Call::LogEnd);
    }
    author.go_on(4);
}

//! Scripts of settings texts and of the sets that are kept.

use crate::author::Author;
use crate::call::{Call, Settings, LONGEST_BODY};
use crate::mark::{Content, Mark, Value};
use crate::random::Random;
use crate::script::Script;
use crate::settings::text_of;

/// What a line may hold in place of its number: none of these is one from 1 to 512.
const BAD: [&str; 23] = [
    "0",
    "513",
    "007",
    "01",
    "+5",
    "-5",
    "",
    " 5",
    "5 ",
    "5\r",
    "5\t",
    "0x5",
    "5.0",
    "5=5",
    "1000",
    "65537",
    "4294967297",
    "18446744073709551617",
    "five",
    "5\u{661}",
    "\u{661}",
    "==",
    "5,",
];

/// What may stand in place of a whole line, with its newline or without.
const LINES: [&str; 8] =
    ["", "\n", "\r\n", "share\n", "share9=5\n", "version=1\n", "Share0=5\n", "limit0 =5\n"];

/// What may be left over.
const LEFT: [&str; 5] = ["\n", "x", " ", "share8=1\n", "version=1\n"];

fn read(body: Vec<u8>) -> Call {
    Call::Settings { body }
}

fn lines_of(text: &[u8]) -> Vec<Vec<u8>> {
    text.split_inclusive(|&byte| byte == b'\n').map(<[u8]>::to_vec).collect()
}

/// The text with other bytes in the place of a line, counted from 1.
fn with_line(text: &[u8], line: usize, other: &[u8]) -> Vec<u8> {
    let mut lines = lines_of(text);
    lines[line - 1] = other.to_vec();
    lines.concat()
}

/// The text with something else behind a line's name.
fn with_number(text: &[u8], line: usize, other: &str) -> Vec<u8> {
    let old = lines_of(text)[line - 1].clone();
    let name = old.iter().position(|&byte| byte == b'=').expect("a name") + 1;
    with_line(text, line, &[&old[..name], other.as_bytes(), b"\n"].concat())
}

/// Pairs that the opening accepts, of few runs, so that a limit is soon met.
const FEW: Settings = [(1, 3), (2, 4), (1, 2), (3, 3), (1, 1), (2, 2), (1, 5), (1, 512)];
/// Pairs with which an opening is refused, though their text reads well.
const UNORDERED: Settings = [(2, 1), (1, 1), (1, 1), (1, 1), (1, 1), (1, 1), (1, 1), (1, 1)];
const OVER: Settings =
    [(65, 512), (64, 64), (64, 64), (64, 64), (64, 64), (64, 64), (64, 64), (64, 64)];

/// One bad line of every kind, on each of these lines.
fn bad_texts(at: impl Iterator<Item = usize>) -> Vec<Call> {
    let good = text_of(&FEW);
    let mut list = Vec::new();
    for line in at {
        let own = lines_of(&good)[line - 1].clone();
        let bare = &own[..own.len() - 1];
        let cut: usize = lines_of(&good)[..line].iter().map(Vec::len).sum();
        list.extend(BAD.map(|other| with_number(&good, line, other)));
        list.extend(LINES.map(|other| with_line(&good, line, other.as_bytes())));
        list.push(with_line(&good, line, bare));
        list.push(with_line(&good, line, &[&own[..], &own[..]].concat()));
        list.extend([cut, cut - 1, cut - 2].map(|end| good[..end].to_vec()));
    }
    list.into_iter().map(read).collect()
}

/// Texts as a whole: the widest numbers, what is left over, a bad line before it, no text at all.
fn texts() -> Vec<Call> {
    let good = text_of(&FEW);
    let wide = text_of(&[(512, 512); 8]);
    let mut list = vec![Vec::new(), good.clone(), wide, text_of(&[(1, 1); 8])];
    list.extend(LEFT.map(|left| [&good, left.as_bytes()].concat()));
    list.push([with_number(&good, 17, "0"), b"more\n".to_vec()].concat());
    list.push([with_number(&good, 2, "0"), with_number(&good, 9, "513")].concat());
    list.push(with_number(&good, 1, "2"));
    list.push(with_number(&good, 1, "512"));
    list.push(vec![b'\n'; 40]);
    list.push(b"op=length\ntank=00\n".to_vec());
    list.into_iter().map(read).collect()
}

/// Bytes that no text has.
fn raw() -> Vec<Call> {
    let good = text_of(&FEW);
    let list = [(0..=255).collect(), with_number(&good, 3, "5\0"), vec![0; 300], vec![255; 65]];
    list.into_iter().map(read).collect()
}

/// What is asked of the sets around those that are kept.
fn asked(last: u64) -> impl Iterator<Item = Call> {
    let number = move |back: u64| Call::Set { number: (last + 2).wrapping_sub(back) };
    (0..8)
        .map(number)
        .chain([0, 1 << 32, (1 << 32) + last, u64::MAX].map(|number| Call::Set { number }))
}

/// Edits that meet each tank's limit, then what the tanks hold.
fn limits() -> impl Iterator<Item = Call> {
    let mark = Mark { id: (1, 5, 1), content: Content { cnt: 0, flags: 0x84, value: Value::Null } };
    let edit = move |(tank, place): (u64, u64)| {
        let start = 2 * place;
        Call::Annotate { tank, start, end: start + 1, mark }
    };
    let edits = (0..8).flat_map(|tank| (0..3).map(move |place| (tank, place))).map(edit);
    edits.chain((0..8).map(|tank| Call::Runs { tank }))
}

/// Sets that are read, asked for and opened with, kept or not. None may have been read before.
fn kept() -> Vec<Call> {
    let open = |number| Call::OpenSet { number };
    let mut calls: Vec<Call> = asked(0).collect();
    calls.extend([open(0), open(1)]);
    calls.extend(limits());
    calls.push(read(text_of(&FEW)));
    calls.extend(asked(1));
    calls.push(open(1));
    calls.extend(limits());
    calls.extend([open(0), open(2), open(u64::MAX), Call::Runs { tank: 0 }]);
    calls.push(read(with_number(&text_of(&FEW), 5, "513")));
    calls.extend([UNORDERED, OVER, FEW, [(64, 512); 8]].map(|pairs| read(text_of(&pairs))));
    calls.extend(asked(5));
    for number in 1..7 {
        calls.push(open(number));
        calls.extend(limits());
    }
    calls.push(Call::Open { settings: [(2, 1); 8] });
    calls.push(Call::Open { settings: FEW });
    calls.extend(asked(5));
    calls.push(open(4));
    calls
}

/// The fixed calls that stand among the refusals: every kind of bad line, on some of the lines.
pub fn refused() -> Vec<Call> {
    [kept(), bad_texts([1, 2, 17].into_iter()), texts()].concat()
}

/// Fixed scripts: all bad lines, and bodies at their ends.
pub fn scripts() -> Vec<Script> {
    let script = |seed: u64, calls: Vec<Call>, tail: &[u8]| Script {
        class: "settings",
        seed,
        calls,
        tail: tail.to_vec(),
    };
    let all = [kept(), bad_texts(1..18), texts(), raw()].concat();
    let malformed = b"op=length\ntank=00\n";
    let mut longest = text_of(&FEW);
    longest.resize(LONGEST_BODY as usize, b'\n');
    let bodies = [texts(), raw(), vec![read(longest.clone()), Call::Set { number: 3 }]].concat();
    let over = [b"op=settings\nbytes=131073\n".to_vec(), vec![b'\n'; 131_073]].concat();
    let short = [b"op=settings\nbytes=131072\n", &longest[1..]].concat();
    let within = Call::text(&read(text_of(&FEW)));
    let cuts = (0..within.len()).step_by(7).zip(16..);
    let mut list = vec![
        script(0, all, b""),
        script(2, vec![read(Vec::new())], malformed),
        script(3, texts(), malformed),
    ];
    list.extend(cuts.map(|(end, seed)| script(seed, texts(), &within[..end])));
    list.extend([
        script(1, bodies.clone(), malformed),
        script(5, texts(), &over),
        script(9, texts(), &short),
        script(10, bodies, b"op=set\nnumber=1"),
    ]);
    list
}

/// A text that is changed somewhere, mostly into a bad one.
fn spoilt(random: &mut Random, text: &[u8]) -> Vec<u8> {
    let line = 1 + random.below(17) as usize;
    let at = random.below(text.len() as u64) as usize;
    let mut other = text.to_vec();
    match random.below(9) {
        0..=2 => return with_number(text, line, random.pick(&BAD)),
        3 => return with_line(text, line, random.pick(&LINES).as_bytes()),
        4 => other.extend(random.pick(&LEFT).bytes()),
        5 => other.truncate(at),
        6 => other[at] = random.bits() as u8,
        7 => other.insert(at, random.pick(b"\n=0159 \r\0\xff")),
        _ => {
            other.remove(at);
        }
    }
    other
}

/// Pairs that the opening accepts and does not accept, of few runs and of many.
fn pairs(author: &mut Author) -> Settings {
    let most = author.random.pick(&[3, 9, 64, 512]);
    let ordered = !author.random.one_in(4);
    std::array::from_fn(|_| {
        let (one, two) = (1 + author.random.below(most), 1 + author.random.below(most));
        if ordered {
            return (one.min(two).min(64), one.max(two));
        }
        (one, two)
    })
}

/// The number of a set: mostly one that is kept, or was, or will be.
fn number(author: &mut Author) -> u64 {
    let near = (author.tanks.kept.number + 1).saturating_sub(author.random.below(7));
    if author.random.one_in(12) {
        return author.random.pick(&[0, 1, 1 << 32, (1 << 32) + near, u64::MAX]);
    }
    near
}

/// One more call, or an opening with a set and edits after it.
pub fn go_on(author: &mut Author) {
    match author.random.below(8) {
        0..=2 => {
            let settings = pairs(author);
            let again = author.random.one_in(6).then(|| author.tanks.kept.sets.first().copied());
            let text = text_of(&again.flatten().unwrap_or(settings));
            author.say(read(text));
        }
        3 => {
            let settings = pairs(author);
            let text = spoilt(&mut author.random, &text_of(&settings));
            author.say(read(text));
        }
        4 | 5 => {
            let number = number(author);
            author.say(Call::Set { number });
        }
        6 => {
            let number = number(author);
            author.say(Call::OpenSet { number });
        }
        _ => author.go_on(6),
    }
}

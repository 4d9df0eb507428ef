//! The console's input: bytes to calls, or the number of the first malformed line.

use crate::call::{Call, Field, LONGEST_BODY, SHAPES};
use crate::mark::{Value, PARTIES};

/// A line's bytes before its newline, at most.
const LONGEST_LINE: usize = 64;

pub const KINDS: [&str; 4] = ["null", "bool", "whole", "decimal"];

/// What an input holds: its whole groups, where they end, and the malformed line after them.
pub struct Read {
    pub calls: Vec<Call>,
    pub whole: usize,
    pub malformed: Option<u64>,
}

pub fn read(input: &[u8]) -> Read {
    let mut read = Read { calls: Vec::new(), whole: 0, malformed: None };
    let mut group: Option<Group> = None;
    let mut at = 0;
    let mut newlines = 0;
    while let Some(len) = input[at..].iter().position(|&byte| byte == b'\n') {
        let line = &input[at..at + len];
        let Some(step) = taken(group.take(), line) else {
            read.malformed = Some(newlines + 1);
            return read;
        };
        at += len + 1;
        newlines += 1;
        match step {
            Step::Within(more) => group = Some(more),
            Step::Whole(whole) => {
                let Some(body) = input[at..].get(..whole.body()) else {
                    read.malformed = Some(newlines + in_body(&input[at..]) + 1);
                    return read;
                };
                at += body.len();
                newlines += in_body(body);
                read.calls.push(Call::of(whole.shape, &whole.fields, body));
                read.whole = at;
            }
        }
    }
    if at < input.len() || group.is_some() {
        read.malformed = Some(newlines + 1);
    }
    read
}

/// A group of which some lines have come.
#[derive(Clone, Debug, PartialEq)]
pub struct Group {
    pub shape: usize,
    lines: usize,
    pub fields: Vec<Field>,
    kind: String,
}

pub enum Step {
    Within(Group),
    Whole(Group),
}

impl Group {
    /// How many bytes come behind its lines.
    fn body(&self) -> usize {
        match (SHAPES[self.shape].1.last(), self.fields.last()) {
            (Some(&"bytes"), Some(Field::Number(size))) => *size as usize,
            _ => 0,
        }
    }

    /// What stands behind a field's name; nothing where it is malformed. A letter may be any byte.
    fn take(&mut self, name: &str, rest: &[u8]) -> Option<()> {
        if let ("letter", [letter]) = (name, rest) {
            self.fields.push(Field::Letter(*letter));
            return Some(());
        }
        let text = std::str::from_utf8(rest).ok()?;
        match name {
            "letter" => return None,
            "kind" => {
                self.kind = KINDS.contains(&text).then(|| text.into())?;
            }
            "value" => self.fields.push(Field::Value(value(&self.kind, text)?)),
            "party" => {
                let party = PARTIES.into_iter().find(|party| party.name() == text)?;
                self.fields.push(Field::Party(party));
            }
            "cnt" => self.fields.push(Field::Signed(i32::try_from(whole(text)?).ok()?)),
            _ => self.fields.push(Field::Number(number(text, largest(name))?)),
        }
        Some(())
    }
}

fn in_body(bytes: &[u8]) -> u64 {
    bytes.iter().filter(|&&byte| byte == b'\n').count() as u64
}

/// One more line; nothing where it is malformed.
pub fn taken(group: Option<Group>, line: &[u8]) -> Option<Step> {
    if line.len() > LONGEST_LINE {
        return None;
    }
    let equals = line.iter().position(|&byte| byte == b'=')?;
    let (name, rest) = (std::str::from_utf8(&line[..equals]).ok()?, &line[equals + 1..]);
    let Some(mut group) = group else {
        let shape = SHAPES.iter().position(|shape| name == "op" && shape.0.as_bytes() == rest)?;
        let fields = Vec::new();
        let group = Group { shape, lines: 0, fields, kind: String::new() };
        let whole = SHAPES[shape].1.is_empty();
        return Some(if whole { Step::Whole(group) } else { Step::Within(group) });
    };
    let names = SHAPES[group.shape].1;
    if names[group.lines] != name {
        return None;
    }
    group.take(name, rest)?;
    group.lines += 1;
    if group.lines == names.len() {
        return Some(Step::Whole(group));
    }
    Some(Step::Within(group))
}

fn largest(name: &str) -> u64 {
    match name {
        "key" | "hold" => u16::MAX as u64,
        "lamport" => u32::MAX as u64,
        "flags" => u8::MAX as u64,
        "place" => 7,
        "bytes" => LONGEST_BODY,
        _ => u64::MAX,
    }
}

/// Decimal digits without leading zeros.
pub fn number(text: &str, largest: u64) -> Option<u64> {
    let digits = !text.is_empty() && text.bytes().all(|byte| byte.is_ascii_digit());
    let plain = digits && (text == "0" || !text.starts_with('0'));
    text.parse().ok().filter(|&number| plain && number <= largest)
}

pub fn value(kind: &str, text: &str) -> Option<Value> {
    match kind {
        "null" => text.is_empty().then_some(Value::Null),
        "bool" => number(text, 1).map(|bit| Value::Bool(bit == 1)),
        "whole" => whole(text).map(Value::Whole),
        _ => bits(text).map(Value::Decimal),
    }
}

/// Sixteen lower-case hex digits.
pub fn bits(text: &str) -> Option<u64> {
    let hex = |byte: u8| byte.is_ascii_digit() || (b'a'..=b'f').contains(&byte);
    let sixteen = text.len() == 16 && text.bytes().all(hex);
    sixteen.then(|| u64::from_str_radix(text, 16).ok())?
}

/// A signed number, never -0.
pub fn whole(text: &str) -> Option<i64> {
    match text.strip_prefix('-') {
        Some(digits) => {
            let size = number(digits, 1 << 63).filter(|&size| size > 0)?;
            Some((size as i64).wrapping_neg())
        }
        None => number(text, i64::MAX as u64).map(|size| size as i64),
    }
}

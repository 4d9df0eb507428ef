//! The calls of the console, and their lines.

use crate::mark::{Content, Id, Mark, Party, Value};

pub type Settings = [(u64, u64); 8];

#[derive(Clone, Debug, PartialEq)]
pub enum Call {
    Open { settings: Settings },
    Annotate { tank: u64, start: u64, end: u64, mark: Mark },
    Insert { tank: u64, at: u64, len: u64 },
    Delete { tank: u64, start: u64, end: u64 },
    Remove { tank: u64, id: Id, last: u64 },
    Length { tank: u64 },
    Touched { tank: u64 },
    Runs { tank: u64 },
    Value { tank: u64, at: u64, key: u16 },
    HasKey { tank: u64, start: u64, end: u64, key: u16 },
    AllValue { tank: u64, start: u64, end: u64, key: u16, value: Value },
    Same { tank: u64, start: u64, end: u64 },
    Marks { tank: u64, at: u64 },
    Inherit { tank: u64, at: u64 },
    Mark { tank: u64, at: u64, rank: u64 },
    Inherited { tank: u64, at: u64, rank: u64 },
    Stretches { tank: u64, start: u64, end: u64, room: u64 },
    StretchesNeeded { tank: u64, start: u64, end: u64 },
    Whole { tank: u64, room: u64 },
    WholeNeeded { tank: u64 },
    Anchors { tank: u64, room: u64 },
    Find { tank: u64, at: u64 },
    Age { tank: u64, before: u64, budget: u64 },
    Settings { body: Vec<u8> },
    Set { number: u64 },
    OpenSet { number: u64 },
    Log { body: Vec<u8> },
    LogEnd,
    Range { start: u64, end: u64 },
    Plan { tank: u64, hold: u16, runs: u64 },
    Propose { tank: u64, hold: u16, runs: u64 },
    Legend { place: u64, key: u16, letter: u8 },
    Strip { tank: u64, start: u64, k: u64, room: u64 },
    Party { party: Party },
    Save { room: u64 },
    SaveNeeded,
    Restore { body: Vec<u8> },
}

/// Each op and its fields, in the order of their lines.
pub const SHAPES: [(&str, &[&str]); 37] = [
    ("open", &OPEN),
    ("annotate", &ANNOTATE),
    ("insert", &["tank", "at", "len"]),
    ("delete", &["tank", "start", "end"]),
    ("remove", &["tank", "key", "lamport", "peer", "last"]),
    ("length", &["tank"]),
    ("touched", &["tank"]),
    ("runs", &["tank"]),
    ("value", &["tank", "at", "key"]),
    ("has_key", &["tank", "start", "end", "key"]),
    ("all_value", &["tank", "start", "end", "key", "kind", "value"]),
    ("same", &["tank", "start", "end"]),
    ("marks", &["tank", "at"]),
    ("inherit", &["tank", "at"]),
    ("mark", &["tank", "at", "rank"]),
    ("inherited", &["tank", "at", "rank"]),
    ("stretches", &["tank", "start", "end", "room"]),
    ("stretches_needed", &["tank", "start", "end"]),
    ("whole", &["tank", "room"]),
    ("whole_needed", &["tank"]),
    ("anchors", &["tank", "room"]),
    ("find", &["tank", "at"]),
    ("age", &["tank", "before", "budget"]),
    ("settings", &["bytes"]),
    ("set", &["number"]),
    ("open_set", &["number"]),
    ("log", &["bytes"]),
    ("log_end", &[]),
    ("range", &["start", "end"]),
    ("plan", &["tank", "hold", "runs"]),
    ("propose", &["tank", "hold", "runs"]),
    ("legend", &["place", "key", "letter"]),
    ("strip", &["tank", "start", "k", "room"]),
    ("party", &["party"]),
    ("save", &["room"]),
    ("save_needed", &[]),
    ("restore", &["bytes"]),
];

/// A body has so many bytes at most.
pub const LONGEST_BODY: u64 = 131_072;

const OPEN: [&str; 16] = [
    "share0", "limit0", "share1", "limit1", "share2", "limit2", "share3", "limit3", "share4",
    "limit4", "share5", "limit5", "share6", "limit6", "share7", "limit7",
];

const ANNOTATE: [&str; 10] =
    ["tank", "start", "end", "key", "lamport", "peer", "cnt", "flags", "kind", "value"];

/// What a field's line holds.
#[derive(Clone, Copy, Debug, PartialEq)]
pub enum Field {
    Number(u64),
    /// A counter.
    Signed(i32),
    Value(Value),
    /// One byte as it is.
    Letter(u8),
    Party(Party),
}

impl Call {
    /// The op's place in `SHAPES`.
    pub fn shape(&self) -> usize {
        match self {
            Call::Open { .. } => 0,
            Call::Annotate { .. } => 1,
            Call::Insert { .. } => 2,
            Call::Delete { .. } => 3,
            Call::Remove { .. } => 4,
            Call::Length { .. } => 5,
            Call::Touched { .. } => 6,
            Call::Runs { .. } => 7,
            Call::Value { .. } => 8,
            Call::HasKey { .. } => 9,
            Call::AllValue { .. } => 10,
            Call::Same { .. } => 11,
            Call::Marks { .. } => 12,
            Call::Inherit { .. } => 13,
            Call::Mark { .. } => 14,
            Call::Inherited { .. } => 15,
            Call::Stretches { .. } => 16,
            Call::StretchesNeeded { .. } => 17,
            Call::Whole { .. } => 18,
            Call::WholeNeeded { .. } => 19,
            Call::Anchors { .. } => 20,
            Call::Find { .. } => 21,
            Call::Age { .. } => 22,
            Call::Settings { .. } => 23,
            Call::Set { .. } => 24,
            Call::OpenSet { .. } => 25,
            Call::Log { .. } => 26,
            Call::LogEnd => 27,
            Call::Range { .. } => 28,
            Call::Plan { .. } => 29,
            Call::Propose { .. } => 30,
            Call::Legend { .. } => 31,
            Call::Strip { .. } => 32,
            Call::Party { .. } => 33,
            Call::Save { .. } => 34,
            Call::SaveNeeded => 35,
            Call::Restore { .. } => 36,
        }
    }

    pub fn name(&self) -> &'static str {
        SHAPES[self.shape()].0
    }

    pub fn tank(&self) -> Option<u64> {
        let names = SHAPES[self.shape()].1;
        match self.fields().first() {
            Some(&Field::Number(tank)) if names[0] == "tank" => Some(tank),
            _ => None,
        }
    }

    /// How many newlines the call's group has, those in its body among them.
    pub fn lines(&self) -> u64 {
        let in_body = self.body().iter().filter(|&&byte| byte == b'\n').count();
        (1 + SHAPES[self.shape()].1.len() + in_body) as u64
    }

    /// The bytes behind the call's lines.
    pub fn body(&self) -> &[u8] {
        match self {
            Call::Settings { body } | Call::Log { body } | Call::Restore { body } => body,
            _ => &[],
        }
    }

    /// The whole group: its lines and its body.
    pub fn text(&self) -> Vec<u8> {
        let (name, names) = SHAPES[self.shape()];
        let mut text = format!("op={name}\n").into_bytes();
        for (name, field) in names.iter().zip(self.fields()) {
            text.extend(match field {
                Field::Number(number) => format!("{name}={number}\n").into_bytes(),
                Field::Signed(number) => format!("{name}={number}\n").into_bytes(),
                Field::Value(value) => {
                    format!("kind={}\nvalue={}\n", value.kind(), value.text()).into_bytes()
                }
                Field::Letter(letter) => [name.as_bytes(), &[b'=', letter, b'\n']].concat(),
                Field::Party(party) => format!("{name}={}\n", party.name()).into_bytes(),
            });
        }
        text.extend(self.body());
        text
    }

    /// The fields in the order of `SHAPES`; a value stands for its two lines.
    pub fn fields(&self) -> Vec<Field> {
        let numbers = |list: &[u64]| list.iter().copied().map(Field::Number).collect::<Vec<_>>();
        match *self {
            Call::Open { settings } => {
                let pairs = settings.iter().flat_map(|&(share, limit)| [share, limit]);
                pairs.map(Field::Number).collect()
            }
            Call::Annotate { tank, start, end, mark } => {
                let Mark { id, content } = mark;
                let (key, lamport, peer) = (id.0 as u64, id.1 as u64, id.2);
                let mut list = numbers(&[tank, start, end, key, lamport, peer]);
                list.push(Field::Signed(content.cnt));
                list.push(Field::Number(content.flags as u64));
                list.push(Field::Value(content.value));
                list
            }
            Call::AllValue { tank, start, end, key, value } => {
                let mut list = numbers(&[tank, start, end, key as u64]);
                list.push(Field::Value(value));
                list
            }
            Call::Insert { tank, at, len } => numbers(&[tank, at, len]),
            Call::Remove { tank, id, last } => {
                numbers(&[tank, id.0 as u64, id.1 as u64, id.2, last])
            }
            Call::Value { tank, at, key } => numbers(&[tank, at, key as u64]),
            Call::HasKey { tank, start, end, key } => numbers(&[tank, start, end, key as u64]),
            Call::Length { tank }
            | Call::Touched { tank }
            | Call::Runs { tank }
            | Call::WholeNeeded { tank } => numbers(&[tank]),
            Call::Age { tank, before, budget } => numbers(&[tank, before, budget]),
            Call::Settings { ref body } | Call::Log { ref body } | Call::Restore { ref body } => {
                numbers(&[body.len() as u64])
            }
            Call::LogEnd | Call::SaveNeeded => Vec::new(),
            Call::Save { room } => numbers(&[room]),
            Call::Set { number } | Call::OpenSet { number } => numbers(&[number]),
            Call::Range { start, end } => numbers(&[start, end]),
            Call::Plan { tank, hold, runs } | Call::Propose { tank, hold, runs } => {
                numbers(&[tank, hold as u64, runs])
            }
            Call::Legend { place, key, letter } => {
                let mut list = numbers(&[place, key as u64]);
                list.push(Field::Letter(letter));
                list
            }
            Call::Strip { tank, start, k, room } => numbers(&[tank, start, k, room]),
            Call::Party { party } => vec![Field::Party(party)],
            Call::Delete { tank, start, end }
            | Call::Same { tank, start, end }
            | Call::StretchesNeeded { tank, start, end } => numbers(&[tank, start, end]),
            Call::Marks { tank, at } | Call::Inherit { tank, at } | Call::Find { tank, at } => {
                numbers(&[tank, at])
            }
            Call::Mark { tank, at, rank } | Call::Inherited { tank, at, rank } => {
                numbers(&[tank, at, rank])
            }
            Call::Stretches { tank, start, end, room } => numbers(&[tank, start, end, room]),
            Call::Whole { tank, room } | Call::Anchors { tank, room } => numbers(&[tank, room]),
        }
    }

    /// The call of an op from its fields and its body: the inverse of `shape`, `fields` and `body`.
    pub fn of(shape: usize, fields: &[Field], body: &[u8]) -> Call {
        let n = |place: usize| match fields[place] {
            Field::Number(number) => number,
            _ => unreachable!("a number stands here"),
        };
        let v = |place: usize| match fields[place] {
            Field::Value(value) => value,
            _ => unreachable!("a value stands here"),
        };
        let letter = |place: usize| match fields[place] {
            Field::Letter(letter) => letter,
            _ => unreachable!("a letter stands here"),
        };
        let id = |place: usize| (n(place) as u16, n(place + 1) as u32, n(place + 2));
        let tank = if let Some(&Field::Number(tank)) = fields.first() { tank } else { 0 };
        let (start, end) = (1, 2);
        match shape {
            0 => Call::Open { settings: std::array::from_fn(|t| (n(2 * t), n(2 * t + 1))) },
            1 => {
                let Field::Signed(cnt) = fields[6] else { unreachable!("a counter stands here") };
                let content = Content { cnt, flags: n(7) as u8, value: v(8) };
                let mark = Mark { id: id(3), content };
                Call::Annotate { tank, start: n(start), end: n(end), mark }
            }
            2 => Call::Insert { tank, at: n(1), len: n(2) },
            3 => Call::Delete { tank, start: n(start), end: n(end) },
            4 => Call::Remove { tank, id: id(1), last: n(4) },
            5 => Call::Length { tank },
            6 => Call::Touched { tank },
            7 => Call::Runs { tank },
            8 => Call::Value { tank, at: n(1), key: n(2) as u16 },
            9 => Call::HasKey { tank, start: n(start), end: n(end), key: n(3) as u16 },
            10 => {
                let key = n(3) as u16;
                Call::AllValue { tank, start: n(start), end: n(end), key, value: v(4) }
            }
            11 => Call::Same { tank, start: n(start), end: n(end) },
            12 => Call::Marks { tank, at: n(1) },
            13 => Call::Inherit { tank, at: n(1) },
            14 => Call::Mark { tank, at: n(1), rank: n(2) },
            15 => Call::Inherited { tank, at: n(1), rank: n(2) },
            16 => Call::Stretches { tank, start: n(start), end: n(end), room: n(3) },
            17 => Call::StretchesNeeded { tank, start: n(start), end: n(end) },
            18 => Call::Whole { tank, room: n(1) },
            19 => Call::WholeNeeded { tank },
            20 => Call::Anchors { tank, room: n(1) },
            21 => Call::Find { tank, at: n(1) },
            22 => Call::Age { tank, before: n(1), budget: n(2) },
            23 => Call::Settings { body: body.to_vec() },
            24 => Call::Set { number: n(0) },
            25 => Call::OpenSet { number: n(0) },
            26 => Call::Log { body: body.to_vec() },
            27 => Call::LogEnd,
            28 => Call::Range { start: n(0), end: n(1) },
            29 => Call::Plan { tank, hold: n(1) as u16, runs: n(2) },
            30 => Call::Propose { tank, hold: n(1) as u16, runs: n(2) },
            31 => Call::Legend { place: n(0), key: n(1) as u16, letter: letter(2) },
            32 => Call::Strip { tank, start: n(start), k: n(2), room: n(3) },
            33 => {
                let Field::Party(party) = fields[0] else { unreachable!("a party stands here") };
                Call::Party { party }
            }
            34 => Call::Save { room: n(0) },
            35 => Call::SaveNeeded,
            _ => Call::Restore { body: body.to_vec() },
        }
    }
}

//! All short scripts over a small alphabet of edits, each followed by questions.

use crate::call::Call;
use crate::classes::ROOMY;
use crate::mark::{Content, Id, Mark, Value};
use crate::parties::{LAB, PLANT, WIDE};
use crate::script::Script;
use crate::tank::T;

/// The tank in which the edits meet.
#[derive(Clone, Copy, PartialEq)]
pub enum Start {
    /// A fresh tank: the far end is out of reach.
    Fresh,
    /// A touched tank of three positions, so that the edits reach its end.
    Short,
}

/// What is asked after the edits.
#[derive(Clone, Copy, PartialEq)]
pub enum Asked {
    /// What tells the whole tank.
    State,
    /// Every question on every position and range.
    All,
}

const MARKS: [(Id, Value); 3] = [
    ((1, 5, 1), Value::Decimal(0)),
    ((1, 6, 1), Value::Decimal(0x8000_0000_0000_0000)),
    ((2, 3, 1), Value::Bool(true)),
];

/// Places 0 to 3 are used.
const PLACES: u64 = 4;

fn mark(number: usize) -> Mark {
    let (id, value) = MARKS[number];
    // The later mark has the lesser counter.
    Mark { id, content: Content { cnt: -(number as i32), flags: 0x84, value } }
}

fn ranges() -> impl Iterator<Item = (u64, u64)> {
    (0..PLACES).flat_map(|start| (start + 1..PLACES).map(move |end| (start, end)))
}

/// The edits with so many marks.
pub fn alphabet(marks: usize) -> Vec<Call> {
    let mut list = Vec::new();
    for (start, end) in ranges() {
        let annotate = |number| Call::Annotate { tank: 0, start, end, mark: mark(number) };
        list.extend((0..marks).map(annotate));
        list.push(Call::Delete { tank: 0, start, end });
    }
    list.extend((0..PLACES).map(|at| Call::Insert { tank: 0, at, len: 1 }));
    for last in 0..PLACES - 1 {
        let remove = |number: usize| Call::Remove { tank: 0, id: MARKS[number].0, last };
        list.extend((0..marks).map(remove));
    }
    let age = |(before, budget)| Call::Age { tank: 0, before, budget };
    list.extend([(PLACES - 1, 1), (PLACES - 2, 2)].map(age));
    list
}

/// Every script of exactly `depth` edits.
pub fn scripts(
    start: Start,
    asked: Asked,
    marks: usize,
    depth: u32,
) -> impl Iterator<Item = Script> {
    let letters: Vec<Vec<Call>> = alphabet(marks).into_iter().map(|edit| vec![edit]).collect();
    edits(letters, start, depth).map(move |(number, mut calls)| {
        calls.insert(0, Call::Open { settings: ROOMY });
        calls.extend(after(asked));
        Script { class: "exhaust", seed: number, calls, tail: Vec::new() }
    })
}

/// The same with one mark, of either party: both have its triple, with two contents.
pub fn both(start: Start, asked: Asked, depth: u32) -> impl Iterator<Item = Script> {
    let mut letters: Vec<Vec<Call>> = alphabet(1).into_iter().map(|edit| vec![edit]).collect();
    for edit in alphabet(1) {
        let theirs = match edit {
            Call::Annotate { tank, start, end, .. } => {
                let content = Content { cnt: 9, flags: 0x86, value: Value::Bool(false) };
                let mark = Mark { id: MARKS[0].0, content };
                Call::Annotate { tank, start, end, mark }
            }
            Call::Remove { .. } => edit,
            _ => continue,
        };
        letters.push(vec![LAB, theirs, PLANT]);
    }
    edits(letters, start, depth).map(move |(number, mut calls)| {
        calls.insert(0, Call::Open { settings: WIDE });
        calls.extend([after(asked), vec![LAB], after(asked), vec![PLANT]].concat());
        Script { class: "both", seed: number, calls, tail: Vec::new() }
    })
}

/// Every sequence of exactly `depth` edits.
fn edits(
    letters: Vec<Vec<Call>>,
    start: Start,
    depth: u32,
) -> impl Iterator<Item = (u64, Vec<Call>)> {
    let count = (letters.len() as u64).pow(depth);
    (0..count).map(move |number| {
        let mut calls = Vec::new();
        if start == Start::Short {
            calls.push(Call::Annotate { tank: 0, start: 0, end: 1, mark: mark(2) });
            calls.push(Call::Delete { tank: 0, start: PLACES - 1, end: T });
        }
        let mut rest = number;
        for _ in 0..depth {
            calls.extend(letters[(rest % letters.len() as u64) as usize].clone());
            rest /= letters.len() as u64;
        }
        (number, calls)
    })
}

fn after(asked: Asked) -> Vec<Call> {
    match asked {
        Asked::State => state(),
        Asked::All => [state(), questions()].concat(),
    }
}

fn state() -> Vec<Call> {
    vec![
        Call::Length { tank: 0 },
        Call::Runs { tank: 0 },
        Call::Whole { tank: 0, room: u64::MAX },
        Call::Anchors { tank: 0, room: u64::MAX },
    ]
}

fn questions() -> Vec<Call> {
    let tank = 0;
    let mut list = vec![Call::Touched { tank }, Call::WholeNeeded { tank }];
    for at in 0..=PLACES {
        list.extend([
            Call::Marks { tank, at },
            Call::Inherit { tank, at },
            Call::Find { tank, at },
        ]);
        list.extend((1..3).map(|key| Call::Value { tank, at, key }));
        list.extend((0..3).map(|rank| Call::Mark { tank, at, rank }));
        list.extend((0..2).map(|rank| Call::Inherited { tank, at, rank }));
    }
    for (start, k) in [(0, 1), (1, 2), (0, 3), (2, 1), (PLACES, 1)] {
        list.push(Call::Strip { tank, start, k, room: 96 });
    }
    for hold in 1..3 {
        list.extend((0..4).map(|runs| Call::Propose { tank, hold, runs }));
    }
    for (start, end) in ranges().chain([(0, PLACES), (2, 2), (3, 1), (PLACES, PLACES)]) {
        list.push(Call::Same { tank, start, end });
        list.push(Call::Stretches { tank, start, end, room: 6 });
        list.push(Call::StretchesNeeded { tank, start, end });
        list.extend((1..3).map(|key| Call::HasKey { tank, start, end, key }));
        for (id, value) in MARKS {
            list.push(Call::AllValue { tank, start, end, key: id.0, value });
        }
    }
    list
}

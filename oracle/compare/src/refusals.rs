//! Every refusal of every call that can get it, and what lies just beside it.

use crate::call::{Call, Settings};
use crate::classes::ROOMY;
use crate::logs;
use crate::mark::{Content, Id, Mark, Value};
use crate::parties;
use crate::plans;
use crate::saves;
use crate::sets;
use crate::strips;
use crate::tank::{LONGEST, T};

const ID: Id = (1, 5, 1);
const NAN: Value = Value::Decimal(0x7ff8_0000_0000_0000);

fn mark(number: u64) -> Mark {
    Mark {
        id: (1, 5, number),
        content: Content { cnt: -(number as i32), flags: 0x84, value: Value::Whole(-1) },
    }
}

fn with(value: Value, flags: u8) -> Mark {
    Mark { id: ID, content: Content { cnt: -1, flags, value } }
}

fn counted(cnt: i32) -> Mark {
    Mark { id: ID, content: Content { cnt, ..mark(1).content } }
}

fn annotate(tank: u64, start: u64, end: u64, mark: Mark) -> Call {
    Call::Annotate { tank, start, end, mark }
}

/// All calls but the opening, with these numbers.
pub fn every(tank: u64, start: u64, end: u64) -> Vec<Call> {
    let (at, last, len, key, room, rank) = (end, end, end - start, 1, 1536, 0);
    vec![
        annotate(tank, start, end, mark(1)),
        Call::Insert { tank, at, len },
        Call::Delete { tank, start, end },
        Call::Remove { tank, id: ID, last },
        Call::Length { tank },
        Call::Touched { tank },
        Call::Runs { tank },
        Call::Value { tank, at, key },
        Call::HasKey { tank, start, end, key },
        Call::AllValue { tank, start, end, key, value: Value::Null },
        Call::Same { tank, start, end },
        Call::Marks { tank, at },
        Call::Inherit { tank, at },
        Call::Mark { tank, at, rank },
        Call::Inherited { tank, at, rank },
        Call::Stretches { tank, start, end, room },
        Call::StretchesNeeded { tank, start, end },
        Call::Whole { tank, room },
        Call::WholeNeeded { tank },
        Call::Anchors { tank, room },
        Call::Find { tank, at },
        Call::Age { tank, before: end, budget: len },
        Call::Range { start, end },
        Call::Plan { tank, hold: key, runs: 1 },
        Call::Propose { tank, hold: key, runs: len },
        Call::Strip { tank, start, k: len, room: 96 },
    ]
}

/// Openings that the rule allows and does not allow.
fn openings() -> Vec<Call> {
    let mut list: Vec<Settings> = vec![[(64, 64); 8], [(1, 512); 8], ROOMY];
    for (place, pair) in [(0, (0, 1)), (7, (2, 1)), (3, (1, 513)), (5, (65537, 65537))] {
        let mut settings = [(1, 1); 8];
        settings[place] = pair;
        list.push(settings);
    }
    let mut over = [(64, 512); 8];
    over[7].0 = 65;
    list.push(over);
    list.push([(u64::MAX, u64::MAX); 8]);
    list.into_iter().map(|settings| Call::Open { settings }).collect()
}

/// Refusal 1, 3 and 4, untouched and touched.
fn ranges() -> Vec<Call> {
    let mut calls = vec![Call::Open { settings: [(1, 8); 8] }];
    for tank in [8, 256, 1 << 32, u64::MAX] {
        calls.extend(every(tank, 0, 1));
    }
    for touch in [None, Some(annotate(0, 0, T, with(Value::Null, 0x80)))] {
        calls.extend(touch);
        calls.extend(every(0, 5, 5));
        calls.extend(every(0, T - 1, T));
        calls.extend(every(0, T, T + 1));
        calls.extend(every(0, 0, u64::MAX));
    }
    calls.push(Call::HasKey { tank: 0, start: u64::MAX, end: 0, key: 1 });
    calls.push(Call::Stretches { tank: 0, start: u64::MAX, end: T + 1, room: 0 });
    calls
}

/// Ageing: 3 before 4, both also where there is nothing to do, and what lies just beside them.
fn ageings() -> Vec<Call> {
    let (tank, start, end) = (0, 0, T - 2);
    let mut calls = vec![Call::Open { settings: ROOMY }];
    let touch = [annotate(0, 3, 5, mark(1)), annotate(0, 5, 6, mark(2))];
    for touch in [&touch[..0], &touch] {
        calls.extend_from_slice(touch);
        for (before, budget) in [(T + 1, 0), (0, 0), (T + 1, 1), (u64::MAX, u64::MAX), (0, 1)] {
            calls.push(Call::Age { tank, before, budget });
        }
    }
    calls.push(Call::Age { tank: 1, before: T, budget: 1 });
    calls.push(Call::Length { tank: 1 });
    for (before, budget) in [(6, 1), (3, 3), (1, 1), (T - 6, 1), (1, u64::MAX)] {
        calls.push(Call::Age { tank, before, budget });
        calls.push(Call::Stretches { tank, start, end: 4, room: 12 });
    }
    calls.push(Call::Age { tank, before: end, budget: 2 });
    calls.extend([Call::Length { tank }, Call::Runs { tank }, Call::Touched { tank }]);
    calls
}

/// Refusal 5 around the largest length.
fn longest() -> Vec<Call> {
    let tank = 0;
    vec![
        Call::Open { settings: ROOMY },
        Call::Insert { tank, at: T, len: u64::MAX },
        annotate(tank, 1, 2, mark(1)),
        Call::Insert { tank, at: 0, len: LONGEST - T + 1 },
        Call::Insert { tank, at: 0, len: u64::MAX },
        Call::Insert { tank, at: 2, len: LONGEST - T },
        Call::Length { tank },
        Call::Insert { tank, at: LONGEST, len: 1 },
        Call::Insert { tank, at: LONGEST + 1, len: 1 },
        Call::Delete { tank, start: LONGEST - 1, end: LONGEST },
        Call::Insert { tank, at: LONGEST - 1, len: 1 },
        Call::Whole { tank, room: 3 },
        Call::Delete { tank, start: 0, end: LONGEST },
        Call::Length { tank },
        Call::Runs { tank },
        Call::Touched { tank },
        Call::Inherit { tank, at: 0 },
        Call::Marks { tank, at: 0 },
        Call::Find { tank, at: 0 },
        Call::Anchors { tank, room: 0 },
        annotate(tank, 0, 1, mark(1)),
        Call::Insert { tank, at: 0, len: 1 },
    ]
}

/// Refusals 6, 14, 18, 7 and 8.
fn contents() -> Vec<Call> {
    let tank = 0;
    let zero = Value::Decimal(0);
    let minus = Value::Decimal(0x8000_0000_0000_0000);
    let ask = |start, end, value| Call::AllValue { tank, start, end, key: 1, value };
    let mut calls = vec![
        Call::Open { settings: ROOMY },
        annotate(tank, 0, 4, with(NAN, 0x84)),
        ask(0, 4, NAN),
        ask(4, 4, NAN),
        annotate(tank, 0, 4, with(zero, 0x84)),
        annotate(tank, 4, 6, with(minus, 0x84)),
        annotate(tank, 4, 6, with(zero, 0x04)),
        annotate(tank, 4, 6, with(zero, 0x80)),
        annotate(tank, 4, 6, with(zero, 0x41)),
        annotate(tank, 4, 6, with(NAN, 0x41)),
        annotate(tank, 6, 4, with(zero, 0x41)),
        annotate(tank, 4, 6, with(zero, 0x82)),
        annotate(tank, 4, 6, with(NAN, 0x82)),
        annotate(tank, 4, 6, with(Value::Whole(0), 0x84)),
        annotate(tank, 4, 6, with(NAN, 0x84)),
        ask(0, 4, minus),
        ask(0, 4, Value::Whole(0)),
        ask(0, 5, zero),
        Call::Value { tank, at: 3, key: 1 },
        Call::Remove { tank, id: ID, last: 3 },
        annotate(tank, 4, 6, with(minus, 0x84)),
        Call::Value { tank, at: 5, key: 1 },
        annotate(1, 0, 1, with(zero, 0x00)),
        annotate(1, 0, 1, with(zero, 0x80)),
        Call::Delete { tank, start: 4, end: 6 },
    ];
    calls.extend((1..=49).map(|peer| annotate(tank, peer, peer + 70, mark(peer))));
    calls.push(annotate(tank, 0, 9, mark(48)));
    calls.push(Call::Marks { tank, at: 70 });
    calls.push(Call::Mark { tank, at: 70, rank: 47 });
    calls.push(Call::Mark { tank, at: 70, rank: 48 });
    calls.push(Call::Delete { tank, start: 0, end: 2 });
    calls.push(annotate(tank, 0, 9, mark(49)));
    calls.push(Call::Delete { tank, start: 0, end: 70 });
    calls.push(annotate(tank, 0, 9, mark(49)));
    calls.push(Call::Anchors { tank, room: 95 });
    calls.push(Call::Anchors { tank, room: 1 << 40 });
    calls
}

/// Another counter is another content, and has no part in identity and order.
fn counters() -> Vec<Call> {
    let tank = 0;
    let mut calls = vec![Call::Open { settings: ROOMY }];
    for cnt in [0, -1, i32::MIN, i32::MAX] {
        calls.push(annotate(tank, 0, 4, counted(cnt)));
        for other in [0, 1, -1, i32::MIN, i32::MAX] {
            calls.push(annotate(tank, 2, 9, counted(other)));
        }
        calls.extend([Call::Marks { tank, at: 8 }, Call::Runs { tank }]);
        calls.push(Call::Insert { tank, at: 3, len: 2 });
        calls.push(Call::Mark { tank, at: 4, rank: 0 });
        calls.push(Call::Inherited { tank, at: 4, rank: 0 });
        calls.push(Call::Same { tank, start: 0, end: 11 });
        calls.push(Call::Remove { tank, id: ID, last: 10 });
    }
    // 7 stands behind 6, 14 and 18.
    calls.push(annotate(tank, 0, 4, counted(5)));
    for (value, flags) in [(NAN, 0x84), (Value::Null, 0x41), (Value::Null, 0x82)] {
        calls.push(annotate(tank, 0, 4, with(value, flags)));
    }
    // The counters go down where lamports and peers go up.
    let later = |lamport: u32, peer: u64, cnt: i32| Mark {
        id: (1, lamport, peer),
        content: Content { cnt, flags: 0x84, value: Value::Whole(cnt as i64) },
    };
    calls.push(annotate(tank, 1, 3, later(5, 2, 4)));
    calls.push(annotate(tank, 2, 3, later(6, 0, i32::MIN)));
    calls.extend((0..4).map(|at| Call::Value { tank, at, key: 1 }));
    calls.extend((0..4).map(|at| Call::Marks { tank, at }));
    calls.extend((0..4).map(|rank| Call::Mark { tank, at: 2, rank }));
    calls.extend([Call::Anchors { tank, room: 9 }, Call::Whole { tank, room: 30 }]);
    calls
}

/// Refusal 9 of each edit, and refusal 11 of each list.
fn limit() -> Vec<Call> {
    let tank = 0;
    vec![
        Call::Open { settings: [(1, 4); 8] },
        annotate(tank, 10, 20, mark(1)),
        annotate(tank, 12, 18, mark(2)),
        annotate(tank, 10, 30, mark(2)),
        annotate(tank, 40, 50, mark(1)),
        Call::Insert { tank, at: 10, len: 1 },
        Call::Remove { tank, id: ID, last: 15 },
        Call::Remove { tank, id: (1, 5, 2), last: 25 },
        annotate(tank, 21, 26, mark(1)),
        Call::Runs { tank },
        Call::Stretches { tank, start: 0, end: 40, room: 11 },
        Call::Stretches { tank, start: 0, end: 40, room: 12 },
        Call::Stretches { tank, start: 13, end: 25, room: 6 },
        Call::StretchesNeeded { tank, start: 13, end: 25 },
        Call::Whole { tank, room: 5 },
        Call::Whole { tank, room: 6 },
        Call::Anchors { tank, room: 3 },
        Call::Anchors { tank, room: 4 },
        Call::Delete { tank, start: 18, end: 22 },
        annotate(tank, 1, 2, mark(1)),
        annotate(tank, 0, T - 4, mark(1)),
        annotate(tank, 0, T - 4, mark(2)),
        Call::Runs { tank },
    ]
}

/// Refusal 10 of each edit: tank 7 takes what the others leave of 512 runs.
fn pool() -> Vec<Call> {
    let tank = 7;
    let mut settings = [(1, 4); 8];
    settings[7] = (1, 512);
    let mut calls = vec![
        Call::Open { settings },
        annotate(0, 10, 20, mark(1)),
        annotate(0, 20, 30, mark(2)),
        annotate(tank, 2000, 2010, mark(1)),
        annotate(tank, 2000, 2010, mark(2)),
    ];
    let alone = |number: u64| {
        let start = 2 * number + 1;
        annotate(tank, start, start + 1, mark(number % 3 + 1))
    };
    calls.extend((0..251).map(alone));
    calls.push(annotate(tank, 498, 499, mark(5)));
    calls.extend((0..8).map(|tank| Call::Runs { tank }));
    calls.push(annotate(1, 0, 1, mark(1)));
    calls.push(Call::Insert { tank, at: 498, len: 1 });
    calls.push(Call::Remove { tank, id: ID, last: 2004 });
    calls.push(annotate(0, 40, 50, mark(1)));
    calls.push(Call::Remove { tank: 0, id: ID, last: 19 });
    calls.push(Call::Remove { tank, id: ID, last: 2004 });
    calls.push(Call::Whole { tank, room: 750 });
    calls.push(Call::WholeNeeded { tank });
    calls
}

pub fn refusals() -> Vec<Call> {
    let tanks =
        [openings(), ranges(), ageings(), longest(), contents(), counters(), limit(), pool()];
    let requests = [
        plans::refused(),
        sets::refused(),
        logs::refused(),
        strips::refused(),
        parties::refused(),
        saves::refused(),
    ];
    [tanks.concat(), requests.concat()].concat()
}

//! Scripts of plans: ranges to delete, and plans that are proposed.

use crate::answer::{Answer, Range};
use crate::author::Author;
use crate::call::{Call, Settings};
use crate::classes::ROOMY;
use crate::mark::{Content, Mark, Value};
use crate::script::Script;
use crate::tank::{Tank, LONGEST, T};

/// The key that holds in the fixed calls.
const HOLD: u16 = 9;

fn mark(key: u16, peer: u64, value: Value) -> Mark {
    Mark { id: (key, 5, peer), content: Content { cnt: -(peer as i32), flags: 0x84, value } }
}

fn annotate(tank: u64, start: u64, end: u64, mark: Mark) -> Call {
    Call::Annotate { tank, start, end, mark }
}

/// Ranges and a plan of them.
fn plan(tank: u64, hold: u16, runs: u64, ranges: &[(u64, u64)]) -> Vec<Call> {
    let mut calls: Vec<Call> =
        ranges.iter().map(|&(start, end)| Call::Range { start, end }).collect();
    calls.push(Call::Plan { tank, hold, runs });
    calls
}

/// A tank of ten positions in the stretches 0..3, 3..5 and 5..10, with 3..5 held by this value.
fn held(tank: u64, value: Value) -> Vec<Call> {
    vec![
        annotate(tank, 3, 5, mark(HOLD, 1, value)),
        annotate(tank, 5, 10, mark(1, 1, Value::Bool(true))),
        Call::Delete { tank, start: 10, end: T },
    ]
}

/// What tells a tank.
fn state(tank: u64) -> [Call; 4] {
    [
        Call::Length { tank },
        Call::Touched { tank },
        Call::Runs { tank },
        Call::Stretches { tank, start: 0, end: 1, room: 3 },
    ]
}

/// Plans with one fault each, in the tank of `held`.
const FAULTY: [(u64, &[(u64, u64)]); 18] = [
    (2, &[]),
    (2, &[(3, 5)]),
    (2, &[(0, 4)]),
    (2, &[(4, 10)]),
    (2, &[(0, 3), (3, 4)]),
    (1, &[(0, 3), (4, 10)]),
    (9, &[(0, 0)]),
    (9, &[(2, 1)]),
    (9, &[(0, 2), (2, 2)]),
    (9, &[(5, 6), (0, 1)]),
    (9, &[(0, 2), (1, 3)]),
    (9, &[(0, 1), (0, 1)]),
    (9, &[(5, 11)]),
    (9, &[(10, 11)]),
    (9, &[(10, 10)]),
    (9, &[(u64::MAX, u64::MAX)]),
    (0, &[(0, 3), (5, 10)]),
    (1, &[(0, 3), (5, 9)]),
];

/// Plans that keep the rules there.
const GOOD: [(u64, &[(u64, u64)]); 10] = [
    (3, &[]),
    (u64::MAX, &[]),
    (2, &[(0, 3)]),
    (2, &[(0, 1), (1, 3)]),
    (2, &[(5, 10)]),
    (3, &[(0, 2), (5, 6), (6, 7), (9, 10)]),
    (1, &[(0, 3), (5, 10)]),
    (1, &[(0, 1), (1, 2), (2, 3), (5, 7), (7, 10)]),
    (3, &[(9, 10)]),
    (3, &[(2, 3), (5, 6)]),
];

/// Plans of one tank, each on a tank like the one before, with the same state told after it.
fn of_ten() -> Vec<Call> {
    let mut calls = Vec::new();
    for value in [Value::Null, Value::Whole(1)] {
        calls.push(Call::Open { settings: ROOMY });
        calls.extend(held(0, value));
        for (runs, ranges) in FAULTY {
            calls.extend(plan(0, HOLD, runs, ranges));
            calls.push(Call::Runs { tank: 0 });
        }
        calls.extend(state(0));
        calls.extend((0..5).map(|runs| Call::Propose { tank: 0, hold: HOLD, runs }));
        calls.extend((0..4).map(|runs| Call::Propose { tank: 0, hold: 1, runs }));
        calls.extend((0..2).map(|runs| Call::Propose { tank: 0, hold: 2, runs }));
    }
    for (runs, ranges) in GOOD {
        calls.push(Call::Open { settings: ROOMY });
        calls.extend(held(0, Value::Null));
        calls.extend(plan(0, HOLD, runs, ranges));
        calls.extend(state(0));
        calls.extend((0..3).map(|runs| Call::Propose { tank: 0, hold: HOLD, runs }));
        // None are pending: this is the empty plan.
        calls.extend([plan(0, HOLD, 0, &[]), plan(0, HOLD, 3, &[])].concat());
    }
    calls
}

/// Pending ranges that stay, go and are counted.
fn pending() -> Vec<Call> {
    let range = |start| Call::Range { start, end: start + 1 };
    let mut calls = vec![Call::Open { settings: ROOMY }];
    calls.extend(held(0, Value::Null));
    calls.push(range(0));
    calls.extend([Call::Runs { tank: 0 }, Call::Propose { tank: 0, hold: HOLD, runs: 2 }]);
    calls.push(range(2));
    calls.push(Call::Open { settings: [(2, 1); 8] });
    calls.push(Call::Open { settings: ROOMY });
    calls.push(Call::OpenSet { number: 0 });
    calls.extend(held(0, Value::Null));
    calls.push(range(5));
    calls.push(Call::Plan { tank: 0, hold: HOLD, runs: 3 });
    calls.extend(state(0));
    // What refusal 1 leaves, and what 15 leaves: none pending.
    for (tank, start) in [(8, 0), (u64::MAX, 0), (0, 2)] {
        calls.extend([range(start), Call::Plan { tank, hold: HOLD, runs: 3 }]);
        calls.extend([range(0), Call::Plan { tank: 0, hold: HOLD, runs: 3 }]);
        calls.extend(state(0));
    }
    calls
}

/// A tank in which every other position is held, so many of them, and ranges of those between.
fn combed(tank: u64, teeth: u64) -> Vec<Call> {
    let tooth = |n: u64| annotate(tank, 2 * n + 1, 2 * n + 2, mark(HOLD, n % 3 + 1, Value::Null));
    (0..teeth).map(tooth).collect()
}

/// 32 ranges, 33 and more.
fn many() -> Vec<Call> {
    let mut calls = Vec::new();
    for count in [31, 32, 33, 34, 40] {
        let between = |n: u64| (2 * n, 2 * n + 1);
        let ranges: Vec<(u64, u64)> = (0..count).map(between).collect();
        calls.push(Call::Open { settings: ROOMY });
        calls.extend(combed(0, 40));
        calls.extend(plan(0, HOLD, 505, &ranges));
        calls.extend(state(0));
        calls.extend(plan(0, HOLD, 505, &[(0, 0)]));
        for runs in [0, 1, 16, 17, 18, 47, 48, 49, 50, 80, 81] {
            calls.push(Call::Propose { tank: 0, hold: HOLD, runs });
        }
    }
    // The 33rd and the 34th would do alone, and do not count for those before them.
    calls.extend(plan(0, 1, 505, &[(0, 1); 33]));
    calls.extend(plan(0, 1, 505, &(0..32).map(|n| (n, n + 1)).collect::<Vec<_>>()));
    calls.extend(state(0));
    calls
}

/// Untouched tanks, emptied ones, and the largest length.
fn ends() -> Vec<Call> {
    let mut calls = vec![Call::Open { settings: ROOMY }];
    for runs in [0, 1, 2, u64::MAX] {
        calls.push(Call::Propose { tank: 1, hold: HOLD, runs });
        calls.extend(plan(1, HOLD, runs, &[]));
        calls.extend(plan(1, HOLD, runs, &[(0, 1)]));
        calls.extend(plan(1, HOLD, runs, &[(0, 0)]));
        calls.extend(state(1));
    }
    calls.push(annotate(0, 1, 2, mark(1, 1, Value::Null)));
    calls.push(Call::Insert { tank: 0, at: 2, len: LONGEST - T });
    calls.extend((0..4).map(|runs| Call::Propose { tank: 0, hold: HOLD, runs }));
    calls.extend(plan(0, HOLD, 0, &[(0, LONGEST + 1)]));
    calls.extend(plan(0, 1, 1, &[(0, 1), (2, LONGEST)]));
    calls.extend(state(0));
    calls.extend((0..2).map(|runs| Call::Propose { tank: 0, hold: 1, runs }));
    calls.extend(plan(0, HOLD, 0, &[(0, 1)]));
    calls.extend(state(0));
    for runs in [0, 1] {
        calls.push(Call::Propose { tank: 0, hold: HOLD, runs });
        calls.extend(plan(0, HOLD, runs, &[]));
        calls.extend(plan(0, HOLD, runs, &[(0, 1)]));
    }
    for tank in [8, 1 << 32, u64::MAX] {
        calls.extend(plan(tank, HOLD, 9, &[]));
        calls.push(Call::Propose { tank, hold: u16::MAX, runs: u64::MAX });
    }
    calls
}

/// A night: 60 runs thinned to 40 with a held batch in the way, then aged.
fn night() -> Vec<Call> {
    let tank = 0;
    let mut calls = vec![Call::Open { settings: ROOMY }];
    calls.extend((0..60).map(|n| annotate(tank, n, n + 1, mark(1, n % 2 + 1, Value::Null))));
    calls.push(annotate(tank, 8, 10, mark(HOLD, 1, Value::Null)));
    for runs in [60, 40, 3, 2, 1] {
        calls.push(Call::Propose { tank, hold: HOLD, runs });
    }
    calls.extend(plan(tank, HOLD, 40, &[(0, 8), (10, 23)]));
    calls.extend(state(tank));
    calls.push(Call::Propose { tank, hold: HOLD, runs: 40 });
    calls.push(Call::Age { tank, before: 2, budget: 1 });
    calls.push(Call::Whole { tank, room: 1536 });
    calls
}

/// The fixed calls that stand among the refusals.
pub fn refused() -> Vec<Call> {
    [of_ten(), pending(), many(), ends(), night()].concat()
}

/// All plans of up to two ranges on the numbers 0 to 4, of which one position may be held: in a tank
/// of three positions, and in one whose end is far.
pub fn scripts() -> impl Iterator<Item = Script> {
    let numbers = || (0..5).flat_map(|start| (0..5).map(move |end| (start, end)));
    let pairs = numbers().flat_map(move |one| numbers().map(move |two| vec![one, two]));
    let ones = numbers().map(|one| vec![one]);
    let all: Vec<_> = std::iter::once(Vec::new()).chain(ones).chain(pairs).collect();
    let asked = (0..4).flat_map(|runs| [(runs, 1), (runs, 2)]);
    let asked = asked.flat_map(|asked| [(asked, 3), (asked, T)]);
    let each = asked.flat_map(move |asked| all.clone().into_iter().map(move |all| (asked, all)));
    each.zip(0..).map(|((((runs, hold), length), ranges), seed)| {
        let mut calls =
            vec![Call::Open { settings: ROOMY }, annotate(0, 1, 2, mark(1, 1, Value::Null))];
        // To the length the Rust does not go along.
        calls.extend((length < T).then_some(Call::Delete { tank: 0, start: length, end: T }));
        calls.extend(plan(0, hold, runs, &ranges));
        calls.extend([Call::Length { tank: 0 }, Call::Runs { tank: 0 }]);
        calls.push(Call::Anchors { tank: 0, room: 9 });
        Script { class: "planned", seed, calls, tail: Vec::new() }
    })
}

/// The settings of a script of plans: room for many runs in tank 0.
pub const SETTINGS: Settings = {
    let mut settings = [(20, 60); 8];
    settings[0] = (20, 372);
    settings
};

/// One more thing: edits, hold marks, a plan good or bad, or one that is proposed.
pub fn go_on(author: &mut Author) {
    let tank = author.random.below(author.habit.tanks);
    // Short tanks have their turn, but not for long.
    if state_of(author, tank).length < 30 && author.random.one_in(6) {
        author.open(SETTINGS);
    }
    match author.random.below(16) {
        0..=3 => author.go_on(5),
        4 => hold_some(author, tank),
        5 => comb(author, tank),
        6..=9 => planned(author, tank),
        10..=13 => proposed(author, tank),
        14 => too_many(author, tank),
        _ => odd(author, tank),
    }
}

/// A key that holds: mostly one that the marks have.
fn hold(author: &mut Author) -> u16 {
    author.random.pick(&[0, 1, 1, 2, 3, HOLD, HOLD, HOLD, u16::MAX])
}

/// Some positions are held, by a mark of any value.
fn hold_some(author: &mut Author, tank: u64) {
    for _ in 0..1 + author.random.below(3) {
        let value = author.random.pick(&[Value::Null, Value::Null, Value::Bool(false)]);
        let peer = 1 + (value != Value::Null) as u64;
        let start = author.random.below(12);
        let end = start + 1 + author.random.below(3);
        author.say(annotate(tank, start, end, mark(HOLD, peer, value)));
    }
}

/// Many unheld ranges, around 32 of them.
fn comb(author: &mut Author, tank: u64) {
    let teeth = 28 + author.random.below(10);
    combed(tank, teeth).into_iter().for_each(|call| {
        author.say(call);
    });
}

fn state_of(author: &Author, tank: u64) -> Tank {
    author.tanks.tanks[(tank % 8) as usize].clone()
}

/// Says the ranges and the plan, and asks what is there then.
fn submit(author: &mut Author, tank: u64, hold: u16, runs: u64, ranges: &[Range]) {
    for &Range { start, end } in ranges {
        author.say(Call::Range { start, end });
    }
    author.say(Call::Plan { tank, hold, runs });
    let room = u64::MAX;
    let all = [Call::Length { tank }, Call::Runs { tank }, Call::Whole { tank, room }];
    let call = author.random.pick(&[0, 1, 2]);
    author.say(all[call].clone());
}

/// Some of the unheld ranges, cut at places inside them, in order.
fn some_unheld(author: &mut Author, tank: &Tank, hold: u16) -> Vec<Range> {
    let places = tank.boundaries();
    let far = places.last().map_or(tank.length, |last| (last + 4).min(tank.length));
    let below = if author.random.one_in(4) { tank.length } else { far };
    let mut list = Vec::new();
    for Range { start, end } in tank.unheld(hold, below) {
        let size = (end - start).min(6);
        let from = start + author.random.below(size).min(author.random.below(size));
        let to = end - author.random.below((end - from).min(3));
        match author.random.below(6) {
            0 => {}
            1 if to - from > 1 => {
                let middle = from + 1 + author.random.below(to - from - 1);
                let gap = author.random.below(2) * (middle + 1 < to) as u64;
                list.push(Range { start: from, end: middle });
                list.push(Range { start: middle + gap, end: to });
            }
            2 | 3 => list.push(Range { start, end }),
            _ => list.push(Range { start: from, end: to }),
        }
    }
    if !author.random.one_in(5) {
        list.truncate(1 + author.random.below(6) as usize);
    }
    list
}

/// A plan, mostly in order, with as many runs as it leaves or some number near.
fn planned(author: &mut Author, tank: u64) {
    let now = state_of(author, tank);
    let hold = hold(author);
    let mut ranges = some_unheld(author, &now, hold);
    if author.random.one_in(2) {
        spoil(author, &now, &mut ranges);
    }
    let left = now.planned(hold, u64::MAX, &ranges).map_or(now.runs(), |after| after.runs());
    let runs = match author.random.below(8) {
        0 => left.saturating_sub(1),
        1 => left + 1,
        2 => author.random.pick(&[0, 1, 505, u64::MAX]),
        _ => left,
    };
    submit(author, tank, hold, runs, &ranges);
}

/// Something is wrong with the ranges, or with one of them, or only near it.
fn spoil(author: &mut Author, tank: &Tank, ranges: &mut Vec<Range>) {
    let at = author.random.below(ranges.len() as u64) as usize;
    let other = author.random.below(ranges.len() as u64) as usize;
    if ranges.is_empty() {
        let start = author.random.pick(&[0, 1, tank.length, u64::MAX]);
        ranges.push(Range { start, end: start.saturating_add(author.random.below(2)) });
        return;
    }
    match author.random.below(9) {
        0 => ranges.swap(at, other),
        1 => ranges[at].end += 1,
        2 => ranges[at].start = ranges[at].start.saturating_sub(1),
        3 => ranges[at].end = ranges[at].start,
        4 => ranges[at] = Range { start: ranges[at].end, end: ranges[at].start },
        5 => ranges.push(ranges[at]),
        6 => ranges.push(Range { start: tank.length, end: tank.length + 1 }),
        7 => {
            let end = author.random.pick(&[tank.length, tank.length + 1, 1 << 63, u64::MAX]);
            ranges.last_mut().expect("a range").end = end;
        }
        _ => ranges.insert(at, Range { start: 0, end: author.random.below(20) }),
    }
}

/// A plan is proposed, and then submitted, as it is or for fewer runs or another key.
fn proposed(author: &mut Author, tank: u64) {
    let now = state_of(author, tank);
    let hold = hold(author);
    let all = now.planned(hold, u64::MAX, &now.unheld(hold, now.length));
    let least = all.map_or(now.runs(), |after| after.runs());
    let between = least + author.random.below(now.runs().saturating_sub(least) + 2);
    let runs = match author.random.below(8) {
        0 => least,
        1 => least.saturating_sub(1),
        2 => author.random.pick(&[0, 1, 505, u64::MAX]),
        _ => between,
    };
    let answer = author.say(Call::Propose { tank, hold, runs });
    let Answer::Plan(mut ranges) = answer else { return };
    match author.random.below(8) {
        0 => submit(author, tank, hold, runs.saturating_sub(1), &ranges),
        1 => {
            ranges.pop();
            submit(author, tank, hold, runs, &ranges);
        }
        2 => {}
        _ => submit(author, tank, hold, runs, &ranges),
    }
}

/// 32 ranges or one or two more.
fn too_many(author: &mut Author, tank: u64) {
    let (count, step) = (31 + author.random.below(4), 1 + author.random.below(2));
    let range = |n: u64| Range { start: step * n, end: step * n + 1 };
    let ranges: Vec<Range> = (0..count).map(range).collect();
    let hold = author.random.pick(&[4, 5, HOLD]);
    submit(author, tank, hold, u64::MAX, &ranges);
}

/// Ranges that wait through an opening; tanks that are untouched or that are none.
fn odd(author: &mut Author, tank: u64) {
    match author.random.below(4) {
        0 => {
            let start = author.random.below(4);
            author.say(Call::Range { start, end: start + 1 });
            if author.random.one_in(2) {
                let settings = author.random.pick(&[SETTINGS, [(2, 1); 8]]);
                author.open(settings);
            }
            hold_some(author, tank);
        }
        1 => {
            let tank = 7;
            let runs = author.random.below(3);
            author.say(Call::Propose { tank, hold: HOLD, runs });
            let end = author.random.below(2);
            let ranges = [Range { start: 0, end }];
            let count = author.random.below(2) as usize;
            submit(author, tank, HOLD, runs, &ranges[..count]);
        }
        2 => {
            let tank = author.random.pick(&[8, 9, 1 << 32, u64::MAX]);
            author.say(Call::Propose { tank, hold: HOLD, runs: 1 });
            author.say(Call::Range { start: 0, end: 1 });
            author.say(Call::Plan { tank, hold: HOLD, runs: 505 });
        }
        _ => {
            let (now, hold) = (state_of(author, tank), hold(author));
            let ranges = now.unheld(hold, now.length);
            let runs = author.random.below(3);
            submit(author, tank, hold, runs, &ranges);
        }
    }
}

//! Fixed scripts of both parties, and `party=` spelt in every way.

use crate::call::{Call, Settings};
use crate::mark::{Content, Mark, Party, Value};
use crate::refusals::every;
use crate::script::Script;
use crate::settings::text_of;
use crate::tank::T;

pub const PLANT: Call = Call::Party { party: Party::Plant };
pub const LAB: Call = Call::Party { party: Party::Lab };

/// A large share for tank 0, so that the laboratory may raise its runs.
pub const WIDE: Settings = {
    let mut settings = [(1, 1); 8];
    settings[0] = (400, 505);
    settings
};

fn mark(key: u16, lamport: u32, peer: u64, value: i64) -> Mark {
    let content = Content { cnt: -value as i32, flags: 0x84, value: Value::Whole(value) };
    Mark { id: (key, lamport, peer), content }
}

fn annotate(start: u64, end: u64, mark: Mark) -> Call {
    Call::Annotate { tank: 0, start, end, mark }
}

fn remove(mark: Mark, last: u64) -> Call {
    Call::Remove { tank: 0, id: mark.id, last }
}

/// As the laboratory and then as the plant.
fn both(calls: &[Call]) -> Vec<Call> {
    [&[LAB], calls, &[PLANT], calls].concat()
}

/// What is asked about tank 0 and so many of its first positions.
type Asked = fn(u64) -> Vec<Call>;

/// What tells tank 0, down to each of its first positions.
fn state(positions: u64) -> Vec<Call> {
    let (tank, room) = (0, u64::MAX);
    let mut calls = vec![
        Call::Length { tank },
        Call::Touched { tank },
        Call::Runs { tank },
        Call::Whole { tank, room },
        Call::WholeNeeded { tank },
        Call::Anchors { tank, room },
        Call::Stretches { tank, start: 1, end: positions, room },
        Call::StretchesNeeded { tank, start: 0, end: positions },
        Call::Same { tank, start: 1, end: positions },
    ];
    let each = |at| [Call::Marks { tank, at }, Call::Find { tank, at }, Call::Inherit { tank, at }];
    calls.extend((0..positions).flat_map(each));
    calls
}

/// A few of the same questions, for the calls that stand in the fixed sample.
fn glance(positions: u64) -> Vec<Call> {
    let (tank, room, at) = (0, u64::MAX, positions / 2);
    let lists = [Call::Whole { tank, room }, Call::Anchors { tank, room }];
    [&lists[..], &[Call::Marks { tank, at }, Call::Find { tank, at }]].concat()
}

/// One triple of both parties, with two contents: no clash, two winners, two removals.
fn identities(asked: Asked) -> Vec<Call> {
    let (tank, start, end, key) = (0, 0, 4, 1);
    let (ours, theirs, later) = (mark(1, 5, 1, 1), mark(1, 5, 1, 2), mark(1, 9, 1, 3));
    let ask = |value: i64| {
        let value = Value::Whole(value);
        [Call::AllValue { tank, start, end, key, value }, Call::HasKey { tank, start, end, key }]
    };
    let each = |at| {
        let rank = at % 2;
        let marks = [Call::Mark { tank, at, rank }, Call::Inherited { tank, at, rank }];
        [&[Call::Value { tank, at, key }], &marks[..]].concat()
    };
    let shown = [ask(1), ask(2), ask(3)].concat();
    let asked = [asked(5), [1, 2, 4].into_iter().flat_map(each).collect(), shown].concat();
    let mut calls = vec![Call::Open { settings: WIDE }, annotate(0, 4, ours), LAB];
    calls.extend([ask(1).to_vec(), vec![remove(ours, 3), annotate(0, 4, ours)]].concat());
    calls.extend([remove(ours, 3), annotate(0, 4, theirs), annotate(2, 6, ours)]);
    calls.extend(both(&asked));
    calls.extend([annotate(2, 6, theirs), LAB, annotate(1, 3, later)]);
    calls.extend(both(&asked));
    calls.extend([remove(later, 2), LAB, remove(ours, 1)]);
    calls.extend(both(&asked));
    calls
}

/// 16 just after 1, whatever else is wrong, and that all else is answered as ever.
fn orders() -> Vec<Call> {
    let mut calls = vec![Call::Open { settings: WIDE }, annotate(0, T, mark(1, 5, 1, 1)), LAB];
    let (tank, start, end, before) = (8, 5, 5, T + 1);
    calls.extend([Call::Insert { tank, at: 5, len: 0 }, Call::Delete { tank, start, end }]);
    calls.push(Call::Age { tank, before, budget: 0 });
    for (start, end) in [(5, 5), (T, T + 1), (1, 2)] {
        calls.extend(every(0, start, end));
        calls.push(Call::Age { tank: 0, before, budget: 0 });
    }
    let range = Call::Range { start: 0, end: 1 };
    calls.extend([Call::Insert { tank: 0, at: 1, len: u64::MAX }, range.clone()]);
    calls.extend([Call::Plan { tank: 0, hold: 2, runs: 9 }, range]);
    calls.extend([Call::Plan { tank: 8, hold: 2, runs: 9 }, PLANT]);
    calls.extend([Call::Plan { tank: 0, hold: 2, runs: 9 }, Call::Length { tank: 0 }]);
    calls
}

/// Refusal 8 on both sides of its sum; the marks lie on one another, so that the runs stay few.
fn rooms(asked: Asked) -> Vec<Call> {
    let add = |first: u64, last: u64| (first..=last).map(|n| annotate(0, 4, mark(1, 5, n, 1)));
    let tell = || [Call::Runs { tank: 0 }, Call::Mark { tank: 0, at: 3, rank: 31 }];
    let mut calls = Vec::new();
    // 32 and 32: the laboratory's 33rd and the plant's, one given back and taken by the other.
    calls.extend([Call::Open { settings: WIDE }, LAB]);
    calls.extend(add(1, 33).chain(tell()).chain([PLANT]).chain(add(1, 33)).chain(tell()));
    calls.extend([annotate(2, 9, mark(1, 5, 32, 1)), LAB, annotate(2, 9, mark(1, 5, 32, 1))]);
    calls.extend([remove(mark(1, 5, 1, 1), 3), PLANT]);
    calls.extend(add(33, 34).chain([LAB]).chain(add(1, 1)).chain(add(33, 33)));
    // 48 and 16.
    calls.extend([PLANT, Call::Open { settings: WIDE }]);
    calls.extend(add(1, 49).chain([LAB]).chain(add(1, 17)).chain(tell()));
    calls.extend([annotate(4, 9, mark(1, 5, 16, 1)), annotate(4, 9, mark(1, 5, 16, 2)), PLANT]);
    calls.extend(add(48, 49));
    // The plant gives one back, which the laboratory takes; then the other way.
    calls.extend([remove(mark(1, 5, 9, 1), 3), LAB]);
    calls.extend(add(17, 18).chain([PLANT]).chain(add(9, 9)).chain([LAB]));
    calls.extend([remove(mark(1, 5, 2, 1), 3), PLANT]);
    calls.extend(add(9, 9).chain([LAB]).chain(add(2, 2)).chain(add(17, 17)).chain([PLANT]));
    // What no position carries leaves its room, whoever deletes it.
    calls.push(Call::Delete { tank: 0, start: 0, end: 4 });
    calls.extend(both(&asked(6)));
    calls
}

/// Refusal 17 around a share of 4: where the runs rise, of annotate and remove, before 9 and after
/// 8 and 7; not where they stay or fall.
fn shares(asked: Asked) -> Vec<Call> {
    let mut settings = [(1, 1); 8];
    settings[0] = (4, 6);
    let (x, y, z) = (mark(1, 5, 1, 1), mark(1, 5, 2, 2), mark(2, 5, 3, 3));
    let runs = Call::Runs { tank: 0 };
    let mut calls = vec![Call::Open { settings }, LAB, annotate(2, 4, x), annotate(4, 6, y)];
    calls.extend([annotate(8, 9, x), annotate(6, 7, z), annotate(6, 8, y), runs.clone()]);
    calls.extend([PLANT, annotate(10, 11, x), LAB, runs.clone()]);
    calls.extend([annotate(12, 13, z), annotate(2, 8, x), annotate(2, 4, y), runs.clone()]);
    calls.extend([remove(x, 5), remove(x, 2), remove(x, 7), runs.clone()]);
    calls.extend([PLANT, remove(x, 10), LAB, annotate(20, 21, x), annotate(8, 9, x)]);
    calls.extend([PLANT, annotate(20, 21, y), annotate(30, 31, y), LAB, annotate(30, 31, z)]);
    calls.extend([annotate(30, 31, mark(1, 5, 1, 9)), annotate(30, 30, z), runs.clone()]);
    calls.extend((10..42).map(|peer| annotate(2, 8, mark(3, 5, peer, 1))));
    calls.extend([annotate(40, 41, mark(3, 5, 60, 1)), annotate(40, 41, x), remove(y, 4)]);
    calls.extend(both(&asked(10)));
    calls
}

/// With the pool full to its last run: 17 in place of 10, and a share is free as ever.
fn pool() -> Vec<Call> {
    let (x, y) = (mark(1, 5, 1, 1), mark(1, 5, 2, 2));
    let mut settings = [(80, 80); 8];
    settings[0] = (1, 100);
    settings[1] = (9, 80);
    let mut calls = vec![Call::Open { settings }];
    calls.extend((0..12).map(|n| annotate(2 * n + 1, 2 * n + 2, x)));
    let alone = |n: u64| Call::Annotate { tank: 1, start: 2 * n + 1, end: 2 * n + 2, mark: x };
    calls.extend([Call::Runs { tank: 0 }, LAB, annotate(50, 51, x), annotate(1, 2, x)]);
    calls.push(annotate(50, 51, y));
    calls.extend((0..6).map(alone));
    calls.extend([Call::Runs { tank: 1 }, PLANT, alone(3), alone(5), annotate(50, 51, y)]);
    calls
}

/// Marks of both across one another: each party is shown its own stretches; insertions and
/// deletions move both, and what is inserted inherits of both.
fn across(asked: Asked) -> Vec<Call> {
    let (x, y, z) = (mark(1, 5, 1, 1), mark(1, 6, 1, 2), mark(2, 1, 1, 3));
    let mut calls = vec![Call::Open { settings: WIDE }];
    calls.extend([annotate(1, 6, x), annotate(3, 4, y), LAB, annotate(2, 5, x)]);
    calls.extend([annotate(4, 7, z), PLANT]);
    calls.extend(both(&asked(8)));
    for (at, len) in [(4, 2), (2, 1), (1, 1), (5, 1)] {
        calls.extend([PLANT, Call::Insert { tank: 0, at, len }]);
        calls.extend(both(&asked(8)));
    }
    for (start, end) in [(3, 5), (0, 1), (4, 6)] {
        calls.extend([PLANT, Call::Delete { tank: 0, start, end }]);
        calls.extend(both(&asked(7)));
    }
    calls.push(Call::Delete { tank: 0, start: 5, end: T });
    calls.extend(both(&asked(6)));
    for budget in [1, 2, 9] {
        calls.push(Call::Age { tank: 0, before: 3, budget });
        calls.extend(both(&asked(4)));
    }
    calls
}

/// What is of both, and what is the plant's whoever asks.
fn shared(asked: Asked) -> Vec<Call> {
    let tank = 0;
    let (x, hold) = (mark(1, 5, 1, 1), mark(9, 5, 1, 2));
    // The laboratory's mark touches the tank, and its removal leaves it so.
    let mut calls =
        vec![Call::Open { settings: WIDE }, LAB, annotate(2, 4, x), remove(x, 3), PLANT];
    calls.extend([Call::Insert { tank, at: 0, len: 3 }, Call::Same { tank, start: 0, end: 9 }]);
    calls.extend(both(&asked(6)));
    // Either party's mark holds; the proposer knows it too, and answers either.
    calls.extend([LAB, annotate(3, 5, hold), annotate(7, 8, x), PLANT, annotate(9, 10, x)]);
    let propose = |(hold, runs)| Call::Propose { tank, hold, runs };
    let wished = (0..7).step_by(2).flat_map(|runs| [(9, runs), (1, runs)]).map(propose);
    calls.extend(both(&wished.collect::<Vec<Call>>()));
    for (start, end, runs) in [(4, 6, 9), (5, 9, 4), (5, 9, 5), (0, 3, 2), (0, 3, 4)] {
        calls.extend([Call::Range { start, end }, Call::Plan { tank, hold: 9, runs }]);
        calls.extend(both(&asked(6)));
    }
    // Strips and logs.
    calls.extend([LAB, annotate(0, 4, mark(2, 1, 1, 1)), annotate(1, 3, mark(1, 9, 1, 5))]);
    calls.extend(both(&[Call::Strip { tank, start: 0, k: 1, room: 96 }]));
    let edits = [annotate(1, 3, mark(4, 1, 1, 7)), Call::Insert { tank, at: 2, len: 1 }];
    let log = [edits[0].text(), edits[1].text(), Call::Delete { tank, start: 0, end: 1 }.text()];
    let log = log.concat();
    calls.extend([LAB, Call::Log { body: log[..30].to_vec() }, PLANT]);
    calls.extend([LAB, Call::Log { body: log[30..].to_vec() }, Call::LogEnd, edits[1].clone()]);
    calls.extend(both(&asked(6)));
    calls.extend([Call::Log { body: b"op=party\nparty=lab\n".to_vec() }, Call::LogEnd]);
    // A party stays through openings, good and bad.
    for settings in [WIDE, [(2, 1); 8], WIDE] {
        calls.extend([LAB, Call::Open { settings }, Call::Insert { tank, at: 0, len: 1 }]);
    }
    calls.extend([Call::OpenSet { number: 0 }, annotate(2, 4, x), PLANT]);
    calls.extend(both(&asked(5)));
    calls
}

/// A party stays through an opening with a set that was read.
fn opened() -> Vec<Call> {
    let read = Call::Settings { body: text_of(&WIDE) };
    let insert = Call::Insert { tank: 0, at: 0, len: 1 };
    vec![read, LAB, Call::OpenSet { number: 1 }, insert.clone(), PLANT, insert]
}

/// The fixed calls that stand among the refusals. The last one's party is the plant.
pub fn refused() -> Vec<Call> {
    let asked = glance;
    let alone = [identities(asked), orders(), rooms(asked), shares(asked), pool()];
    [alone.concat(), across(asked), shared(asked)].concat()
}

/// What may stand in place of `party=lab`.
const SPELT: [&str; 16] = [
    "party=lab\n",
    "party=plant\n",
    "party=Lab\n",
    "party=LAB\n",
    "party=\n",
    "party=la\n",
    "party=labs\n",
    "party=plan\n",
    "party=plants\n",
    "party=lab \n",
    "party= lab\n",
    "party=lab\r\n",
    "party=1\n",
    "party\n",
    "tank=0\n",
    "",
];

/// The same calls with everything asked after them, and each spelling.
pub fn scripts() -> impl Iterator<Item = Script> {
    let calls =
        [identities(state), rooms(state), shares(state), across(state), shared(state), opened()];
    let whole = |(calls, seed)| Script { class: "party", seed, calls, tail: Vec::new() };
    calls.into_iter().zip(100..).map(whole).chain(spelt())
}

/// Each spelling, as the plant and as the laboratory, then what shows as whom the calls are made.
fn spelt() -> impl Iterator<Item = Script> {
    let asked = [Call::Insert { tank: 0, at: 0, len: 1 }, annotate(0, 1, mark(1, 1, 1, 1)), PLANT];
    let asked = asked.map(|call| call.text()).concat();
    let texts = SPELT.iter().flat_map(move |spelt| {
        let group = ["op=party\n", spelt].concat().into_bytes();
        let open = Call::Open { settings: WIDE }.text();
        [PLANT, LAB].map(|who| [open.clone(), who.text(), group.clone(), asked.clone()].concat())
    });
    texts.zip(0..).map(|(text, seed)| Script::of_text("party", seed, &text))
}

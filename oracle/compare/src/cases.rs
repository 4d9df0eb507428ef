//! Document 01's checked examples 1 to 12 as calls.

use crate::call::Call;
use crate::classes::ROOMY;
use crate::mark::{Content, Mark, Value};

const A: Mark =
    Mark { id: (1, 5, 1), content: Content { cnt: 7, flags: 0x84, value: Value::Bool(true) } };
const B: Mark =
    Mark { id: (1, 5, 2), content: Content { cnt: -7, flags: 0x84, value: Value::Bool(false) } };
const C: Mark =
    Mark { id: (2, 3, 1), content: Content { cnt: 0, flags: 0x80, value: Value::Whole(7) } };

/// The annotate with which most cases begin.
const MARKED: Call = Call::Annotate { tank: 0, start: 10, end: 20, mark: A };

fn annotate(start: u64, end: u64, mark: Mark) -> Call {
    Call::Annotate { tank: 0, start, end, mark }
}

fn insert(at: u64, len: u64) -> Call {
    Call::Insert { tank: 0, at, len }
}

fn delete(start: u64, end: u64) -> Call {
    Call::Delete { tank: 0, start, end }
}

fn remove(last: u64) -> Call {
    Call::Remove { tank: 0, id: A.id, last }
}

fn has_key(start: u64, end: u64) -> Call {
    Call::HasKey { tank: 0, start, end, key: 1 }
}

/// What each case speaks of afterwards.
fn state() -> [Call; 5] {
    let (tank, room) = (0, 1536);
    [
        Call::Length { tank },
        Call::Touched { tank },
        Call::Runs { tank },
        Call::Whole { tank, room },
        Call::Anchors { tank, room },
    ]
}

/// The edits of a case on a fresh tank, then its state.
fn on_fresh(edits: &[Call]) -> Vec<Call> {
    let mut calls = vec![Call::Open { settings: ROOMY }];
    calls.extend_from_slice(edits);
    calls.extend(state());
    calls
}

pub fn cases() -> Vec<Call> {
    let value = Call::Value { tank: 0, at: 15, key: 1 };
    let asked = [has_key(20, 30), has_key(19, 20), has_key(5, 5)];
    let mut calls = Vec::new();
    calls.extend(on_fresh(&[insert(5, 3)]));
    calls.extend(on_fresh(&[MARKED]));
    calls.extend(on_fresh(&[MARKED, insert(15, 4)]));
    calls.extend(on_fresh(&[MARKED, insert(10, 4)]));
    calls.extend(on_fresh(&[MARKED, annotate(15, 25, C)]));
    calls.push(insert(15, 2));
    calls.extend(state());
    calls.extend(on_fresh(&[MARKED, annotate(20, 30, C)]));
    calls.push(insert(20, 1));
    calls.extend(state());
    calls.extend(on_fresh(&[MARKED, annotate(10, 20, B), value]));
    calls.extend(on_fresh(&[MARKED, delete(10, 20)]));
    calls.push(insert(0, 10));
    calls.extend(state());
    calls.extend(on_fresh(&[MARKED, remove(19)]));
    calls.extend(on_fresh(&[MARKED, remove(14)]));
    calls.extend(on_fresh(&[MARKED, remove(5)]));
    calls.extend(on_fresh(&[MARKED]));
    calls.extend(asked);
    calls.extend(shared());
    calls
}

/// Case 12: eight tanks that share 512 runs to the last one.
fn shared() -> Vec<Call> {
    let mut calls = vec![Call::Open { settings: [(40, 200); 8] }];
    let held = [200, 72, 40, 39, 40, 40, 40, 40];
    for (tank, &runs) in held.iter().enumerate() {
        calls.extend(holding(tank as u64, runs));
    }
    calls.extend((0..9).map(|tank| Call::Runs { tank }));
    for tank in [2, 0, 3] {
        let next = held[tank as usize] - 1;
        calls.push(Call::Annotate { tank, start: next, end: next + 1, mark: C });
        calls.push(Call::Runs { tank });
    }
    calls
}

/// Marks every other position: from 0 for an even count of runs, from 1 for an odd one.
fn holding(tank: u64, runs: u64) -> impl Iterator<Item = Call> {
    let alone = move |start| Call::Annotate { tank, start, end: start + 1, mark: A };
    (runs % 2..runs).step_by(2).map(alone)
}

#[cfg(test)]
mod tests {
    use super::*;
    use crate::answer::Answer;
    use crate::tanks::Tanks;

    fn answers(calls: &[Call]) -> Vec<Answer> {
        let mut tanks = Tanks::default();
        calls.iter().map(|call| tanks.call(call)).collect()
    }

    #[test]
    fn case_12_is_the_documents() {
        let answers = answers(&shared());
        let runs: Vec<u64> = [200, 72, 40, 39, 40, 40, 40, 40].into();
        let held: Vec<Answer> = runs.into_iter().map(Answer::Runs).collect();
        let end = answers.len() - 6;
        assert_eq!(answers[end - 9..end - 1], held);
        assert_eq!(answers[end - 1], Answer::Refused(1));
        assert_eq!(answers[end], Answer::Refused(10));
        assert_eq!(answers[end + 2], Answer::Refused(9));
        assert_eq!(answers[end + 4], Answer::Accepted);
        assert_eq!(answers[end + 5], Answer::Runs(40));
    }

    #[test]
    fn removal_answers_the_first_position() {
        let first = |last| answers(&on_fresh(&[MARKED, remove(last)]))[2].clone();
        assert_eq!(first(19), Answer::First(10));
        assert_eq!(first(14), Answer::First(10));
        assert_eq!(first(5), Answer::First(6));
    }
}

//! Answers changed on purpose.

use compare::answer::{Answer, Report};

use crate::driver::Came;

/// The kinds of answer that can be changed.
#[derive(Clone, Copy, Debug, PartialEq, Eq)]
pub enum Spoil {
    Refused,
    Accepted,
    Marks,
    Nothing,
    Mark,
    Value,
    Yes,
    Number,
    Stretches,
    Anchors,
    Extent,
    Aged,
    Line,
    Report,
    Plan,
    Strip,
    Saved,
}

pub const ALL: [Spoil; 17] = [
    Spoil::Refused,
    Spoil::Accepted,
    Spoil::Marks,
    Spoil::Nothing,
    Spoil::Mark,
    Spoil::Value,
    Spoil::Yes,
    Spoil::Number,
    Spoil::Stretches,
    Spoil::Anchors,
    Spoil::Extent,
    Spoil::Aged,
    Spoil::Line,
    Spoil::Report,
    Spoil::Plan,
    Spoil::Strip,
    Spoil::Saved,
];

impl Spoil {
    /// Changes the last answer of this kind, and says whether there was one.
    pub fn change(self, came: &mut [Came]) -> bool {
        for answer in came.iter_mut().rev().flatten() {
            if let Some(other) = self.other(answer) {
                *answer = other;
                return true;
            }
        }
        false
    }

    fn other(self, answer: &Answer) -> Option<Answer> {
        let mut other = answer.clone();
        match (self, &mut other) {
            (Spoil::Refused, Answer::Refused(number)) => *number += 1,
            (Spoil::Accepted, Answer::Accepted) => other = Answer::Refused(3),
            (Spoil::Marks, Answer::Marks(marks)) => marks.pop().map(|_| ())?,
            (Spoil::Nothing, Answer::None) => other = Answer::Marks(Vec::new()),
            (Spoil::Mark, Answer::Mark(mark)) => mark.content.cnt = !mark.content.cnt,
            (Spoil::Value, Answer::Value(value)) => {
                let other = compare::mark::Value::Whole(7);
                *value = if *value == other { compare::mark::Value::Whole(8) } else { other };
            }
            (Spoil::Yes, Answer::Yes(yes) | Answer::Touched(yes)) => *yes = !*yes,
            (
                Spoil::Number,
                Answer::First(n) | Answer::Length(n) | Answer::Runs(n) | Answer::Needed(n),
            ) => *n += 1,
            (Spoil::Stretches, Answer::Stretches(_, list)) => list.last_mut()?.to += 1,
            (Spoil::Anchors, Answer::Anchors(list)) => {
                list.last_mut()?.start = !list.last_mut()?.start;
            }
            (Spoil::Extent, Answer::Extent(extent)) => extent.last += 1,
            (Spoil::Aged, Answer::Aged(aged)) => aged.remaining += 1,
            (Spoil::Line, Answer::BadLine(line) | Answer::WrongLine(line)) => *line += 1,
            (Spoil::Report, Answer::Report(Report { applied, .. })) => *applied += 1,
            (Spoil::Plan, Answer::Plan(ranges)) => ranges.last_mut()?.end += 1,
            (Spoil::Strip, Answer::Strip(cells)) => cells[95] ^= 1,
            (Spoil::Saved, Answer::Saved(text)) => *text.last_mut()? = b' ',
            _ => return None,
        }
        Some(other)
    }
}

//! The comparison's types and the crate's, one into the other.

use compare::answer::{self, Answer, Listed};
use compare::mark::{self, Content, Id};
use mavelino::{AnchorType, Error, Identity, Reading};

pub fn party(party: mark::Party) -> mavelino::Party {
    match party {
        mark::Party::Plant => mavelino::Party::Plant,
        mark::Party::Lab => mavelino::Party::Lab,
    }
}

pub fn value(value: mark::Value) -> mavelino::Value {
    match value {
        mark::Value::Null => mavelino::Value::Null,
        mark::Value::Bool(yes) => mavelino::Value::Bool(yes),
        mark::Value::Whole(whole) => mavelino::Value::Whole(whole),
        mark::Value::Decimal(bits) => mavelino::Value::Decimal(f64::from_bits(bits)),
    }
}

pub fn identity((key, lamport, peer): Id) -> Identity {
    Identity { key, lamport, peer }
}

pub fn mark(mark: mark::Mark) -> mavelino::Mark {
    let (key, lamport, peer) = mark.id;
    let Content { cnt, flags, value: said } = mark.content;
    mavelino::Mark { key, lamport, peer, cnt, flags, value: value(said) }
}

fn value_back(value: mavelino::Value) -> mark::Value {
    match value {
        mavelino::Value::Null => mark::Value::Null,
        mavelino::Value::Bool(yes) => mark::Value::Bool(yes),
        mavelino::Value::Whole(whole) => mark::Value::Whole(whole),
        mavelino::Value::Decimal(decimal) => mark::Value::Decimal(decimal.to_bits()),
    }
}

fn id_back(identity: Identity) -> Id {
    (identity.key, identity.lamport, identity.peer)
}

fn mark_back(mark: &mavelino::Mark) -> mark::Mark {
    let content = Content { cnt: mark.cnt, flags: mark.flags, value: value_back(mark.value) };
    mark::Mark { id: id_back(mark.identity()), content }
}

fn listed(stretch: &mavelino::Stretch) -> Listed {
    Listed { from: stretch.from, to: stretch.to, marks: stretch.marks }
}

fn anchor(anchor: &mavelino::Anchor) -> answer::Anchor {
    let start = anchor.anchor_type == AnchorType::Start;
    answer::Anchor { at: anchor.index, start, id: id_back(anchor.identity) }
}

fn range(range: &std::ops::Range<u64>) -> answer::Range {
    answer::Range { start: range.start, end: range.end }
}

pub fn marks(marks: Vec<mavelino::Mark>) -> Answer {
    Answer::Marks(marks.iter().map(mark_back).collect())
}

pub fn shared(marks_or_none: Option<Vec<mavelino::Mark>>) -> Answer {
    marks_or_none.map_or(Answer::None, marks)
}

/// The mark of a rank, which the crate has no call for: it answers the whole set.
pub fn ranked(marks: Vec<mavelino::Mark>, rank: u64) -> Answer {
    let place = usize::try_from(rank).ok();
    let found = place.and_then(|place| marks.get(place));
    found.map_or(Answer::None, |mark| Answer::Mark(mark_back(mark)))
}

pub fn shown(value: Option<mavelino::Value>) -> Answer {
    value.map_or(Answer::None, |value| Answer::Value(value_back(value)))
}

pub fn stretches(tank: u64, list: Vec<mavelino::Stretch>) -> Answer {
    Answer::Stretches(tank, list.iter().map(listed).collect())
}

/// What a list takes in numbers, three a stretch.
pub fn needed(list: Vec<mavelino::Stretch>) -> Answer {
    Answer::Needed(3 * list.len() as u64)
}

pub fn anchors(list: Vec<mavelino::Anchor>) -> Answer {
    Answer::Anchors(list.iter().map(anchor).collect())
}

pub fn extent(extent: mavelino::Extent) -> Answer {
    Answer::Extent(answer::Extent { first: extent.first, last: extent.last })
}

pub fn aged(aged: mavelino::Aged) -> Answer {
    Answer::Aged(answer::Aged { dropped: aged.dropped, remaining: aged.remaining })
}

pub fn plan(plan: Option<Vec<std::ops::Range<u64>>>) -> Answer {
    plan.map_or(Answer::None, |plan| Answer::Plan(plan.iter().map(range).collect()))
}

pub fn report(report: mavelino::Report) -> Answer {
    let (lines, stopped) = match report.state {
        Reading::Going(lines) => (lines, None),
        Reading::Stopped(refusal, line) => (0, Some((refusal.number() as u8, line))),
    };
    Answer::Report(answer::Report { applied: report.applied, lines, stopped })
}

/// What came, or its refusal; any other error ends the comparison.
pub fn judged<T>(came: Result<T, Error>, of: impl FnOnce(T) -> Answer) -> Result<Answer, Error> {
    match came {
        Ok(value) => Ok(of(value)),
        Err(Error::Refused(refusal)) => Ok(Answer::Refused(refusal.number() as u8)),
        Err(Error::RefusedAt(refusal, line)) => Ok(match refusal {
            mavelino::Refusal::BadSettings => Answer::BadLine(line),
            _ => Answer::WrongLine(line),
        }),
        Err(other) => Err(other),
    }
}

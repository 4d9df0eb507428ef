//! The answers as Rust types.

use std::ops::Range;

use crate::flags::AnchorType;
use crate::mark::{Identity, Mark, Value};
use crate::refusal::{Error, Refusal, Surprise};

/// A cell of a strip each.
pub const CELLS: usize = 96;

/// What a call of a [`Batch`](crate::Batch) was answered.
///
/// ```
/// use mavelino::{Answer, Batch, Map, Refusal};
/// let mut map = Map::open(Map::EVEN)?;
/// let mut batch = Batch::new();
/// batch.runs(0).runs(8);
/// let answers = map.run(&batch)?;
/// assert_eq!(answers, [Answer::Number(1), Answer::Refused(Refusal::NoSuchTank)]);
/// # Ok::<(), mavelino::Error>(())
/// ```
#[derive(Clone, Debug, PartialEq)]
pub enum Answer {
    /// It was refused, and changed nothing. The calls behind it were made all the same.
    Refused(Refusal),
    /// It was done, and there is nothing more to say: `annotate`, `delete`, `plan`, `set_party`.
    Accepted,
    /// There is none: a value, marks that all positions share, a proposal.
    None,
    /// A set of marks, by key, lamport and peer.
    Styles(Vec<Mark>),
    /// The value that shows.
    Value(Value),
    /// Yes or no.
    Yes(bool),
    /// A number: `length`, `runs`, and the first position of a removal.
    Number(u64),
    /// Stretches of equal marks, the first positions first.
    Stretches(Vec<Stretch>),
    /// Where marks begin and end.
    Anchors(Vec<Anchor>),
    /// The stretch that a position is in.
    Extent(Extent),
    /// What ageing dropped, and what it left to do.
    Aged(Aged),
    /// A plan that would be accepted.
    Plan(Vec<Range<u64>>),
    /// The letters of a strip.
    Strip([u8; CELLS]),
}

/// Positions with equal marks, as they are listed.
#[derive(Clone, Copy, Debug, PartialEq, Eq, Hash)]
pub struct Stretch {
    /// The first position.
    pub from: u64,
    /// One past the last position.
    pub to: u64,
    /// How many marks each of them carries.
    pub marks: u64,
}

impl Stretch {
    /// Its positions.
    pub fn range(&self) -> Range<u64> {
        self.from..self.to
    }
}

/// Where a mark begins or ends. The old module's `IterAnchorItem`.
#[derive(Clone, Copy, Debug, PartialEq, Eq, Hash)]
pub struct Anchor {
    /// The first position of the mark, or its last.
    pub index: u64,
    /// Which of the two.
    pub anchor_type: AnchorType,
    /// The mark's.
    pub identity: Identity,
}

/// From where to where a stretch of equal marks goes.
#[derive(Clone, Copy, Debug, PartialEq, Eq, Hash)]
pub struct Extent {
    /// The first position in it.
    pub first: u64,
    /// The last position in it.
    pub last: u64,
}

/// What a call of ageing did.
#[derive(Clone, Copy, Debug, PartialEq, Eq, Hash)]
pub struct Aged {
    /// Stretches that went, one that was clipped among them.
    pub dropped: u64,
    /// What is left of its `before`: that of the next call.
    pub remaining: u64,
}

/// What a log has come to since it began.
#[derive(Clone, Copy, Debug, PartialEq, Eq, Hash)]
pub struct Report {
    /// Edits that were applied.
    pub applied: u64,
    /// How it stands.
    pub state: Reading,
}

/// How the reading of a log stands.
#[derive(Clone, Copy, Debug, PartialEq, Eq, Hash)]
pub enum Reading {
    /// So many lines were taken, and none is wrong.
    Going(u64),
    /// It stopped at a line, by a refusal: 13 for a bad line, or that of an edit.
    Stopped(Refusal, u64),
}

/// One kind of answer out of an [`Answer`]; a refusal is an error, and so is another kind.
macro_rules! kinds {
    ($($name:ident($pattern:pat => $value:expr): $type:ty;)*) => {
        impl Answer {
            $(pub(crate) fn $name(self) -> Result<$type, Error> {
                match self {
                    Answer::Refused(refusal) => Err(Error::Refused(refusal)),
                    $pattern => Ok($value),
                    other => Err(other.astray(stringify!($name))),
                }
            })*
        }
    };
}

kinds! {
    accepted(Answer::Accepted => ()): ();
    styles(Answer::Styles(marks) => marks): Vec<Mark>;
    yes(Answer::Yes(yes) => yes): bool;
    number(Answer::Number(number) => number): u64;
    stretches(Answer::Stretches(list) => list): Vec<Stretch>;
    anchors(Answer::Anchors(list) => list): Vec<Anchor>;
    extent(Answer::Extent(extent) => extent): Extent;
    aged(Answer::Aged(aged) => aged): Aged;
    value(Answer::Value(value) => value): Value;
    plan(Answer::Plan(ranges) => ranges): Vec<Range<u64>>;
    strip(Answer::Strip(cells) => cells): [u8; CELLS];
}

impl Answer {
    /// An answer that may be none.
    pub(crate) fn maybe<T>(self, kind: fn(Answer) -> Result<T, Error>) -> Result<Option<T>, Error> {
        match self {
            Answer::None => Ok(None),
            some => kind(some).map(Some),
        }
    }

    fn astray(self, expected: &str) -> Error {
        Surprise { expected: expected.into(), came: format!("{self:?}") }.into()
    }
}

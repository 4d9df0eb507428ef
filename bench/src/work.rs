//! What is timed, the same for all sides.
//!
//! A tank of `runs` runs: all but the last have `WIDTH` positions each, the last is the unmarked
//! rest. Run `i` is full, with all marks, where `i` is even or odd as `runs` is; the others but
//! run 0 carry the lower half of the marks. So neighbours differ, whatever the counts. Mark `b`
//! has key `BASE + b + 1`, lamport `b + 10`, peer 1, flags 0x84 and the whole number `b + 1` as its
//! value. The extra mark has key `EXTRA`, lamport 1, peer 1, flags 0x84 and null.
//!
//! In a shared tank the run in the middle also carries a mark of the laboratory's, which the plant,
//! who asks, is not shown. The original knows no parties and holds the plant's marks alone.

pub const WIDTH: u64 = 10;
/// What every key is counted from. It is handed to the library, so that its compiler knows no key.
pub const BASE: u16 = 100;
pub const EXTRA: u16 = BASE + 777;
/// A key that no mark has.
pub const ABSENT: u16 = BASE + 999;
/// The positions that the last tank is asked for the extra mark's key in.
pub const ASKED: u64 = 5000;

pub const RUNS: [u64; 3] = [3, 50, 500];
pub const MARKS: [u64; 3] = [1, 5, 20];

#[derive(Clone, Copy, Debug, PartialEq, Eq)]
pub enum Work {
    /// The extra mark on five positions inside a run.
    Annotate,
    /// The extra mark on all positions but the outermost of the marked part.
    AnnotateWide,
    /// One position inside a run.
    Insert,
    /// Two positions between two runs.
    InsertBetween,
    /// Two positions inside a run.
    Delete,
    /// Ten positions across a boundary.
    DeleteAcross,
    /// The extra mark, which one run in the middle carries, from that run's end.
    Remove,
    /// The extra mark, which the whole marked part carries, from its end.
    RemoveWide,
    /// A key that is absent, in three positions of a run.
    HasKey,
    /// A key that is absent, in the whole marked part.
    HasKeyWide,
    /// The value of the highest key at a position.
    Value,
    /// The marks at a position.
    Marks,
    /// The same four, asked of a shared tank.
    HasKeyShared,
    HasKeyWideShared,
    ValueShared,
    MarksShared,
}

pub const WORK: [Work; 16] = [
    Work::Annotate,
    Work::AnnotateWide,
    Work::Insert,
    Work::InsertBetween,
    Work::Delete,
    Work::DeleteAcross,
    Work::Remove,
    Work::RemoveWide,
    Work::HasKey,
    Work::HasKeyWide,
    Work::Value,
    Work::Marks,
    Work::HasKeyShared,
    Work::HasKeyWideShared,
    Work::ValueShared,
    Work::MarksShared,
];

impl Work {
    /// Whether it leaves the tank as it was.
    pub fn is_question(self) -> bool {
        self as u64 >= Work::HasKey as u64
    }

    pub fn name(self) -> &'static str {
        match self {
            Work::Annotate => "annotate",
            Work::AnnotateWide => "annotate wide",
            Work::Insert => "insert",
            Work::InsertBetween => "insert between",
            Work::Delete => "delete",
            Work::DeleteAcross => "delete across",
            Work::Remove => "remove",
            Work::RemoveWide => "remove wide",
            Work::HasKey => "has key",
            Work::HasKeyWide => "has key wide",
            Work::Value => "value",
            Work::Marks => "marks",
            Work::HasKeyShared => "has key, shared tank",
            Work::HasKeyWideShared => "has key wide, shared tank",
            Work::ValueShared => "value, shared tank",
            Work::MarksShared => "marks, shared tank",
        }
    }
}

/// A work on a tank of so many runs, with so many marks.
#[derive(Clone, Copy, Debug)]
pub struct Cell {
    pub work: Work,
    pub marks: u64,
    pub runs: u64,
}

/// All sizes of the work that is chosen, by work, then marks, then runs.
pub fn cells(chosen: &[Work]) -> impl Iterator<Item = Cell> + '_ {
    let rows = chosen.iter().flat_map(|&work| MARKS.map(|marks| (work, marks)));
    rows.flat_map(|(work, marks)| RUNS.map(|runs| Cell { work, marks, runs }))
}

/// Where the marked part ends.
pub fn span(runs: u64) -> u64 {
    (runs - 1) * WIDTH
}

/// The run that turn `turn` works on: all of them in an order that jumps.
pub fn run(runs: u64, turn: u64) -> u64 {
    (turn * 7 + 3) % (runs - 1)
}

pub fn is_full(runs: u64, run: u64) -> bool {
    run % 2 == runs % 2
}

/// The annotates that build the tank: start, end, number of the mark.
pub fn build(runs: u64, marks: u64) -> Vec<(u64, u64, u64)> {
    let first = runs % 2;
    let lower = (0..marks / 2).map(|mark| (first * WIDTH, span(runs), mark));
    let upper = (marks / 2..marks).flat_map(|mark| {
        let full = (0..runs - 1).filter(move |&run| is_full(runs, run));
        full.map(move |run| (run * WIDTH, (run + 1) * WIDTH, mark))
    });
    lower.chain(upper).collect()
}

//! The answers of the console, and their lines.

use std::fmt;

use crate::call::Settings;
use crate::mark::{Content, Id, Mark, Value};
use crate::strip::CELLS;

#[derive(Clone, Debug, PartialEq)]
pub enum Answer {
    Refused(u8),
    Accepted,
    Marks(Vec<Mark>),
    None,
    Mark(Mark),
    Value(Value),
    Yes(bool),
    First(u64),
    Length(u64),
    Touched(bool),
    Runs(u64),
    Stretches(u64, Vec<Listed>),
    Needed(u64),
    Anchors(Vec<Anchor>),
    Extent(Extent),
    Aged(Aged),
    /// The number of a settings text that was read.
    Set(u64),
    /// Refusal 12, with the first bad line.
    BadLine(u64),
    Pairs(Settings),
    Report(Report),
    /// How many ranges are pending.
    Pending(u64),
    /// A plan that is proposed.
    Plan(Vec<Range>),
    Strip([u8; CELLS]),
    /// Settings and tanks as a text.
    Saved(Vec<u8>),
    /// Refusal 13 of a saved text, with the first wrong line.
    WrongLine(u64),
}

/// What a log has come to: edits, newlines, and where it stopped the refusal and the line.
#[derive(Clone, Copy, Debug, PartialEq, Eq)]
pub struct Report {
    pub applied: u64,
    pub lines: u64,
    pub stopped: Option<(u8, u64)>,
}

/// The positions start..end of a plan.
#[derive(Clone, Copy, Debug, PartialEq, Eq)]
pub struct Range {
    pub start: u64,
    pub end: u64,
}

/// A stretch as it is listed: its start, its end and how many marks it carries.
#[derive(Clone, Copy, Debug, PartialEq, Eq)]
pub struct Listed {
    pub from: u64,
    pub to: u64,
    pub marks: u64,
}

/// From where to where a stretch goes, both ends in it.
#[derive(Clone, Copy, Debug, PartialEq, Eq)]
pub struct Extent {
    pub first: u64,
    pub last: u64,
}

/// How many stretches a call of ageing dropped, and what remains of its `before`.
#[derive(Clone, Copy, Debug, PartialEq, Eq)]
pub struct Aged {
    pub dropped: u64,
    pub remaining: u64,
}

#[derive(Clone, Copy, Debug, PartialEq, Eq)]
pub struct Anchor {
    pub at: u64,
    pub start: bool,
    pub id: Id,
}

impl Answer {
    /// The word under which the answer is counted.
    pub fn kind(&self) -> String {
        match self {
            Answer::Refused(number) => format!("refused {number}"),
            Answer::Accepted => "accepted".into(),
            Answer::Marks(_) => "a set".into(),
            Answer::None => "none".into(),
            Answer::Mark(_) => "a mark".into(),
            Answer::Value(_) => "a value".into(),
            Answer::Yes(true) => "yes".into(),
            Answer::Yes(false) => "no".into(),
            Answer::Stretches(..) | Answer::Anchors(_) => "a list".into(),
            Answer::Extent(_) => "a stretch".into(),
            Answer::BadLine(_) => "refused 12".into(),
            Answer::WrongLine(_) => "refused 13".into(),
            Answer::Saved(_) => "a text".into(),
            Answer::Pairs(_) => "pairs".into(),
            Answer::Report(Report { stopped: Some((number, _)), .. }) => {
                format!("a stop by {number}")
            }
            Answer::Report(_) => "a report".into(),
            Answer::Plan(_) => "a plan".into(),
            Answer::Strip(_) => "a strip".into(),
            _ => "a number".into(),
        }
    }

    /// The bytes of its lines; those of a strip need be no text. Nothing stands behind a saved text.
    pub fn bytes(&self) -> Vec<u8> {
        match self {
            Answer::Strip(cells) => [b"strip=", &cells[..], b"\n"].concat(),
            Answer::Saved(text) => [format!("bytes={}\n", text.len()).as_bytes(), text].concat(),
            _ => self.to_string().into_bytes(),
        }
    }
}

/// The lines to read; `bytes` has them as they are.
impl fmt::Display for Answer {
    fn fmt(&self, f: &mut fmt::Formatter<'_>) -> fmt::Result {
        match self {
            Answer::Refused(number) => writeln!(f, "refused={number}"),
            Answer::Accepted => writeln!(f, "accepted=1"),
            Answer::Marks(marks) => {
                writeln!(f, "marks={}", marks.len())?;
                marks.iter().try_for_each(|mark| seven_lines(f, mark))
            }
            Answer::None => writeln!(f, "none=1"),
            Answer::Mark(mark) => seven_lines(f, mark),
            Answer::Value(value) => two_lines(f, *value),
            Answer::Yes(yes) => writeln!(f, "yes={}", *yes as u8),
            Answer::First(first) => writeln!(f, "first={first}"),
            Answer::Length(length) => writeln!(f, "length={length}"),
            Answer::Touched(touched) => writeln!(f, "touched={}", *touched as u8),
            Answer::Runs(runs) => writeln!(f, "runs={runs}"),
            Answer::Stretches(tank, list) => {
                writeln!(f, "tank={tank}")?;
                let lines = |f: &mut fmt::Formatter<'_>, s: &Listed| {
                    writeln!(f, "from={}\nto={}\nmarks={}", s.from, s.to, s.marks)
                };
                list.iter().try_for_each(|stretch| lines(f, stretch))
            }
            Answer::Needed(needed) => writeln!(f, "needed={needed}"),
            Answer::Anchors(list) => {
                writeln!(f, "anchors={}", list.len())?;
                list.iter().try_for_each(|anchor| five_lines(f, anchor))
            }
            Answer::Extent(Extent { first, last }) => writeln!(f, "first={first}\nlast={last}"),
            Answer::Aged(Aged { dropped, remaining }) => {
                writeln!(f, "dropped={dropped}\nremaining={remaining}")
            }
            Answer::Set(number) => writeln!(f, "set={number}"),
            Answer::Pending(count) => writeln!(f, "ranges={count}"),
            Answer::Plan(ranges) => {
                writeln!(f, "ranges={}", ranges.len())?;
                let mut ranges = ranges.iter();
                ranges.try_for_each(|r| writeln!(f, "start={}\nend={}", r.start, r.end))
            }
            Answer::Strip(cells) => writeln!(f, "strip={}", cells.escape_ascii()),
            Answer::BadLine(line) => writeln!(f, "refused=12\nline={line}"),
            Answer::WrongLine(line) => writeln!(f, "refused=13\nline={line}"),
            Answer::Saved(_) => f.write_str(&String::from_utf8_lossy(&self.bytes())),
            Answer::Report(Report { applied, lines, stopped }) => {
                writeln!(f, "applied={applied}")?;
                match stopped {
                    Some((number, line)) => writeln!(f, "refused={number}\nline={line}"),
                    None => writeln!(f, "lines={lines}"),
                }
            }
            Answer::Pairs(settings) => {
                let mut pairs = settings.iter().enumerate();
                pairs.try_for_each(|(tank, (share, limit))| {
                    writeln!(f, "share{tank}={share}\nlimit{tank}={limit}")
                })
            }
        }
    }
}

fn two_lines(f: &mut fmt::Formatter<'_>, value: Value) -> fmt::Result {
    writeln!(f, "kind={}\nvalue={}", value.kind(), value.text())
}

fn seven_lines(f: &mut fmt::Formatter<'_>, mark: &Mark) -> fmt::Result {
    let (key, lamport, peer) = mark.id;
    let Content { cnt, flags, value } = mark.content;
    writeln!(f, "key={key}\nlamport={lamport}\npeer={peer}\ncnt={cnt}\nflags={flags}")?;
    two_lines(f, value)
}

fn five_lines(f: &mut fmt::Formatter<'_>, anchor: &Anchor) -> fmt::Result {
    let side = if anchor.start { "start" } else { "end" };
    let (key, lamport, peer) = anchor.id;
    writeln!(f, "at={}\nside={side}\nkey={key}\nlamport={lamport}\npeer={peer}", anchor.at)
}

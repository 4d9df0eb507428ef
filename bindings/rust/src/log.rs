//! The edge boxes' log.

use crate::answer::{Reading, Report};
use crate::ffi;
use crate::map::Map;
use crate::refusal::{Error, Refusal};

/// A reader of the edge boxes' log, which is `annotate`, `insert` and `delete` as lines
/// (docs/CONSOLE.md), cut anywhere.
///
/// It keeps the bytes behind the last whole group, and what was told so far. Each group is applied
/// when its last newline has come; the first line or edit that is refused stops the log, and what
/// came before it stands. The edits of a log are the plant's, whoever calls.
///
/// ```
/// use mavelino::{Log, Map, Reading, Refusal};
/// let mut map = Map::open(Map::EVEN)?;
/// let mut log = Log::new();
/// let report = map.feed(&mut log, b"op=insert\ntank=0\nat=0\nlen=5\nop=del")?;
/// assert_eq!((report.applied, report.state), (1, Reading::Going(4)));
/// let report = map.feed(&mut log, b"ete\ntank=0\nstart=3\nend=3\n")?;
/// assert_eq!((report.applied, report.state), (1, Reading::Stopped(Refusal::Empty, 8)));
/// # Ok::<(), mavelino::Error>(())
/// ```
#[derive(Clone, Debug, Default, PartialEq, Eq)]
pub struct Log {
    /// What came behind the last whole group.
    rest: Vec<u8>,
    /// Lines of the groups before it.
    lines: u64,
    applied: u64,
    stopped: Option<(Refusal, u64)>,
}

impl Log {
    /// A log of which nothing has come.
    pub fn new() -> Self {
        Self::default()
    }

    /// How it stands after what has come so far.
    pub fn report(&self) -> Report {
        let going = Reading::Going(self.lines + newlines(&self.rest));
        let state = self.stopped.map_or(going, |(refusal, line)| Reading::Stopped(refusal, line));
        Report { applied: self.applied, state }
    }

    /// The log has ended: an end within a line or a group is refused by 13, at the line behind the
    /// last newline.
    ///
    /// ```
    /// use mavelino::{Log, Map, Reading, Refusal};
    /// let mut map = Map::open(Map::EVEN)?;
    /// let mut log = Log::new();
    /// map.feed(&mut log, b"op=insert\ntank=0\n")?;
    /// assert_eq!(log.end().state, Reading::Stopped(Refusal::BadLine, 3));
    /// # Ok::<(), mavelino::Error>(())
    /// ```
    pub fn end(self) -> Report {
        let told = self.report();
        match told.state {
            Reading::Going(lines) if !self.rest.is_empty() => {
                Report { state: Reading::Stopped(Refusal::BadLine, lines + 1), ..told }
            }
            _ => told,
        }
    }
}

impl Map {
    /// Takes one read of a log, cut anywhere, and tells what the log has come to. After a stop
    /// nothing more is taken, and the report stays.
    ///
    /// An error means that nothing of the read was taken.
    pub fn feed(&mut self, log: &mut Log, read: &[u8]) -> Result<Report, Error> {
        if log.stopped.is_some() {
            return Ok(log.report());
        }
        let piece = [&log.rest, read].concat();
        let (next, fed) = ffi::feed(self.text(), &piece)?;
        self.replace(next);
        let (taken, rest) = piece.split_at(fed.taken);
        let line = |(refusal, line): (Refusal, u64)| (refusal, log.lines.saturating_add(line));
        log.stopped = fed.stopped.map(line);
        log.lines += newlines(taken);
        log.applied = log.applied.saturating_add(fed.applied);
        log.rest = rest.to_vec();
        Ok(log.report())
    }
}

fn newlines(bytes: &[u8]) -> u64 {
    bytes.iter().filter(|&&byte| byte == b'\n').count() as u64
}

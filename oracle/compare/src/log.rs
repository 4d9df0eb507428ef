//! The edge boxes' log: change request 3 as a model.

use crate::answer::{Answer, Report};
use crate::call::{Call, SHAPES};
use crate::reader::{taken, Group, Step};

/// The ops that a log may name.
const OPS: [&str; 3] = ["annotate", "insert", "delete"];

/// A log as far as it has come: the bytes behind its last newline, the group that they go on with,
/// the newlines and edits so far, and the refusal and the line where it stopped.
#[derive(Clone, Debug, Default, PartialEq)]
pub struct Log {
    rest: Vec<u8>,
    group: Option<Group>,
    pub lines: u64,
    pub applied: u64,
    pub stopped: Option<(u8, u64)>,
}

impl Log {
    /// One read: each group is carried out when its last newline comes.
    pub fn take(&mut self, read: &[u8], mut edit: impl FnMut(&Call) -> Answer) -> Answer {
        let text = [std::mem::take(&mut self.rest), read.to_vec()].concat();
        for line in text.split_inclusive(|&byte| byte == b'\n') {
            if self.stopped.is_some() {
                break;
            }
            match line.strip_suffix(b"\n") {
                Some(line) => self.line(line, &mut edit),
                None => self.rest = line.to_vec(),
            }
        }
        self.report()
    }

    fn line(&mut self, line: &[u8], edit: &mut impl FnMut(&Call) -> Answer) {
        let known = |step: &Step| match step {
            Step::Within(group) | Step::Whole(group) => OPS.contains(&SHAPES[group.shape].0),
        };
        let step = taken(self.group.take(), line).filter(known);
        self.lines += 1;
        match step {
            None => self.stopped = Some((13, self.lines)),
            Some(Step::Within(group)) => self.group = Some(group),
            Some(Step::Whole(group)) => match edit(&Call::of(group.shape, &group.fields, &[])) {
                Answer::Refused(number) => self.stopped = Some((number, self.lines)),
                _ => self.applied += 1,
            },
        }
    }

    /// The end of the log; the next read begins another.
    pub fn end(&mut self) -> Answer {
        if self.stopped.is_none() && (self.group.is_some() || !self.rest.is_empty()) {
            self.stopped = Some((13, self.lines + 1));
        }
        std::mem::take(self).report()
    }

    fn report(&self) -> Answer {
        let &Log { lines, applied, stopped, .. } = self;
        Answer::Report(Report { applied, lines, stopped })
    }
}

#[cfg(test)]
mod tests {
    use super::*;
    use crate::tanks::Tanks;

    const LOG: &str =
        "op=insert\ntank=1\nat=0\nlen=5\nop=annotate\ntank=1\nstart=2\nend=4\nkey=7\n\
        lamport=1\npeer=9\ncnt=-4\nflags=132\nkind=whole\nvalue=-5\nop=delete\ntank=1\nstart=0\nend=1\n";

    fn after(reads: &[&[u8]]) -> (Answer, Answer, Tanks) {
        let mut tanks = Tanks::default();
        tanks.call(&Call::Open { settings: [(8, 64); 8] });
        let mut last = tanks.call(&Call::Log { body: Vec::new() });
        for read in reads {
            last = tanks.call(&Call::Log { body: read.to_vec() });
        }
        let end = tanks.call(&Call::LogEnd);
        (last, end, tanks)
    }

    #[test]
    fn a_log_may_be_cut_anywhere() {
        let text = LOG.as_bytes();
        let whole = after(&[text]);
        assert_eq!(whole.1, Answer::Report(Report { applied: 3, lines: 19, stopped: None }));
        for cut in 0..=text.len() {
            assert_eq!(after(&[&text[..cut], &text[cut..]]), whole);
        }
    }

    #[test]
    fn a_log_that_ends_early_is_bad_behind_its_last_newline() {
        let text = LOG.as_bytes();
        for end in 0..text.len() {
            let lines = text[..end].iter().filter(|&&byte| byte == b'\n').count() as u64;
            let clean =
                text[..end].is_empty() || [4, 15].contains(&lines) && text[end - 1] == b'\n';
            let Answer::Report(report) = after(&[&text[..end]]).1 else { panic!("a report") };
            assert_eq!(report.stopped, (!clean).then_some((13, lines + 1)));
        }
    }
}

//! A script: whole calls, and perhaps bytes after them that are no whole call.

use crate::call::Call;
use crate::mark::Party;
use crate::reader;

#[derive(Clone, Debug)]
pub struct Script {
    /// The class that it was written for, and the number under which it is written again.
    pub class: &'static str,
    pub seed: u64,
    pub calls: Vec<Call>,
    pub tail: Vec<u8>,
}

impl Script {
    /// Any bytes as a script: the whole groups before the first malformed line, then the rest.
    pub fn of_text(class: &'static str, seed: u64, text: &[u8]) -> Self {
        let read = reader::read(text);
        Self { class, seed, calls: read.calls, tail: text[read.whole..].to_vec() }
    }

    pub fn text(&self) -> Vec<u8> {
        let mut text: Vec<u8> = self.calls.iter().flat_map(Call::text).collect();
        text.extend(&self.tail);
        text
    }

    /// What the console writes after the answers.
    pub fn ending(&self) -> String {
        let lines: u64 = self.calls.iter().map(Call::lines).sum();
        match reader::read(&self.tail).malformed {
            Some(line) => format!("malformed={}\n", lines + line),
            None => String::new(),
        }
    }

    /// Whether it may follow another script in one input: it starts anew and ends between groups.
    /// An opening leaves the kept sets, the log and the legend, so a script that has to do with them
    /// goes alone, and so does one that leaves ranges pending or another party than the plant.
    pub fn joins(&self) -> bool {
        let keeps = |call: &Call| {
            let sets =
                matches!(call, Call::Settings { .. } | Call::Set { .. } | Call::OpenSet { .. });
            sets || matches!(call, Call::Log { .. } | Call::LogEnd | Call::Legend { .. })
        };
        let mut plans = self.calls.iter().rev();
        let last = plans.find(|call| matches!(call, Call::Range { .. } | Call::Plan { .. }));
        let pending = matches!(last, Some(Call::Range { .. }));
        let mut parties = self.calls.iter().rev();
        let last = parties.find(|call| matches!(call, Call::Party { .. }));
        let lab = last == Some(&Call::Party { party: Party::Lab });
        let anew = matches!(self.calls.first(), Some(Call::Open { .. }));
        anew && self.tail.is_empty() && !pending && !lab && !self.calls.iter().any(keeps)
    }
}

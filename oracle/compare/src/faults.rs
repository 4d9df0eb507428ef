//! A console with one fault in it. Each fault is a mistake that a map could make; the comparison
//! has to notice every one of them.

mod parties;
mod saved;

use std::borrow::Cow;
use std::collections::BTreeMap;

use crate::answer::{Aged, Answer, Extent, Range, Report};
use crate::call::Call;
use crate::mark::{listed, Content, Id, Mark, Owned, Party, Value};
use crate::settings::{pairs_of, Kept};
use crate::strip;
use crate::tank::{Stretch, Tank};
use crate::tanks::Tanks;

/// The name of a fault, and what it gets wrong.
pub const FAULTS: [(&str, &str); 292] = [
    ("refusal1", "answers for tank 0 in place of refusal 1"),
    ("refusal2", "accepts settings that break the rule"),
    ("refusal3", "accepts an empty edit"),
    ("refusal4", "accepts what lies past the length"),
    ("refusal5", "accepts an insert past the largest length"),
    ("refusal6", "accepts a NaN"),
    ("refusal7", "accepts another content under a carried identity"),
    ("refusal8", "accepts a mark that there is no room for"),
    ("refusal9", "accepts runs over the limit"),
    ("refusal10", "accepts runs over the pool"),
    ("refusal11", "accepts a short buffer"),
    ("refusal14", "accepts an odd flag byte"),
    ("refusal18", "accepts the flag byte of Before"),
    ("refusal-order", "gives 10 where 9 applies as well"),
    ("left-inherit", "new positions inherit from the left neighbour alone"),
    ("inherit-answer", "leaves the last mark out of an inherited set that has several"),
    ("fixed-slices", "gives 10 as soon as a tank passes its share"),
    ("early-count", "counts the runs of an annotate before joining them"),
    ("stale-content", "gives 7 for an identity that no position carries any more"),
    ("stale-marks", "gives 8 when 48 marks were ever carried"),
    ("idle-annotate", "accepts every eighth annotate and changes nothing"),
    ("idle-delete", "accepts every eighth delete and changes nothing"),
    ("past-last", "removal strips the rest of the stretch after last"),
    ("remove-index", "removal answers last + 1 where it removed something"),
    ("untouched-again", "an emptied tank becomes untouched"),
    ("untouched-insert", "an insert into an untouched tank counts in its length"),
    ("other-tank", "an edit of tank 1 touches tank 2"),
    ("set-order", "lists a set by lamport first"),
    ("same-none", "same-marks answers none for the empty set"),
    ("same-set", "same-marks answers the empty set for none"),
    ("rank", "the j-th mark counts from 1"),
    ("null-shown", "a winning null is shown"),
    ("winner", "shows the value of the least mark of a key"),
    ("zero-bits", "all_value compares decimals by their bits"),
    ("has-key", "has_key looks at the first position only"),
    ("stretch-clip", "the first stretch of a list isn't clipped"),
    ("stretch-extra", "a stretch list has an unmarked stretch too many"),
    ("needed-count", "counts stretches where u64 are asked for"),
    ("whole-unmarked", "the whole-tank list has unmarked stretches in it"),
    ("anchor-order", "starts come before ends"),
    ("anchor-end", "an end stands one past the last position"),
    ("find-end", "tells one past the last position of a stretch as its last"),
    ("find-before", "tells the first position of the stretch before"),
    ("find-joins", "tells a stretch that goes on into the next one"),
    ("age-clipped", "ageing does not count a stretch of which a rest stays"),
    ("age-remaining", "ageing does not lessen what remains by what it deleted"),
    ("age-over", "ageing drops one stretch more than its budget"),
    ("age-done", "ageing tells 0 remaining after its first call"),
    ("age-idle", "ageing an untouched tank is done at once, with no refusal"),
    ("refusal12", "reads a settings text with a bad line"),
    ("settings-line", "names the line after the bad one"),
    ("settings-zeros", "reads a number with leading zeros"),
    ("settings-plus", "reads a number with a plus"),
    ("settings-zero", "reads a 0"),
    ("settings-513", "reads a 513"),
    ("settings-return", "reads a line that ends with a carriage return"),
    ("settings-name", "reads a name whose first letter is a capital"),
    ("settings-version", "reads a text of version 2"),
    ("settings-newline", "reads a text without its last newline"),
    ("settings-left", "reads a text with something left over"),
    ("settings-first", "looks for text left over before the lines"),
    ("settings-rule", "refuses pairs that the opening would refuse"),
    ("settings-same", "gives a text that says the same as the last one no new number"),
    ("settings-count", "gives a refused text a number"),
    ("kept-three", "keeps three sets"),
    ("kept-five", "keeps five sets"),
    ("kept-open", "forgets the kept sets at an opening"),
    ("kept-open-set", "forgets the kept sets at an opening with one of them"),
    ("set-zero", "takes set 0 for the newest one"),
    ("set-newest", "answers the newest set for any that is kept"),
    ("set-swapped", "tells each limit as the share and each share as the limit"),
    ("set-narrow", "takes a set's number in 32 bits"),
    ("open-set-newest", "opens with the newest set in place of another"),
    ("open-set-none", "opens anew where the set is not kept"),
    ("open-set-refused", "accepts an opening with pairs that break the rule"),
    ("open-set-stays", "leaves the tanks as they were where it refuses the pairs"),
    ("open-set-idle", "accepts an opening with a set and changes nothing"),
    ("log-cut", "drops what came of a line when a read ends"),
    ("log-early", "applies a group at its last byte before the newline"),
    ("log-first-line", "names the first line of the group whose edit is refused"),
    ("log-goes-on", "reads on after a stop"),
    ("log-other", "takes a removal in a log"),
    ("log-undone", "takes the edits before a stop back"),
    ("log-end-count", "names the last line where a log ends early"),
    ("log-end-keeps", "goes on with the log after its end"),
    ("log-open", "begins a new log at an opening"),
    ("refusal15", "accepts a plan that breaks the rules and changes nothing"),
    ("plan-null", "lets a mark with a null hold nothing"),
    ("plan-numbering", "takes the ranges in the numbering after the deletions before"),
    ("plan-33", "takes the first 32 ranges of a longer plan"),
    ("plan-touching", "refuses ranges of which one ends where the next begins"),
    ("plan-begun", "deletes the first range of a plan that it refuses"),
    ("plan-just", "refuses a plan that leaves just as many runs as asked"),
    ("plan-stays", "leaves the ranges of a refused plan pending"),
    ("plan-tank", "leaves the ranges pending where there is no such tank"),
    ("plan-open", "forgets the pending ranges at an opening"),
    ("plan-untouched", "accepts ranges of an untouched tank"),
    ("range-count", "counts pending ranges past 33"),
    ("propose-all", "proposes every unheld position"),
    ("propose-none", "proposes no plan where the unheld positions are 32 ranges or more"),
    ("propose-needless", "proposes the oldest stretch where the tank holds no more than asked"),
    ("propose-pending", "leaves a proposed plan pending"),
    ("strip-position", "a cell has a letter of its first position that shows anything"),
    ("strip-null", "gives a winning null a letter"),
    ("strip-any", "gives any mark of a key its letter where it has a value"),
    ("strip-last-key", "the last key wins in a cell"),
    ("strip-seven", "looks at seven keys"),
    ("strip-equal", "the last letter of equal keys counts"),
    ("strip-cut", "leaves the position before the length out"),
    ("strip-longer", "a cell has the first position of the next one too"),
    ("strip-wraps", "a cell past 64 bits begins at the front again"),
    ("strip-narrow", "takes the positions of a cell in 32 bits"),
    ("strip-start", "refuses a start past the length by 4"),
    ("strip-95", "takes a buffer of 95 bytes"),
    ("strip-order", "gives 11 where 3 applies as well"),
    ("legend-first", "begins with letters in place of digits"),
    ("legend-key", "takes a letter for the key that stands there"),
    ("legend-high", "drops the highest bit of a letter"),
    ("legend-open", "forgets the legend at an opening"),
    ("cnt-seven", "accepts another counter under a carried identity"),
    ("cnt-order", "lists the marks of a key by their counters"),
    ("cnt-winner", "shows the value of the mark of a key with the greatest counter"),
    ("cnt-zero", "answers 0 for every counter"),
    ("cnt-minus", "answers a counter without its minus"),
    ("cnt-narrow", "keeps 16 bits of a counter"),
    ("cnt-least", "does not take the least counter"),
    ("cnt-most", "takes one more than the greatest counter"),
    ("cnt-minus-zero", "takes a counter of -0"),
    ("refusal16", "lets the laboratory insert, delete, plan and age, and changes nothing"),
    ("refusal17", "lets the laboratory pass the share, and changes nothing"),
    ("party-insert", "carries the laboratory's insert out"),
    ("party-late", "gives the laboratory 3, 4 and 5 in place of 16"),
    ("party-pending", "leaves the ranges pending where the laboratory submits them"),
    ("party-ignored", "answers the laboratory with the plant's marks"),
    ("party-joint", "lists joint stretches"),
    ("party-needed", "counts joint stretches where room is asked for"),
    ("party-extent", "tells the joint stretch of a position"),
    ("party-anchors", "lists the anchors of both parties"),
    ("party-wins", "a mark of the laboratory wins a key for the plant"),
    ("party-key", "has_key looks at both parties' marks"),
    ("party-value", "all_value looks at both parties' marks"),
    ("party-marks", "tells both parties' marks at a position"),
    ("party-rank", "ranks both parties' marks"),
    ("party-inherits", "tells both parties' marks that would be inherited"),
    ("party-same", "same-marks looks at both parties' marks"),
    ("party-runs", "counts the runs that the party is shown"),
    ("party-sum", "gives 8 by the joint count of 64 alone"),
    ("party-before", "counts the marks for 8 before the addition"),
    ("party-plant-room", "assures the laboratory no room"),
    ("party-known", "gives no 8 for a triple that the other party carries"),
    ("party-clash", "gives 7 for a triple that the other party carries with another content"),
    ("party-takes", "removes the other party's mark where the caller's is not there"),
    ("party-falls", "gives 17 where the runs don't rise"),
    ("party-removal", "gives no 17 for a removal"),
    ("party-reaches", "gives 17 where the runs rise to just the share"),
    ("party-plant-17", "gives the plant 17"),
    ("party-nine", "gives 9 where 17 applies as well"),
    ("party-eight", "gives 17 where 8 applies as well"),
    ("party-set", "an insert answers both parties' marks"),
    ("party-inherit", "new positions inherit of the plant alone"),
    ("party-stays", "an insert leaves the laboratory's marks where they are"),
    ("party-untouched", "the laboratory's mark does not touch a tank"),
    ("party-age", "ageing counts the stretches that the plant is shown"),
    ("party-hold", "a mark of the laboratory does not hold"),
    ("party-propose", "proposes by what the plant is shown"),
    ("party-strip", "shows the laboratory a strip of its own"),
    ("party-log", "the log's edits are the laboratory's where it is asked"),
    ("party-open", "forgets the party at an opening"),
    ("party-first", "begins as the laboratory"),
    ("party-capital", "takes a party with a capital"),
    ("save-short", "saves in a buffer that is one byte short"),
    ("save-exact", "refuses a buffer that is just long enough"),
    ("save-front", "writes the front of the text into a short buffer"),
    ("save-needed", "counts one byte less than a text has"),
    ("save-version", "writes a text of version 2"),
    ("save-settings", "writes each limit as the share and each share as the limit"),
    ("save-newline", "writes a newline behind the text"),
    ("save-capital", "writes a set in capital digits"),
    ("save-digits", "writes a set of fewer digits"),
    ("save-own", "writes the marks of the party that asks"),
    ("save-seven", "leaves the last tank out"),
    ("save-order", "writes the marks by lamport first"),
    ("save-last-first", "writes the last mark first"),
    ("save-plants", "writes every mark as the plant's"),
    ("save-cnt", "writes 0 for every counter"),
    ("save-flags", "writes every flag byte with its highest bit"),
    ("save-fresh", "writes an untouched tank without a run"),
    ("save-touched", "writes a tank without marks as untouched"),
    ("save-unmarked", "leaves unmarked runs out"),
    ("save-narrow", "writes a run's length in 32 bits"),
    ("save-bits", "gives the first mark the highest bit"),
    ("spare-version", "reads a text of version 0 or 4"),
    ("spare-share", "reads a share of 0 or 513"),
    ("spare-limit", "reads a limit of 0 or 513"),
    ("spare-ordered", "reads a limit under its share"),
    ("spare-shares", "reads shares that sum to over 512"),
    ("spare-tank", "reads tanks out of turn"),
    ("spare-touched", "reads a 2 as touched"),
    ("spare-length", "reads a length over 2^63 - 1"),
    ("spare-fresh-length", "reads an untouched tank of another length"),
    ("spare-marks", "reads over 64 marks"),
    ("spare-fresh-marks", "reads an untouched tank with a mark"),
    ("spare-party", "reads a mark of the plant behind one of the laboratory"),
    ("spare-key-wide", "reads a key over 16 bits"),
    ("spare-key", "reads keys that descend"),
    ("spare-lamport-wide", "reads a lamport over 32 bits"),
    ("spare-lamport", "reads lamports of a key that descend"),
    ("spare-peer", "reads peers of a lamport that descend"),
    ("spare-twice", "reads a mark twice"),
    ("spare-cnt-wide", "reads a counter over 32 bits"),
    ("spare-flags-wide", "reads flags over 8 bits"),
    ("spare-nan", "reads a NaN"),
    ("spare-runs", "reads more runs than the limit"),
    ("spare-fresh-runs", "reads an untouched tank with other than one run"),
    ("spare-empty", "reads a run without a position"),
    ("spare-bit", "reads a set with a bit past the marks"),
    ("spare-neighbour", "reads a set equal to that of the run before"),
    ("spare-sum", "reads lengths that do not sum to the tank's"),
    ("spare-wraps", "sums lengths in 64 bits"),
    ("spare-unused", "reads a mark that no run carries"),
    ("spare-room", "reads marks of the laboratory that there is no room for"),
    ("spare-pool", "reads more runs than the pool has"),
    ("spare-left", "reads a text with something left over"),
    ("restore-zeros", "reads a number with a leading zero"),
    ("restore-plus", "reads a number with a plus"),
    ("restore-minus-zero", "reads -0"),
    ("restore-space", "reads a number with a blank behind it"),
    ("restore-return", "reads a line that ends with a carriage return"),
    ("restore-capital", "reads capital digits"),
    ("restore-digits", "reads a set of one digit"),
    ("restore-kind", "reads a kind with a capital"),
    ("restore-name", "reads a name with a capital"),
    ("restore-blank", "reads over an empty line"),
    ("restore-newline", "reads a text without its last newline"),
    ("restore-1", "refuses version 1"),
    ("restore-2", "refuses version 2"),
    ("restore-512", "refuses a limit of 512"),
    ("restore-untouched", "refuses an untouched tank"),
    ("restore-emptied", "refuses a tank without positions"),
    ("restore-longest", "refuses a length of 2^63 - 1"),
    ("restore-64", "refuses 64 marks"),
    ("restore-key", "refuses the largest key"),
    ("restore-lamport", "refuses the largest lamport"),
    ("restore-peer", "refuses the largest peer"),
    ("restore-least", "refuses the least counter"),
    ("restore-odd", "refuses an odd flag byte"),
    ("restore-before", "refuses the flag byte of Before"),
    ("restore-255", "refuses the largest flag byte"),
    ("restore-infinite", "refuses an infinite value"),
    ("restore-limit", "refuses just as many runs as the limit"),
    ("restore-pool", "refuses just 512 runs in all"),
    ("restore-shares", "refuses shares of just 512"),
    ("restore-equal", "refuses a limit equal to its share"),
    ("restore-plants", "refuses over 48 marks of the plant without one of the laboratory"),
    ("restore-labs", "refuses over 16 marks of the laboratory"),
    ("restore-unmarked", "refuses a touched tank without marks"),
    ("restore-parties", "has the laboratory's identities go on behind the plant's"),
    ("restore-across", "takes the last run of a tank for the neighbour of the next one's first"),
    ("restore-twelve", "refuses a saved text by 12"),
    ("restore-line", "names the line after the first wrong one"),
    ("restore-sum-early", "names the line of the runs where lengths do not sum up"),
    ("restore-sum-length", "names the line of the length there"),
    ("restore-unused-early", "names the line of the marks where one is in no run"),
    ("restore-room-early", "names the line of the marks where there is no room for them"),
    ("restore-pool-early", "names the line of the runs where they pass the pool"),
    ("restore-pool-late", "names the text's last line there"),
    ("restore-ordered-early", "names the line of the share where its limit is less"),
    ("restore-ordered-late", "names the last line of the settings there"),
    ("restore-shares-early", "names the line of the last share where they pass the pool"),
    ("restore-key-late", "names the line of the peer where a key descends"),
    ("restore-lamport-late", "names the line of the peer where a lamport descends"),
    ("restore-short-early", "names the last line of a text that is cut off"),
    ("restore-left-early", "names the last line where something is left over"),
    ("restore-begun", "takes the settings of a text that it refuses"),
    ("restore-half", "takes the first tank of a text that it refuses"),
    ("restore-idle", "accepts a text and changes nothing"),
    ("restore-settings", "leaves the settings as they were"),
    ("restore-seven", "leaves the last tank as it was"),
    ("restore-first", "leaves the first tank as it was"),
    ("restore-touches", "restores every tank as touched"),
    ("restore-untouches", "restores a tank of length T without marks as untouched"),
    ("restore-plant", "restores the plant's marks alone"),
    ("restore-cnt", "restores 0 for every counter"),
    ("restore-party", "forgets the party at a restore"),
    ("restore-legend", "forgets the legend at a restore"),
    ("restore-pending", "forgets the pending ranges at a restore"),
    ("restore-log", "begins a new log at a restore"),
    ("restore-kept", "forgets the kept sets at a restore"),
    ("restore-counts", "counts the settings of a restore as a set that was read"),
    ("body-lines", "does not count the newlines of bodies"),
    ("run-count", "counts one run too many in a tank of 100 runs or more"),
    ("malformed-line", "names the line after the malformed one"),
];

pub struct Faulty {
    pub tanks: Tanks,
    fault: String,
    turn: u64,
    seen: BTreeMap<(u64, Owned), Content>,
}

impl Faulty {
    /// Without a name there is no fault.
    pub fn new(fault: &str) -> Self {
        let known = fault.is_empty() || FAULTS.iter().any(|known| known.0 == fault);
        assert!(known, "no fault is called {fault}");
        let mut tanks = Tanks::default();
        if fault == "legend-first" {
            tanks.legend.iter_mut().for_each(|place| place.1 += b'a' - b'0');
        }
        if fault == "party-first" {
            tanks.party = Party::Lab;
        }
        Self { tanks, fault: fault.into(), turn: 0, seen: BTreeMap::new() }
    }

    /// Faults in reading: it takes a line for another one of as many bytes.
    pub fn misread(&self, mut input: Vec<u8>) -> Vec<u8> {
        let (line, other) = match self.fault.as_str() {
            "cnt-least" => ("\ncnt=-2147483648\n", "\ncnt=-214748364x\n"),
            "cnt-most" => ("\ncnt=2147483648\n", "\ncnt=2147483647\n"),
            "cnt-minus-zero" => ("\ncnt=-0\n", "\ncnt=10\n"),
            "party-capital" => ("\nparty=Lab\n", "\nparty=lab\n"),
            _ => return input,
        };
        for at in 0..input.len() {
            if input[at..].starts_with(line.as_bytes()) {
                input[at..at + line.len()].copy_from_slice(other.as_bytes());
            }
        }
        input
    }

    /// The line that it calls malformed after these calls.
    pub fn malformed(&self, line: u64, calls: &[Call]) -> u64 {
        match self.fault.as_str() {
            "malformed-line" => line + 1,
            "body-lines" => {
                let bodies = calls.iter().flat_map(Call::body);
                line - bodies.filter(|&&byte| byte == b'\n').count() as u64
            }
            _ => line,
        }
    }

    pub fn call(&mut self, call: &Call) -> Answer {
        let before = self.tanks.clone();
        if let Some(answer) = self.instead(call).or_else(|| self.aside(call)) {
            return answer;
        }
        let answer = self.tanks.call(call);
        let answer = match answer {
            Answer::Refused(number) => {
                self.unopened(call, &before);
                self.unplanned(call, &before);
                return self.refused(number, call, &before);
            }
            Answer::BadLine(line) => return self.bad_line(line, call),
            other => other,
        };
        self.afterwards(call, &before);
        self.party_afterwards(call, &before);
        let answer = self.proposed(call, answer);
        let answer = self.stripped(call, answer);
        self.told(call, self.counted(call, &before, answer))
    }

    /// Faults that answer without carrying the call out.
    fn instead(&mut self, call: &Call) -> Option<Answer> {
        let eighth = |turn: &mut u64| {
            *turn += 1;
            *turn % 8 == 0
        };
        match (self.fault.as_str(), call) {
            ("idle-annotate", Call::Annotate { .. }) | ("idle-delete", Call::Delete { .. }) => {
                let accepted = self.tanks.clone().call(call) == Answer::Accepted;
                (accepted && eighth(&mut self.turn)).then_some(Answer::Accepted)
            }
            ("fixed-slices", Call::Annotate { tank, .. }) => {
                let mut after = self.tanks.clone();
                let accepted = after.call(call) == Answer::Accepted;
                let tank = *tank as usize;
                let over = accepted && after.tanks[tank].runs() > after.settings[tank].0;
                over.then_some(Answer::Refused(10))
            }
            ("early-count", Call::Annotate { tank, start, end, .. }) => {
                let accepted = self.tanks.clone().call(call) == Answer::Accepted;
                let place = *tank as usize;
                let cut = |at: &u64| !self.tanks.tanks[place].boundaries().contains(at);
                let early = |runs: u64| runs + cut(start) as u64 + cut(end) as u64;
                let over = accepted
                    && *end < self.tanks.tanks[place].length
                    && early(self.tanks.tanks[place].runs()) > self.tanks.settings[place].1;
                over.then_some(Answer::Refused(9))
            }
            ("stale-content" | "stale-marks", Call::Annotate { tank, mark, .. }) => {
                let accepted = self.tanks.clone().call(call) == Answer::Accepted;
                if !accepted {
                    return None;
                }
                let place = (*tank, (self.tanks.party, mark.id));
                let other = self.seen.get(&place).is_some_and(|seen| *seen != mark.content);
                let many = self.seen.keys().filter(|seen| seen.0 == *tank).count() >= 48;
                if self.fault == "stale-content" && other {
                    return Some(Answer::Refused(7));
                }
                if self.fault == "stale-marks" && many && !self.seen.contains_key(&place) {
                    return Some(Answer::Refused(8));
                }
                self.seen.insert(place, mark.content);
                None
            }
            ("cnt-narrow", Call::Annotate { tank, start, end, mark }) => {
                let content = Content { cnt: mark.content.cnt as i16 as i32, ..mark.content };
                let mark = Mark { id: mark.id, content };
                Some(self.tanks.call(&Call::Annotate {
                    tank: *tank,
                    start: *start,
                    end: *end,
                    mark,
                }))
            }
            ("age-over", Call::Age { tank, before, budget }) if *budget > 0 => {
                let budget = budget.saturating_add(1);
                Some(self.tanks.call(&Call::Age { tank: *tank, before: *before, budget }))
            }
            ("age-idle", Call::Age { tank, .. }) if *tank < 8 => {
                let idle = !self.tanks.tanks[*tank as usize].touched;
                idle.then_some(Answer::Aged(Aged { dropped: 0, remaining: 0 }))
            }
            (_, Call::Open { .. } | Call::OpenSet { .. }) => {
                self.seen.clear();
                None
            }
            _ => None,
        }
    }

    /// The same of what has to do with sets, logs, strips, plans, parties and saved texts.
    fn aside(&mut self, call: &Call) -> Option<Answer> {
        let kept = self.kept_instead(call).or_else(|| self.log_instead(call));
        let kept = kept.or_else(|| self.strip_instead(call));
        let kept = kept.or_else(|| self.planned_instead(call));
        let kept = kept.or_else(|| self.party_instead(call));
        kept.or_else(|| self.saved_instead(call))
    }

    /// The same of plans.
    fn planned_instead(&mut self, call: &Call) -> Option<Answer> {
        if let (true, Call::Range { .. }) = (self.fault == "range-count", call) {
            self.turn += 1;
            self.tanks.call(call);
            return Some(Answer::Pending(self.turn));
        }
        let Call::Plan { tank, hold, runs } = *call else { return None };
        self.turn = 0;
        let now = self.tanks.tanks.get(tank as usize)?;
        let ranges = self.tanks.pending.clone();
        let accepted = now.planned(hold, runs, &ranges).is_some();
        match self.fault.as_str() {
            "plan-null" if !accepted => {
                let mut without = now.clone();
                let null =
                    |id: &Id, content: &Content| id.0 == hold && content.value == Value::Null;
                let nulls = now.carried().into_iter().filter(|(id, content)| null(&id.1, content));
                for (id, _) in nulls {
                    (0..now.length.min(200)).rev().for_each(|last| {
                        without.remove(id.0, id.1, last);
                    });
                }
                without.planned(hold, u64::MAX, &ranges)?;
                self.tanks.pending.clear();
                Some(Answer::Accepted)
            }
            "plan-numbering" if accepted && ranges.len() > 1 => {
                let tank = &mut self.tanks.tanks[tank as usize];
                for range in &ranges {
                    let end = range.end.min(tank.length);
                    if range.start < end {
                        tank.delete(range.start, end);
                    }
                }
                self.tanks.pending.clear();
                Some(Answer::Accepted)
            }
            "plan-33" if ranges.len() > 32 => {
                self.tanks.pending.truncate(32);
                None
            }
            "plan-untouched" if !accepted && !now.touched && runs > 0 && !ranges.is_empty() => {
                self.tanks.pending.clear();
                Some(Answer::Accepted)
            }
            "plan-touching" if ranges.windows(2).any(|two| two[0].end == two[1].start) => {
                self.tanks.pending.clear();
                Some(Answer::Refused(15))
            }
            "plan-just" if accepted => {
                let just = now.planned(hold, runs.saturating_sub(1), &ranges).is_none();
                self.tanks.pending.retain(|_| !just);
                just.then_some(Answer::Refused(15))
            }
            _ => None,
        }
    }

    /// Faults in what a refused plan leaves.
    fn unplanned(&mut self, call: &Call, before: &Tanks) {
        let Call::Plan { tank, .. } = *call else { return };
        match self.fault.as_str() {
            "plan-stays" if tank < 8 => self.tanks.pending = before.pending.clone(),
            "party-pending" if tank < 8 && before.party == Party::Lab => {
                self.tanks.pending = before.pending.clone();
            }
            "plan-tank" if tank >= 8 => self.tanks.pending = before.pending.clone(),
            "plan-begun" if tank < 8 => {
                let first = before.pending.first();
                let within = |range: &&Range| {
                    let length = before.tanks[tank as usize].length;
                    range.start < range.end && range.end <= length
                };
                if let Some(range) = first.filter(within) {
                    self.tanks.tanks[tank as usize].delete(range.start, range.end);
                }
            }
            _ => {}
        }
    }

    /// Faults in what is proposed.
    fn proposed(&mut self, call: &Call, answer: Answer) -> Answer {
        let Call::Propose { tank, hold, .. } = *call else { return answer };
        let tank = &self.tanks.tanks[tank as usize];
        let all = tank.unheld(hold, tank.length);
        match (self.fault.as_str(), answer) {
            ("propose-all", Answer::Plan(ranges)) if !ranges.is_empty() => Answer::Plan(all),
            ("propose-none", Answer::Plan(ranges)) if all.len() >= 32 && !ranges.is_empty() => {
                Answer::None
            }
            ("propose-needless", Answer::Plan(ranges)) if ranges.is_empty() && tank.touched => {
                let second = tank.boundaries().get(1).copied().unwrap_or(tank.length);
                Answer::Plan(tank.unheld(hold, second))
            }
            ("propose-pending", Answer::Plan(ranges)) => {
                self.tanks.pending = ranges.clone();
                Answer::Plan(ranges)
            }
            (_, answer) => answer,
        }
    }

    /// Faults in a strip that is told.
    fn stripped(&self, call: &Call, answer: Answer) -> Answer {
        let Call::Strip { tank, start, k, .. } = *call else { return answer };
        let (tank, legend) = (&self.plants(tank), self.tanks.legend);
        let first_cell = |start: u64, k: u64| strip::cells(tank, &legend, start, k)[0];
        let cell = |cell: usize| (cell as u64).wrapping_mul(k).wrapping_add(start);
        let past = |at: usize| start as u128 + at as u128 * k as u128 > u64::MAX as u128;
        match self.fault.as_str() {
            "strip-position" => self.cells(call, |part| {
                let shown = |s: &Stretch, key: u16| tank.value(s.from, key).is_some();
                let first = |s: &Stretch| legend.iter().find(|(key, _)| shown(s, *key));
                part.iter().find_map(first).map(|found| found.1)
            }),
            "strip-null" => self.cells(call, |part| {
                let won = |s: &Stretch, key: u16| tank.winning(s.from, key).is_some();
                let found = legend.iter().find(|(key, _)| part.iter().any(|s| won(s, *key)));
                found.map(|found| found.1)
            }),
            "strip-any" => self.cells(call, |part| {
                let valued = |((_, id), content): (&Owned, &Content), key: u16| {
                    id.0 == key && content.value != Value::Null
                };
                let any = |s: &Stretch, key: u16| s.set.iter().any(|mark| valued(mark, key));
                let found = legend.iter().find(|(key, _)| part.iter().any(|s| any(s, *key)));
                found.map(|found| found.1)
            }),
            "strip-last-key" => {
                let mut other = legend;
                other.reverse();
                Answer::Strip(strip::cells(tank, &other, start, k))
            }
            "strip-seven" => {
                let mut other = legend;
                other[7] = other[0];
                Answer::Strip(strip::cells(tank, &other, start, k))
            }
            "strip-equal" => {
                let last = |key: u16| legend.iter().rfind(|place| place.0 == key).copied();
                let other = legend.map(|place| last(place.0).unwrap_or(place));
                Answer::Strip(strip::cells(tank, &other, start, k))
            }
            "strip-cut" if tank.length > 0 => {
                let mut other = Tank::clone(tank);
                other.delete(tank.length - 1, tank.length);
                Answer::Strip(strip::cells(&other, &legend, start, k))
            }
            "strip-longer" => Answer::Strip(std::array::from_fn(|at| {
                if past(at) {
                    return b'.';
                }
                first_cell(cell(at), k.saturating_add(1))
            })),
            "strip-wraps" => Answer::Strip(std::array::from_fn(|at| first_cell(cell(at), k))),
            "strip-narrow" => Answer::Strip(strip::cells(tank, &legend, start, k as u32 as u64)),
            "strip-start" if start > tank.length => Answer::Refused(4),
            _ => answer,
        }
    }

    /// What the plant is shown.
    fn plants(&self, tank: u64) -> Cow<'_, Tank> {
        self.tanks.tanks[tank as usize].shown_to(Party::Plant)
    }

    /// A strip of letters for the stretches of each cell.
    fn cells(&self, call: &Call, letter: impl Fn(&[Stretch]) -> Option<u8>) -> Answer {
        let Call::Strip { tank, start, k, .. } = *call else { unreachable!("a strip") };
        let tank = &self.plants(tank);
        let place = |cell: usize| {
            let place = start as u128 + cell as u128 * k as u128;
            place.min(tank.length as u128) as u64
        };
        Answer::Strip(std::array::from_fn(|cell| {
            letter(&tank.stretches(place(cell), place(cell + 1))).unwrap_or(b'.')
        }))
    }

    /// The same of legends and of a strip's buffer.
    fn strip_instead(&mut self, call: &Call) -> Option<Answer> {
        match (self.fault.as_str(), call) {
            ("legend-key", &Call::Legend { place, letter, .. }) => {
                self.tanks.legend[place as usize].1 = letter;
                Some(Answer::Accepted)
            }
            ("legend-high", &Call::Legend { place, key, letter }) => {
                Some(self.tanks.call(&Call::Legend { place, key, letter: letter & 0x7f }))
            }
            ("strip-95", &Call::Strip { tank, start, k, room: 95 }) => {
                Some(self.tanks.call(&Call::Strip { tank, start, k, room: 96 }))
            }
            _ => None,
        }
    }

    /// The same of settings texts and of the sets that are kept.
    fn kept_instead(&mut self, call: &Call) -> Option<Answer> {
        match (self.fault.as_str(), call) {
            ("settings-rule", Call::Settings { body }) => {
                let settings = pairs_of(body).ok()?;
                let refused = Tanks::default().call(&Call::Open { settings });
                (refused != Answer::Accepted).then_some(Answer::BadLine(3))
            }
            ("settings-same", Call::Settings { body }) => {
                let kept = &self.tanks.kept;
                let same = pairs_of(body).ok().as_ref() == kept.sets.first();
                (same && kept.number > 0).then_some(Answer::Set(kept.number))
            }
            ("set-zero", Call::Set { number: 0 }) => {
                self.tanks.kept.sets.first().copied().map(Answer::Pairs)
            }
            ("set-narrow", Call::Set { number }) => {
                Some(self.tanks.call(&Call::Set { number: *number as u32 as u64 }))
            }
            ("set-newest", Call::Set { number }) => {
                let kept = &self.tanks.kept;
                kept.set(*number).and(kept.sets.first().copied()).map(Answer::Pairs)
            }
            ("open-set-newest", Call::OpenSet { number }) => {
                let kept = &self.tanks.kept;
                let settings = kept.set(*number).and(kept.sets.first().copied())?;
                Some(self.tanks.call(&Call::Open { settings }))
            }
            ("open-set-none", Call::OpenSet { number }) => {
                if self.tanks.kept.set(*number).is_none() {
                    self.tanks.call(&Call::Open { settings: [(1, 1); 8] });
                    return Some(Answer::None);
                }
                None
            }
            ("open-set-idle", Call::OpenSet { .. }) => {
                let accepted = self.tanks.clone().call(call) == Answer::Accepted;
                accepted.then_some(Answer::Accepted)
            }
            _ => None,
        }
    }

    /// The same of a log.
    fn log_instead(&mut self, call: &Call) -> Option<Answer> {
        let before = self.tanks.clone();
        let stopped = before.log.stopped.is_some();
        match (self.fault.as_str(), call) {
            ("log-cut", Call::Log { body }) => {
                let lines = body.iter().rposition(|&byte| byte == b'\n').map_or(0, |at| at + 1);
                Some(self.tanks.call(&Call::Log { body: body[..lines].to_vec() }))
            }
            ("log-early", Call::Log { body }) if !body.is_empty() && !body.ends_with(b"\n") => {
                self.tanks.call(&Call::Log { body: [body, &b"\n"[..]].concat() });
                let applied = self.tanks.log.applied > before.log.applied;
                let report = self.tanks.log.take(b"", |_| Answer::Accepted);
                if applied && self.tanks.log.stopped.is_none() {
                    return Some(report);
                }
                self.tanks = before;
                None
            }
            ("log-goes-on", Call::Log { body }) if stopped => {
                let report = self.tanks.log.take(b"", |_| Answer::Accepted);
                let log = std::mem::take(&mut self.tanks.log);
                self.tanks.call(&Call::Log { body: body.clone() });
                self.tanks.log = log;
                Some(report)
            }
            ("log-other", Call::Log { body }) => {
                let text = String::from_utf8_lossy(body);
                let mended = text.replace("op=remove\n", "");
                (mended != text).then(|| self.tanks.call(&Call::Log { body: mended.into() }))
            }
            ("log-undone", Call::Log { .. }) => {
                let answer = self.tanks.call(call);
                if !stopped && self.tanks.log.stopped.is_some() {
                    self.tanks.tanks = before.tanks;
                }
                Some(answer)
            }
            ("log-end-keeps", Call::LogEnd) => {
                let answer = self.tanks.call(call);
                self.tanks.log = before.log;
                Some(answer)
            }
            ("log-open", Call::Open { .. }) => {
                self.tanks.log = Default::default();
                None
            }
            _ => None,
        }
    }

    /// Faults in what a refused opening leaves.
    fn unopened(&mut self, call: &Call, before: &Tanks) {
        if let ("open-set-stays", Call::OpenSet { .. }) = (self.fault.as_str(), call) {
            self.tanks = before.clone();
        }
    }

    /// Faults with a settings text that has a bad line: they read it as if it were another.
    fn bad_line(&mut self, line: u64, call: &Call) -> Answer {
        let text = String::from_utf8_lossy(call.body());
        let mended = match self.fault.as_str() {
            "refusal12" => return self.tanks.kept.take(Ok([(1, 1); 8])),
            "settings-line" => return Answer::BadLine(line + 1),
            "settings-count" => {
                self.tanks.kept.number += 1;
                return Answer::BadLine(line);
            }
            "settings-first" if text.lines().count() > 17 => return Answer::BadLine(18),
            "settings-zeros" => text.replace("=00", "=").replace("=0", "="),
            "settings-plus" => text.replace("=+", "="),
            "settings-zero" => text.replace("=0\n", "=1\n"),
            "settings-513" => text.replace("=513\n", "=512\n"),
            "settings-return" => text.replace("\r\n", "\n"),
            "settings-name" => text.replace("Share", "share"),
            "settings-version" => text.replace("version=2\n", "version=1\n"),
            "settings-newline" => format!("{text}\n"),
            "settings-left" if line == 18 => {
                text.lines().take(17).flat_map(|l| [l, "\n"]).collect()
            }
            _ => return Answer::BadLine(line),
        };
        match pairs_of(mended.as_bytes()) {
            Ok(settings) => self.tanks.kept.take(Ok(settings)),
            Err(_) => Answer::BadLine(line),
        }
    }

    /// Faults in a refusal. The tanks stay as they were.
    fn refused(&self, number: u8, call: &Call, before: &Tanks) -> Answer {
        let nine = number == 9 && self.fault == "refusal-order";
        if nine && before.pooled() >= 511 {
            return Answer::Refused(10);
        }
        if let (7, "cnt-seven", Call::Annotate { tank, mark, .. }) =
            (number, self.fault.as_str(), call)
        {
            let known = before.tanks[*tank as usize].carried()[&(before.party, mark.id)];
            if (Content { cnt: mark.content.cnt, ..known }) == mark.content {
                return Answer::Accepted;
            }
        }
        let short = matches!(call, Call::Strip { room: 0..96, .. });
        if number == 3 && short && self.fault == "strip-order" {
            return Answer::Refused(11);
        }
        let opens = self.fault == "open-set-refused" && matches!(call, Call::OpenSet { .. });
        if self.fault != format!("refusal{number}") && !opens {
            return Answer::Refused(number);
        }
        match call {
            Call::Insert { .. } | Call::Marks { .. } | Call::Inherit { .. } => {
                Answer::Marks(Vec::new())
            }
            Call::Remove { .. } => Answer::First(0),
            Call::Age { .. } => Answer::Aged(Aged { dropped: 0, remaining: 0 }),
            Call::HasKey { .. } | Call::AllValue { .. } => Answer::Yes(false),
            Call::Stretches { tank, .. } | Call::Whole { tank, .. } => {
                Answer::Stretches(*tank, Vec::new())
            }
            Call::Anchors { .. } => Answer::Anchors(Vec::new()),
            Call::Open { .. }
            | Call::OpenSet { .. }
            | Call::Annotate { .. }
            | Call::Plan { .. }
            | Call::Delete { .. } => Answer::Accepted,
            _ => Answer::None,
        }
    }

    /// Faults in what an accepted edit leaves.
    fn afterwards(&mut self, call: &Call, before: &Tanks) {
        match (self.fault.as_str(), call) {
            ("left-inherit", &Call::Insert { tank, at, len }) => {
                let old = before.tanks[tank as usize].shown_to(Party::Plant);
                if old.touched && 0 < at && at < old.length {
                    for mark in listed(old.at(at - 1)) {
                        self.tanks.call(&Call::Annotate { tank, start: at, end: at + len, mark });
                    }
                }
            }
            ("past-last", &Call::Remove { tank, id, last }) => {
                let old = before.tanks[tank as usize].shown_to(before.party);
                let carried = old.at(last).contains_key(&(before.party, id));
                let ends = old.anchors().into_iter();
                let end =
                    ends.filter(|a| !a.start && a.id == id && a.at > last).map(|a| a.at).next();
                if let (true, Some(last)) = (carried, end) {
                    self.tanks.call(&Call::Remove { tank, id, last });
                }
            }
            ("untouched-again", &Call::Delete { tank, .. }) => {
                let tank = &mut self.tanks.tanks[tank as usize];
                tank.touched &= tank.length > 0;
            }
            ("untouched-insert", &Call::Insert { tank, len, .. }) => {
                let tank = &mut self.tanks.tanks[tank as usize];
                if !tank.touched {
                    tank.length = tank.length.saturating_add(len);
                }
            }
            ("other-tank", Call::Annotate { tank: 1, .. }) => self.tanks.tanks[2].touched = true,
            ("kept-three", Call::Settings { .. }) => self.tanks.kept.sets.truncate(3),
            ("kept-five", Call::Settings { .. }) => {
                let fifth = before.kept.sets.get(3);
                self.tanks.kept.sets.extend(fifth);
            }
            ("plan-open", Call::Open { .. } | Call::OpenSet { .. }) => self.tanks.pending.clear(),
            ("legend-open", Call::Open { .. } | Call::OpenSet { .. }) => {
                self.tanks.legend = strip::FIRST;
            }
            ("kept-open", Call::Open { .. }) | ("kept-open-set", Call::OpenSet { .. }) => {
                self.tanks.kept = Kept::default();
            }
            _ => {}
        }
    }

    /// A fault in what an ageing counts: it needs the tank as it was.
    fn counted(&self, call: &Call, before: &Tanks, answer: Answer) -> Answer {
        match (self.fault.as_str(), call, answer) {
            ("age-clipped", Call::Age { tank, before: to, .. }, Answer::Aged(aged)) => {
                let clipped = !before.tanks[*tank as usize].boundaries().contains(to);
                let last = aged.dropped > 0 && aged.remaining == 0 && clipped;
                Answer::Aged(Aged { dropped: aged.dropped - last as u64, ..aged })
            }
            (_, _, answer) => answer,
        }
    }

    /// A counter that is told wrongly.
    fn miscount(&self, mark: &mut Mark) {
        let cnt = mark.content.cnt;
        mark.content.cnt = if self.fault == "cnt-zero" { 0 } else { cnt.saturating_abs() };
    }

    /// Faults in what is told.
    fn told(&self, call: &Call, answer: Answer) -> Answer {
        let tank = call.tank().unwrap_or(0) as usize;
        let state = &self.tanks.tanks[tank].shown_to(self.tanks.party);
        match (self.fault.as_str(), call, answer) {
            ("left-inherit", Call::Insert { at, .. }, Answer::Marks(_))
                if *at > 0 && state.touched =>
            {
                Answer::Marks(listed(state.at(*at)))
            }
            (
                "inherit-answer",
                Call::Insert { .. } | Call::Inherit { .. },
                Answer::Marks(mut marks),
            ) => {
                if marks.len() > 1 {
                    marks.pop();
                }
                Answer::Marks(marks)
            }
            ("remove-index", Call::Remove { last, .. }, _) => Answer::First(last + 1),
            ("set-order", _, Answer::Marks(mut marks)) => {
                marks.sort_by_key(|mark| (mark.id.1, mark.id.2, mark.id.0));
                Answer::Marks(marks)
            }
            ("cnt-order", _, Answer::Marks(mut marks)) => {
                marks.sort_by_key(|mark| (mark.id.0, mark.content.cnt));
                Answer::Marks(marks)
            }
            ("cnt-zero" | "cnt-minus", _, Answer::Marks(mut marks)) => {
                marks.iter_mut().for_each(|mark| self.miscount(mark));
                Answer::Marks(marks)
            }
            ("cnt-zero" | "cnt-minus", _, Answer::Mark(mut mark)) => {
                self.miscount(&mut mark);
                Answer::Mark(mark)
            }
            ("cnt-winner", Call::Value { at, key, .. }, Answer::Value(_)) => {
                let of_key = state.at(*at).iter().filter(|((_, id), _)| id.0 == *key);
                let most = of_key.max_by_key(|(_, content)| content.cnt);
                most.map_or(Answer::None, |(_, content)| Answer::Value(content.value))
            }
            ("same-none", Call::Same { .. }, Answer::Marks(marks)) if marks.is_empty() => {
                Answer::None
            }
            ("same-set", Call::Same { .. }, Answer::None) => Answer::Marks(Vec::new()),
            ("rank", Call::Mark { at, rank, .. }, _) => {
                let marks = listed(state.at(*at));
                let place = rank.saturating_sub(1) as usize;
                marks.get(place).map_or(Answer::None, |mark| Answer::Mark(*mark))
            }
            ("null-shown", Call::Value { at, key, .. }, Answer::None) => {
                state.winning(*at, *key).map_or(Answer::None, Answer::Value)
            }
            ("winner", Call::Value { at, key, .. }, Answer::Value(_)) => {
                let least = state.at(*at).iter().find(|((_, id), _)| id.0 == *key);
                least.map_or(Answer::None, |(_, content)| Answer::Value(content.value))
            }
            ("zero-bits", Call::AllValue { start, key, value, .. }, Answer::Yes(true)) => {
                Answer::Yes(state.winning(*start, *key) == Some(*value))
            }
            ("has-key", Call::HasKey { start, key, .. }, Answer::Yes(true)) => {
                Answer::Yes(state.has_key(*start, *start + 1, *key))
            }
            ("stretch-clip", Call::Stretches { .. }, Answer::Stretches(tank, mut list)) => {
                if let Some(first) = list.first_mut() {
                    let boundaries = state.boundaries().into_iter();
                    first.from = boundaries.filter(|&at| at <= first.from).max().unwrap_or(0);
                }
                Answer::Stretches(tank, list)
            }
            ("stretch-extra", Call::Whole { .. }, Answer::Stretches(tank, mut list)) => {
                if let Some(&last) = list.last() {
                    list.push(crate::answer::Listed { from: last.to, to: last.to + 1, marks: 0 });
                }
                Answer::Stretches(tank, list)
            }
            ("needed-count", _, Answer::Needed(needed)) => Answer::Needed(needed / 3),
            ("whole-unmarked", Call::Whole { .. }, Answer::Stretches(tank, _)) => {
                let all = state.stretches(0, state.length);
                Answer::Stretches(tank, crate::tank::listed(&all))
            }
            ("anchor-order", _, Answer::Anchors(mut list)) => {
                list.sort_by_key(|a| (a.at + !a.start as u64, !a.start, a.id));
                Answer::Anchors(list)
            }
            ("anchor-end", _, Answer::Anchors(mut list)) => {
                list.iter_mut().for_each(|a| a.at += !a.start as u64);
                Answer::Anchors(list)
            }
            ("find-end", _, Answer::Extent(Extent { first, last })) => {
                Answer::Extent(Extent { first, last: last + 1 })
            }
            ("find-before", _, Answer::Extent(Extent { first, last })) => {
                Answer::Extent(Extent { first: state.find(first.saturating_sub(1)).first, last })
            }
            ("find-joins", _, Answer::Extent(Extent { first, last })) => {
                let next = (last + 1).min(state.length - 1);
                Answer::Extent(Extent { first, last: state.find(next).last })
            }
            ("age-remaining", Call::Age { before, .. }, Answer::Aged(aged)) if aged.dropped > 0 => {
                Answer::Aged(Aged { remaining: *before, ..aged })
            }
            ("set-swapped", _, Answer::Pairs(settings)) => {
                Answer::Pairs(settings.map(|(share, limit)| (limit, share)))
            }
            ("log-first-line", Call::Log { .. }, Answer::Report(report)) => {
                let first = |(number, line): (u8, u64)| match number {
                    3 => (number, line - 3),
                    _ => (number, line),
                };
                Answer::Report(Report { stopped: report.stopped.map(first), ..report })
            }
            ("log-end-count", Call::LogEnd, Answer::Report(report)) => {
                let last = |(number, line)| (number, line - (number == 13) as u64);
                Answer::Report(Report { stopped: report.stopped.map(last), ..report })
            }
            ("age-done", _, Answer::Aged(aged)) => Answer::Aged(Aged { remaining: 0, ..aged }),
            ("run-count", _, Answer::Runs(runs)) if runs >= 100 => Answer::Runs(runs + 1),
            (_, _, answer) => answer,
        }
    }
}

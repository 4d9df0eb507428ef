//! Faults of a console that saves and restores.

use super::Faulty;
use crate::answer::Answer;
use crate::call::Call;
use crate::draft::{Draft, Said};
use crate::mark::{only, Party};
use crate::saved::{self, read, Saved};
use crate::settings::{pairs_of, Kept};
use crate::strip;
use crate::tank::{Tank, T};
use crate::tanks::{Tanks, POOL};

/// Faults that take one spelling for another, where a text is wrong as it stands.
const TAKEN: [(&str, &str, &str); 10] = [
    ("restore-zeros", "=01\n", "=1\n"),
    ("restore-plus", "=+1\n", "=1\n"),
    ("restore-minus-zero", "=-0\n", "=0\n"),
    ("restore-space", "=1 \n", "=1\n"),
    ("restore-return", "=1\r\n", "=1\n"),
    ("restore-capital", "=000000000000000F\n", "=000000000000000f\n"),
    ("restore-digits", "set=1\n", "set=0000000000000001\n"),
    ("restore-kind", "kind=Bool\n", "kind=bool\n"),
    ("restore-name", "Version=", "version="),
    ("restore-blank", "\n\n", "\n"),
];

/// Faults that refuse a line that is in order.
const REFUSED: [(&str, &str); 15] = [
    ("restore-1", "version=1\n"),
    ("restore-2", "version=2\n"),
    ("restore-512", "limit0=512\n"),
    ("restore-untouched", "touched=0\n"),
    ("restore-emptied", "length=0\n"),
    ("restore-longest", "length=9223372036854775807\n"),
    ("restore-64", "marks=64\n"),
    ("restore-key", "key=65535\n"),
    ("restore-lamport", "lamport=4294967295\n"),
    ("restore-peer", "peer=18446744073709551615\n"),
    ("restore-least", "cnt=-2147483648\n"),
    ("restore-odd", "flags=65\n"),
    ("restore-before", "flags=130\n"),
    ("restore-255", "flags=255\n"),
    ("restore-infinite", "value=7ff0000000000000\n"),
];

impl Faulty {
    /// Faults in what is saved and restored.
    pub(super) fn saved_instead(&mut self, call: &Call) -> Option<Answer> {
        match call {
            Call::Save { room } => self.save_instead(*room),
            Call::SaveNeeded if self.fault == "save-needed" => {
                Some(Answer::Needed(self.tanks.text().len() as u64 - 1))
            }
            Call::Restore { body } => self.restore_instead(body),
            _ => None,
        }
    }

    fn save_instead(&self, room: u64) -> Option<Answer> {
        let text = self.tanks.text();
        let needed = text.len() as u64;
        match self.fault.as_str() {
            "save-short" if room + 1 == needed => return Some(Answer::Saved(text)),
            "save-exact" if room == needed => return Some(Answer::Refused(11)),
            "save-front" if room < needed => {
                return Some(Answer::Saved(text[..room as usize].to_vec()))
            }
            _ if room < needed => return None,
            _ => {}
        }
        Some(Answer::Saved(self.miswritten(text)?))
    }

    /// Another text than the right one.
    fn miswritten(&self, right: Vec<u8>) -> Option<Vec<u8>> {
        let mut draft = Draft::of(&self.tanks);
        match self.fault.as_str() {
            "save-version" => draft.version = 2,
            "save-settings" => draft.settings = draft.settings.map(|(share, limit)| (limit, share)),
            "save-newline" => return Some([&right[..], b"\n"].concat()),
            "save-capital" => {
                return Some(right.split_inclusive(|b| *b == b'\n').flat_map(capital).collect())
            }
            "save-digits" => {
                let text = String::from_utf8_lossy(&right).into_owned();
                return Some(text.replace("set=0000", "set=").into_bytes());
            }
            "save-own" => {
                let (who, settings) = (self.tanks.party, self.tanks.settings);
                let tanks = self.tanks.tanks.each_ref().map(|tank| tank.shown_to(who).into_owned());
                return Some(saved::text_of(saved::NEWEST, &settings, &tanks));
            }
            "save-seven" => {
                let last = right.windows(8).rposition(|part| part == b"\ntank=7\n")?;
                return Some(right[..last + 1].to_vec());
            }
            _ => draft.tanks.iter_mut().for_each(|said| self.missay(said)),
        }
        Some(draft.text())
    }

    fn missay(&self, said: &mut Said) {
        match self.fault.as_str() {
            "save-order" => said.marks.sort_by_key(|(party, id, _)| (*party, id.1, id.2, id.0)),
            "save-last-first" => said.marks.reverse(),
            "save-plants" => said.marks.iter_mut().for_each(|mark| mark.0 = Party::Plant),
            "save-cnt" => said.marks.iter_mut().for_each(|mark| mark.2.cnt = 0),
            "save-flags" => said.marks.iter_mut().for_each(|mark| mark.2.flags |= 0x80),
            "save-fresh" if said.touched == 0 => said.runs.clear(),
            "save-touched" if said.marks.is_empty() => said.touched = 0,
            "save-unmarked" => said.runs.retain(|run| run.1 != 0),
            "save-narrow" => said.runs.iter_mut().for_each(|run| run.0 &= u32::MAX as u64),
            "save-bits" => {
                let turned =
                    |set: u64| set.reverse_bits() >> (64 - said.marks.len() as u32).min(63);
                said.runs.iter_mut().for_each(|run| run.1 = turned(run.1));
            }
            _ => {}
        }
    }

    fn restore_instead(&mut self, body: &[u8]) -> Option<Answer> {
        if let Some(rule) = self.fault.strip_prefix("spare-") {
            return Some(self.tanks.restore(read(body, rule)));
        }
        match read(body, "") {
            Err(line) => Some(self.wrongly_taken(body, line)),
            Ok(said) => self.wrongly_refused(body, &said).or_else(|| self.misread_text(said)),
        }
    }

    /// Faults with a text that is wrong: it is read as another, or another line is told.
    fn wrongly_taken(&mut self, body: &[u8], line: u64) -> Answer {
        let text = String::from_utf8_lossy(body).into_owned();
        if let Some((_, from, to)) = TAKEN.iter().find(|taken| taken.0 == self.fault) {
            let other = read(text.replace(from, to).as_bytes(), "");
            return self.tanks.restore(other.map_err(|_| line));
        }
        match self.fault.as_str() {
            "restore-newline" => {
                let other = read(format!("{text}\n").as_bytes(), "");
                self.tanks.restore(other.map_err(|_| line))
            }
            "restore-twelve" => Answer::BadLine(line),
            "restore-begun" => {
                let front: String = text.lines().skip(1).take(16).flat_map(|l| [l, "\n"]).collect();
                let settings = pairs_of(format!("version=1\n{front}").as_bytes());
                self.tanks.settings = settings.unwrap_or(self.tanks.settings);
                Answer::WrongLine(line)
            }
            "restore-half" => {
                let rest = |tank| format!("tank={tank}\ntouched=1\nlength=0\nmarks=0\nruns=0\n");
                let front = text.split("tank=1\n").next().unwrap_or_default();
                let other = front.to_string() + &(1..8).map(rest).collect::<String>();
                if let Ok(Saved { tanks: [first, ..], .. }) = read(other.as_bytes(), "") {
                    self.tanks.tanks[0] = first;
                }
                Answer::WrongLine(line)
            }
            _ => Answer::WrongLine(self.misplaced(&text, line)),
        }
    }

    /// Another line than the first wrong one.
    fn misplaced(&self, text: &str, line: u64) -> u64 {
        let blamed = |rule: &str| read(text.as_bytes(), rule).err() != Some(line);
        let lines: Vec<&str> = text.split_inclusive('\n').collect();
        let before = (line as usize).min(lines.len());
        let back = |name: &str| {
            let place = lines[..before].iter().rposition(|line| line.starts_with(name));
            place.map_or(line, |place| place as u64 + 1)
        };
        let short = text.ends_with('\n') && line as usize == lines.len() + 1;
        match self.fault.as_str() {
            "restore-line" => line + 1,
            "restore-sum-early" if blamed("sum") => back("runs="),
            "restore-sum-length" if blamed("sum") => back("length="),
            "restore-unused-early" if blamed("unused") => back("marks="),
            "restore-room-early" if blamed("room") => back("marks="),
            "restore-pool-early" if blamed("pool") => back("runs="),
            "restore-pool-late" if blamed("pool") => lines.len() as u64,
            "restore-ordered-early" if blamed("ordered") => line - 1,
            "restore-ordered-late" if blamed("ordered") => 17,
            "restore-shares-early" if blamed("shares") => 16,
            "restore-key-late" if blamed("key") => line + 2,
            "restore-lamport-late" if blamed("lamport") => line + 1,
            "restore-short-early" if short => line - 1,
            "restore-left-early" if blamed("left") => line - 1,
            _ => line,
        }
    }

    /// Faults with a text that is in order.
    fn wrongly_refused(&self, body: &[u8], said: &Saved) -> Option<Answer> {
        let text = String::from_utf8_lossy(body);
        let lines: Vec<&str> = text.split_inclusive('\n').collect();
        let line = |refused: &str| lines.iter().position(|line| *line == refused);
        if let Some((_, refused)) = REFUSED.iter().find(|refused| refused.0 == self.fault) {
            return line(refused).map(|place| Answer::WrongLine(place as u64 + 1));
        }
        let Saved { settings, tanks } = said;
        let marks = |tank: &Tank, who| only(who, &tank.carried()).len();
        let with = tanks.iter().zip(settings);
        let sum = |sum: u64| sum == POOL;
        let wrong = match self.fault.as_str() {
            "restore-limit" => with.into_iter().any(|(tank, pair)| tank.runs() == pair.1),
            "restore-pool" => sum(with.map(|(tank, pair)| tank.runs().max(pair.0)).sum()),
            "restore-shares" => sum(settings.iter().map(|pair| pair.0).sum()),
            "restore-equal" => settings.iter().any(|pair| pair.0 == pair.1),
            "restore-plants" => tanks.iter().any(|tank| marks(tank, Party::Plant) > 48),
            "restore-labs" => tanks.iter().any(|tank| marks(tank, Party::Lab) > 16),
            "restore-unmarked" => {
                tanks.iter().any(|t| t.touched && t.length > 0 && t.carried().is_empty())
            }
            "restore-parties" => tanks.iter().any(|tank| {
                let carried = tank.carried();
                let ids: Vec<_> = carried.keys().map(|id| id.1).collect();
                !ids.is_sorted()
            }),
            "restore-across" => tanks.windows(2).any(|two| {
                let last = |t: &Tank| t.length.checked_sub(1).map(|at| t.at(at).clone());
                let first = |t: &Tank| (t.length > 0).then(|| t.at(0).clone());
                last(&two[0]).is_some() && last(&two[0]) == first(&two[1])
            }),
            _ => return None,
        };
        wrong.then_some(Answer::WrongLine(18))
    }

    /// Faults in what an accepted text leaves.
    fn misread_text(&mut self, said: Saved) -> Option<Answer> {
        let before = self.tanks.clone();
        self.tanks.restore(Ok(said));
        let Tanks { settings, tanks, kept, log, pending, legend, party } = &mut self.tanks;
        match self.fault.as_str() {
            "restore-idle" => (*settings, *tanks) = (before.settings, before.tanks),
            "restore-settings" => *settings = before.settings,
            "restore-seven" => tanks[7] = before.tanks[7].clone(),
            "restore-first" => tanks[0] = before.tanks[0].clone(),
            "restore-touches" => tanks.iter_mut().for_each(|tank| tank.touched = true),
            "restore-untouches" => {
                let idle = |tank: &&mut Tank| tank.carried().is_empty() && tank.length == T;
                tanks.iter_mut().filter(idle).for_each(|tank| tank.touched = false);
            }
            "restore-plant" => {
                tanks.iter_mut().for_each(|t| *t = t.shown_to(Party::Plant).into_owned())
            }
            "restore-cnt" => *tanks = saved::sayable(2, tanks),
            "restore-party" => *party = Party::Plant,
            "restore-legend" => *legend = strip::FIRST,
            "restore-pending" => pending.clear(),
            "restore-log" => *log = Default::default(),
            "restore-kept" => *kept = Kept::default(),
            "restore-counts" => {
                kept.take(Ok(*settings));
            }
            _ => {}
        }
        Some(Answer::Accepted)
    }
}

/// A line of a set with its letters large.
fn capital(line: &[u8]) -> Vec<u8> {
    match line.strip_prefix(b"set=") {
        Some(set) => [b"set=", &set.to_ascii_uppercase()[..]].concat(),
        None => line.to_vec(),
    }
}

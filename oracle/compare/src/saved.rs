//! Settings and all tanks as a text: change request 6 as a model, with the parties of change
//! request 10 and the counters of change request 11.

use std::ops::RangeInclusive;

use crate::call::Settings;
use crate::mark::{Content, Id, Owned, Party, Set, PARTIES};
use crate::reader::{bits, number, value, whole, KINDS};
use crate::tank::{Tank, LONGEST, T};
use crate::tanks::{ASSURED, MARKS, POOL};

/// The version that is written; those before it are read as well.
pub const NEWEST: u64 = 3;

/// What a text says.
#[derive(Clone, Debug, PartialEq)]
pub struct Saved {
    pub settings: Settings,
    pub tanks: [Tank; 8],
}

/// The text of settings and tanks, in a version that can say them.
pub fn text_of(version: u64, settings: &Settings, tanks: &[Tank; 8]) -> Vec<u8> {
    let mut text = format!("version={version}\n");
    for (tank, (share, limit)) in settings.iter().enumerate() {
        text += &format!("share{tank}={share}\nlimit{tank}={limit}\n");
    }
    for (number, tank) in tanks.iter().enumerate() {
        text += &tank_text(version, number, tank);
    }
    text.into_bytes()
}

fn tank_text(version: u64, number: usize, tank: &Tank) -> String {
    let (touched, length, marks) = (tank.touched as u8, tank.length, tank.carried());
    let mut text = format!("tank={number}\ntouched={touched}\nlength={length}\n");
    text += &format!("marks={}\n", marks.len());
    for (&(party, id), &content) in &marks {
        text += &mark_text(version, party, id, content);
    }
    let runs = tank.stretches(0, tank.length);
    text += &format!("runs={}\n", runs.len());
    for run in runs {
        let carried = marks.keys().enumerate().filter(|(_, id)| run.set.contains_key(id));
        let set = carried.fold(0_u64, |set, (place, _)| set | 1 << place);
        text += &format!("len={}\nset={set:016x}\n", run.to - run.from);
    }
    text
}

pub fn mark_text(version: u64, party: Party, id: Id, content: Content) -> String {
    let ((key, lamport, peer), Content { cnt, flags, value }) = (id, content);
    let party = if version >= 2 { format!("party={}\n", party.name()) } else { String::new() };
    let cnt = if version >= 3 { format!("cnt={cnt}\n") } else { String::new() };
    let id = format!("key={key}\nlamport={lamport}\npeer={peer}\n");
    format!("{party}{id}{cnt}flags={flags}\nkind={}\nvalue={}\n", value.kind(), value.text())
}

/// The tanks without what a version has no line for.
pub fn sayable(version: u64, tanks: &[Tank; 8]) -> [Tank; 8] {
    let said = |(&(party, id), &content): (&Owned, &Content)| {
        let cnt = if version >= 3 { content.cnt } else { 0 };
        (version >= 2 || party == Party::Plant).then_some(((party, id), Content { cnt, ..content }))
    };
    tanks.each_ref().map(|tank| {
        let runs = tank.stretches(0, tank.length).into_iter();
        let runs = runs.map(|run| (run.to - run.from, run.set.iter().filter_map(said).collect()));
        Tank::laid(tank.touched, tank.length, runs)
    })
}

/// The number of the first wrong line in place of what was asked for.
type Line<A> = Result<A, u64>;

/// What a text says. The rules have names: `spared` is one that goes unheeded, as by a reader that
/// forgot it; by the empty name none does.
pub fn read(text: &[u8], spared: &str) -> Line<Saved> {
    let mut lines = Lines { rest: text, line: 0, spared };
    let version = lines.number("version", "version=", 1..=NEWEST)?;
    let settings = lines.settings()?;
    let mut tanks: [Tank; 8] = Default::default();
    for place in 0..8 {
        tanks[place] = lines.tank(version, place, &settings, &tanks[..place])?;
    }
    let left = lines.rest.is_empty() || spared == "left";
    left.then_some(Saved { settings, tanks }).ok_or(lines.line + 1)
}

/// The rest of a text, behind so many lines.
struct Lines<'a> {
    rest: &'a [u8],
    line: u64,
    spared: &'a str,
}

/// A run: its length, and its set over the numbered marks.
type Run = (u64, u64);

impl<'a> Lines<'a> {
    /// What stands behind the name on the next line.
    fn next(&mut self, name: &str) -> Line<&'a str> {
        self.line += 1;
        let end = self.rest.iter().position(|&byte| byte == b'\n').ok_or(self.line)?;
        let line = std::str::from_utf8(&self.rest[..end]).ok();
        self.rest = &self.rest[end + 1..];
        line.and_then(|line| line.strip_prefix(name)).ok_or(self.line)
    }

    /// A rule that is broken makes the last line read a wrong one.
    fn must(&self, rule: &str, holds: bool) -> Line<()> {
        (holds || rule == self.spared).then_some(()).ok_or(self.line)
    }

    fn number(&mut self, rule: &str, name: &str, within: RangeInclusive<u64>) -> Line<u64> {
        let text = self.next(name)?;
        let number = number(text, u64::MAX).ok_or(self.line)?;
        self.must(rule, within.contains(&number))?;
        Ok(number)
    }

    /// The opening's rule; the sum of the shares is looked at behind the last line.
    fn settings(&mut self) -> Line<Settings> {
        let mut settings = [(0, 0); 8];
        for (tank, pair) in settings.iter_mut().enumerate() {
            let share = self.number("share", &format!("share{tank}="), 1..=POOL)?;
            let limit = self.number("limit", &format!("limit{tank}="), 1..=POOL)?;
            self.must("ordered", share <= limit)?;
            *pair = (share, limit);
        }
        let shares: u128 = settings.iter().map(|pair| pair.0 as u128).sum();
        self.must("shares", shares <= POOL as u128)?;
        Ok(settings)
    }

    /// The next tank, behind those before it.
    fn tank(&mut self, version: u64, place: usize, all: &Settings, before: &[Tank]) -> Line<Tank> {
        let number = place as u64;
        self.number("tank", "tank=", number..=number)?;
        let touched = self.number("touched", "touched=", 0..=1)? > 0;
        let length = match touched {
            true => self.number("length", "length=", 0..=LONGEST)?,
            false => self.number("fresh-length", "length=", T..=T)?,
        };
        let marks = self.marks(version, touched)?;
        let runs = match touched {
            true => self.number("runs", "runs=", 0..=all[place].1)?,
            false => self.number("fresh-runs", "runs=", 1..=1)?,
        };
        let mut list: Vec<Run> = Vec::new();
        for _ in 0..runs {
            let run = self.run(marks.len(), list.last())?;
            list.push(run);
        }
        self.adds_up(length, &marks, &list)?;
        self.pooled(all, before, runs)?;
        let bit = |set: u64, at: usize| at < MARKS && set >> at & 1 == 1;
        let carried = |set: u64| marks.iter().enumerate().filter(move |(at, _)| bit(set, *at));
        let set = |set: u64| carried(set).map(|(_, mark)| *mark).collect::<Set>();
        Ok(Tank::laid(touched, length, list.into_iter().map(|(len, bits)| (len, set(bits)))))
    }

    fn marks(&mut self, version: u64, touched: bool) -> Line<Vec<(Owned, Content)>> {
        let count = match touched {
            true => self.number("marks", "marks=", 0..=MARKS as u64)?,
            false => self.number("fresh-marks", "marks=", 0..=0)?,
        };
        let mut marks: Vec<(Owned, Content)> = Vec::new();
        for _ in 0..count {
            let id = self.identity(version, marks.last().map(|mark| mark.0))?;
            marks.push((id, self.content(version)?));
        }
        Ok(marks)
    }

    /// The first of its lines that shows that it does not follow the one before is the wrong one.
    /// Each party's identities ascend for themselves, the plant's come first.
    fn identity(&mut self, version: u64, before: Option<Owned>) -> Line<Owned> {
        let party = if version >= 2 { self.party()? } else { Party::Plant };
        self.must("party", before.is_none_or(|before| party >= before.0))?;
        let before = before.filter(|before| before.0 == party).map(|before| before.1);
        let key = self.number("key-wide", "key=", 0..=u16::MAX as u64)? as u16;
        self.must("key", before.is_none_or(|b| (key, b.1, b.2) >= b))?;
        let lamport = self.number("lamport-wide", "lamport=", 0..=u32::MAX as u64)? as u32;
        self.must("lamport", before.is_none_or(|b| (key, lamport, b.2) >= b))?;
        let id = (key, lamport, self.number("peer-wide", "peer=", 0..=u64::MAX)?);
        self.must("peer", before.is_none_or(|b| id >= b))?;
        self.must("twice", before != Some(id))?;
        Ok((party, id))
    }

    fn party(&mut self) -> Line<Party> {
        let name = self.next("party=")?;
        PARTIES.into_iter().find(|party| party.name() == name).ok_or(self.line)
    }

    /// Any flag byte is taken, also one that no annotate may carry.
    fn content(&mut self, version: u64) -> Line<Content> {
        let cnt = if version >= 3 { self.counter()? } else { 0 };
        let flags = self.number("flags-wide", "flags=", 0..=u8::MAX as u64)? as u8;
        let kind = self.next("kind=")?;
        self.must("kind", KINDS.contains(&kind))?;
        let text = self.next("value=")?;
        let value = value(kind, text).ok_or(self.line)?;
        self.must("nan", !value.is_nan())?;
        Ok(Content { cnt, flags, value })
    }

    fn counter(&mut self) -> Line<i32> {
        let text = self.next("cnt=")?;
        let cnt = whole(text).ok_or(self.line)?;
        self.must("cnt-wide", i32::try_from(cnt).is_ok())?;
        Ok(cnt as i32)
    }

    fn run(&mut self, marks: usize, before: Option<&Run>) -> Line<Run> {
        let len = self.number("empty", "len=", 1..=u64::MAX)?;
        let text = self.next("set=")?;
        let set = bits(text).ok_or(self.line)?;
        self.must("bit", marks >= MARKS || set >> marks == 0)?;
        self.must("neighbour", before.is_none_or(|before| before.1 != set))?;
        Ok((len, set))
    }

    /// Behind a tank's last line: its lengths, that each mark is carried, and refusal 8's sum.
    fn adds_up(&self, length: u64, marks: &[(Owned, Content)], runs: &[Run]) -> Line<()> {
        let total: u128 = runs.iter().map(|run| run.0 as u128).sum();
        // Apart from the second rule, so that a sum of 64 bits can be played.
        self.must("sum", total as u64 == length)?;
        self.must("wraps", total <= u64::MAX as u128)?;
        let carried = runs.iter().fold(0, |all, run| all | run.1);
        self.must("unused", (0..marks.len().min(MARKS)).all(|place| carried >> place & 1 == 1))?;
        let of = |who: Party| marks.iter().filter(|(id, _)| id.0 == who).count();
        let needed = PARTIES.map(|who| of(who).max(ASSURED[who as usize]));
        self.must("room", of(Party::Lab) == 0 || needed.iter().sum::<usize>() <= MARKS)
    }

    /// Behind a tank's last line too: refusal 10's sum, where the tanks to come count their shares.
    fn pooled(&self, all: &Settings, before: &[Tank], runs: u64) -> Line<()> {
        let held = before.iter().map(Tank::runs).chain([runs]);
        let held = held.chain(std::iter::repeat(0)).zip(all);
        let claimed: u128 = held.map(|(runs, pair)| runs.max(pair.0) as u128).sum();
        self.must("pool", claimed <= POOL as u128)
    }
}

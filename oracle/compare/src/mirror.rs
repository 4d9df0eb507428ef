//! The original beside the model: two maps of the Rust for each tank, one for each party, which get
//! the edits that lie inside document 01's oracle domain: annotates and removals the party's own,
//! insertions and deletions all. An edit outside it that changes a tank takes that tank out of the
//! comparison until the next opening or restore. So what the Rust answers a party rests on nothing
//! of the other's marks.

use std::cell::Cell;
use std::collections::{BTreeMap, BTreeSet};
use std::panic::{catch_unwind, set_hook, take_hook, AssertUnwindSafe};

use original::{join_neighbours, LoroValue};

use crate::answer::{Aged, Anchor, Answer, Extent, Listed, Range};
use crate::call::Call;
use crate::mark::{Content, Id, Mark, Party, Value, PARTIES};
use crate::strip::{self, Legend, CELLS};
use crate::tank::{Tank, T};
use crate::tanks::Tanks;

/// The Rust's answer to a call.
#[derive(Clone, Debug, PartialEq)]
pub enum Said {
    /// The call lies outside the domain, or the answer isn't compared there.
    Nothing,
    /// An edit was carried out that answers nothing to compare.
    Done,
    Answer(Answer),
    Panic(String),
}

pub struct Mirror {
    joined: bool,
    tanks: [Option<Pair>; 8],
}

/// The plant's map and the laboratory's.
type Pair = [Original; 2];

/// A map of the Rust, with the content under which each identity was first handed to it.
struct Original {
    map: original::Tank,
    contents: BTreeMap<Id, Content>,
}

impl Mirror {
    /// `joined` says which stand-in for the tree is used: one that joins equal neighbours or not.
    pub fn new(joined: bool) -> Self {
        Self { joined, tanks: fresh(joined) }
    }

    /// Follows a call that the model answers with `answer`, from the state `before` it.
    pub fn call(&mut self, before: &Tanks, call: &Call, answer: &Answer) -> Said {
        match call {
            Call::OpenSet { .. } if *answer == Answer::None => return Said::Nothing,
            Call::Open { .. } | Call::OpenSet { .. } => {
                self.tanks = fresh(self.joined);
                return Said::Nothing;
            }
            // The Rust has no settings, nothing pending, no legend, no parties and no text.
            Call::Settings { .. }
            | Call::Set { .. }
            | Call::LogEnd
            | Call::Range { .. }
            | Call::Legend { .. }
            | Call::Party { .. }
            | Call::Save { .. }
            | Call::SaveNeeded
            | Call::Restore { .. } => return Said::Nothing,
            // Nor has it a log: the tanks leave the comparison.
            Call::Log { .. } => {
                self.tanks = std::array::from_fn(|_| None);
                return Said::Nothing;
            }
            _ => {}
        }
        if matches!(answer, Answer::Refused(_)) {
            return Said::Nothing;
        }
        let place = call.tank().expect("an edit and a question name a tank") as usize;
        let Some(pair) = &mut self.tanks[place] else { return Said::Nothing };
        if let Call::Plan { hold, runs, .. } = *call {
            return self.plan(before, place, hold, runs);
        }
        let strip = matches!(call, Call::Strip { .. });
        let who = if strip { Party::Plant } else { before.party };
        let tank = &before.tanks[place].shown_to(who);
        if !inside(who, tank, call) || !pair[who as usize].one_content(call) {
            if changes(who, tank, call) {
                self.tanks[place] = None;
            }
            return Said::Nothing;
        }
        if let Call::Strip { start, k, .. } = *call {
            let told = || Answer::Strip(cells(&pair[0].map, &before.legend, start, k));
            return quietly(told).map_or_else(Said::Panic, Said::Answer);
        }
        quietly(|| told(pair, who, tank, call, answer)).unwrap_or_else(Said::Panic)
    }

    /// An accepted plan, in the domain where its last range ends before the length: then so does
    /// each deletion, when those behind it are done.
    fn plan(&mut self, before: &Tanks, place: usize, hold: u16, runs: u64) -> Said {
        let end = before.pending.last().map_or(0, |range| range.end);
        let Some(pair) = &mut self.tanks[place] else { return Said::Nothing };
        if end > 0 && end >= before.tanks[place].length {
            self.tanks[place] = None;
            return Said::Nothing;
        }
        let answer = quietly(|| planned(pair, hold, runs, &before.pending));
        answer.map_or_else(Said::Panic, Said::Answer)
    }

    /// Follows an accepted restore: each tank gets two new maps, built by edits inside the domain.
    /// Where there are none for it, the tank leaves the comparison.
    pub fn restored(&mut self, tanks: &[Tank; 8]) -> Said {
        self.tanks = fresh(self.joined);
        for (place, tank) in self.tanks.iter_mut().zip(tanks) {
            let Some(pair) = place else { continue };
            let mut laid = true;
            for who in PARTIES {
                match quietly(|| pair[who as usize].lay(&tank.shown_to(who))) {
                    Ok(done) => laid &= done,
                    Err(panic) => return Said::Panic(panic),
                }
            }
            if !laid {
                *place = None;
            }
        }
        Said::Nothing
    }

    /// Whether the Rust's maps of a tank mean what the parties are shown of the model's tank;
    /// nothing where the tank has left the comparison.
    pub fn agrees(&self, place: usize, tank: &Tank) -> Option<bool> {
        let pair = self.tanks[place].as_ref()?;
        Some(PARTIES.into_iter().all(|who| means(&pair[who as usize], &tank.shown_to(who))))
    }
}

fn means(original: &Original, tank: &Tank) -> bool {
    let ours = tank.stretches(0, tank.length);
    let ours = ours.iter().map(|s| (s.from, s.to, crate::mark::listed(&s.set)));
    let theirs = joined(original.map.elements());
    tank.length == original.map.length() as u64
        && tank.touched == original.map.has_style()
        && ours.eq(theirs)
}

fn fresh(joined: bool) -> [Option<Pair>; 8] {
    join_neighbours(joined);
    let original = || Original { map: original::Tank::new(), contents: BTreeMap::new() };
    std::array::from_fn(|_| Some([original(), original()]))
}

/// Document 01's oracle domain, for a call of a party that isn't refused, over the tank that the
/// party is shown.
pub fn inside(who: Party, tank: &Tank, call: &Call) -> bool {
    match *call {
        Call::Annotate { start, end, .. }
        | Call::Delete { start, end, .. }
        | Call::HasKey { start, end, .. }
        | Call::AllValue { start, end, .. }
        | Call::Same { start, end, .. }
        | Call::Stretches { start, end, .. }
        | Call::StretchesNeeded { start, end, .. } => start < end && end < tank.length,
        Call::Insert { len, .. } => len >= 1,
        Call::Strip { start, k, .. } => strip::end(start, k) < tank.length as u128,
        Call::Age { before, .. } => before < tank.length,
        Call::Remove { id, last, .. } => {
            let after = last + 1;
            let carries = |at: u64| tank.at(at).contains_key(&(who, id));
            after < tank.length && carries(last) && !carries(after)
        }
        Call::Value { at, .. } => at + 1 < tank.length,
        Call::Marks { at, .. } | Call::Mark { at, .. } => tank.touched && at + 1 < tank.length,
        Call::Inherit { at, .. } | Call::Inherited { at, .. } => at < tank.length,
        Call::Anchors { .. } => one_anchor_of_a_kind(tank),
        Call::Length { .. }
        | Call::Touched { .. }
        | Call::Runs { .. }
        | Call::Whole { .. }
        | Call::WholeNeeded { .. }
        | Call::Find { .. } => true,
        Call::Open { .. }
        | Call::Settings { .. }
        | Call::Set { .. }
        | Call::OpenSet { .. }
        | Call::Log { .. }
        | Call::LogEnd
        | Call::Range { .. }
        | Call::Legend { .. }
        | Call::Party { .. }
        | Call::Plan { .. }
        | Call::Propose { .. }
        | Call::Save { .. }
        | Call::SaveNeeded
        | Call::Restore { .. } => false,
    }
}

/// At most one end and one start at each boundary: neighbours in the list differ.
fn one_anchor_of_a_kind(tank: &Tank) -> bool {
    let list = tank.anchors();
    list.windows(2).all(|two| (two[0].at, two[0].start) != (two[1].at, two[1].start))
}

fn changes(who: Party, tank: &Tank, call: &Call) -> bool {
    match *call {
        Call::Annotate { .. } => true,
        Call::Insert { .. } | Call::Delete { .. } => tank.touched,
        Call::Remove { id, last, .. } => tank.at(last).contains_key(&(who, id)),
        Call::Age { before, .. } => tank.touched && before > 0,
        _ => false,
    }
}

impl Original {
    /// Keeps the content of an annotated identity; says no where it had another one before.
    fn one_content(&mut self, call: &Call) -> bool {
        match call {
            Call::Annotate { mark, .. } => {
                *self.contents.entry(mark.id).or_insert(mark.content) == mark.content
            }
            _ => true,
        }
    }

    /// A tank that either party has annotated is touched, so this map gets a mark for a moment.
    fn touch(&mut self, range: std::ops::Range<usize>) {
        if !self.map.has_style() {
            self.contents.insert(MOMENT.id, MOMENT.content);
            self.map.annotate(range.clone(), &theirs(MOMENT));
            self.map.remove(MOMENT.id, range.end - 1);
        }
    }
}

impl Original {
    /// Builds what a party is shown of a tank on a fresh map. No edit inside the domain empties a
    /// map or marks its last position, so it says no to a tank that asks for either.
    fn lay(&mut self, tank: &Tank) -> bool {
        if !tank.touched {
            return true;
        }
        if tank.length == 0 || !tank.at(tank.length - 1).is_empty() {
            return false;
        }
        self.touch(0..1);
        if tank.length < T {
            self.map.delete(0..(T - tank.length) as usize);
        }
        if tank.length > T {
            self.map.insert(0, (tank.length - T) as usize);
        }
        for stretch in tank.whole() {
            for mark in crate::mark::listed(&stretch.set) {
                self.contents.insert(mark.id, mark.content);
                self.map.annotate(stretch.from as usize..stretch.to as usize, &theirs(mark));
            }
        }
        true
    }
}

const MOMENT: Mark =
    Mark { id: (u16::MAX, 0, 0), content: Content { cnt: 0, flags: 0x80, value: Value::Null } };

/// An answer to a party: from its own map, with both where they count together.
fn told(pair: &mut Pair, who: Party, tank: &Tank, call: &Call, expected: &Answer) -> Said {
    let map = &mut pair[who as usize].map;
    match *call {
        Call::Annotate { start, end, mark, .. } => {
            let range = start as usize..end as usize;
            map.annotate(range.clone(), &theirs(mark));
            pair.iter_mut().for_each(|original| original.touch(range.clone()));
            Said::Done
        }
        Call::Insert { at, len, .. } => {
            let [set, _] = pair.each_mut().map(|o| o.map.insert(at as usize, len as usize));
            Said::Answer(Answer::Marks(ours(set)))
        }
        Call::Delete { start, end, .. } => {
            pair.iter_mut().for_each(|o| o.map.delete(start as usize..end as usize));
            Said::Done
        }
        Call::Remove { id, last, .. } => {
            let first = map.remove(id, last as usize) as u64;
            // The index is compared only where the stretch starts at 0.
            match expected {
                Answer::First(0) => Said::Answer(Answer::First(first)),
                _ => Said::Done,
            }
        }
        Call::Age { before, budget, .. } => Said::Answer(Answer::Aged(aged(pair, before, budget))),
        Call::Runs { .. } => Said::Answer(Answer::Runs(begins(pair).len() as u64)),
        _ => asked(map, tank, call),
    }
}

/// Where the stretches of both parties' marks together begin: where one of either does.
fn begins(pair: &Pair) -> BTreeSet<u64> {
    let elements = pair.iter().flat_map(|original| joined(original.map.elements()));
    elements.map(|(from, ..)| from).collect()
}

/// The Rust has no such call: its first elements, with equal neighbours joined and both maps' ends
/// among them, go as one range.
fn aged(pair: &mut Pair, before: u64, budget: u64) -> Aged {
    let map = &pair[0].map;
    let mut done = Aged { dropped: 0, remaining: if map.has_style() { before } else { 0 } };
    let mut end = 0;
    for to in begins(pair).into_iter().skip(1).chain([map.length() as u64]) {
        if done.remaining == 0 || done.dropped == budget {
            break;
        }
        end = to.min(before);
        done = Aged { dropped: done.dropped + 1, remaining: before - end };
    }
    if end > 0 {
        pair.iter_mut().for_each(|original| original.map.delete(0..end as usize));
    }
    done
}

/// The Rust has no such call: it is asked whether a range has the hold key, deletes the ranges from
/// the last to the first, and its elements are counted, with equal neighbours joined.
fn planned(pair: &mut Pair, hold: u16, runs: u64, ranges: &[Range]) -> Answer {
    let span = |range: &Range| range.start as usize..range.end as usize;
    let holds = |range: &Range| pair.iter().any(|original| original.map.has_key(span(range), hold));
    let held = ranges.iter().any(holds);
    for Original { map, .. } in pair.iter_mut() {
        ranges.iter().rev().for_each(|range| map.delete(span(range)));
    }
    if held || begins(pair).len() as u64 > runs {
        return Answer::Refused(15);
    }
    Answer::Accepted
}

/// The Rust has no such call: in each cell the winner of a key is asked for at the first position of
/// each of its elements. A winning null shows nothing, by the corrected rule.
fn cells(map: &original::Tank, legend: &Legend, start: u64, k: u64) -> [u8; CELLS] {
    let elements = joined(map.elements());
    std::array::from_fn(|cell| {
        let (from, to) = (start + cell as u64 * k, start + (cell as u64 + 1) * k);
        let within = elements.iter().filter(|(first, end, _)| *first < to && from < *end);
        let places: Vec<usize> = within.map(|(first, ..)| from.max(*first) as usize).collect();
        let shows = |key: u16, at: usize| {
            map.winner(at, key).is_some_and(|mark| mark.value != LoroValue::Null)
        };
        let first = legend.iter().find(|(key, _)| places.iter().any(|&at| shows(*key, at)));
        first.map_or(b'.', |(_, letter)| *letter)
    })
}

fn asked(map: &original::Tank, tank: &Tank, call: &Call) -> Said {
    let number = call.tank().expect("a question names a tank");
    Said::Answer(match *call {
        Call::Length { .. } => Answer::Length(map.length() as u64),
        Call::Touched { .. } => Answer::Touched(map.has_style()),
        // The Rust shows a winning null; by the corrected rule it shows nothing.
        Call::Value { at, key, .. } => match map.winner(at as usize, key) {
            Some(mark) if mark.value != LoroValue::Null => Answer::Value(our_value(&mark.value)),
            _ => Answer::None,
        },
        Call::HasKey { start, end, key, .. } => {
            Answer::Yes(map.has_key(start as usize..end as usize, key))
        }
        Call::AllValue { start, end, key, value, .. } => {
            let value = their_value(value);
            Answer::Yes(map.has_key_value(start as usize..end as usize, key, &value))
        }
        Call::Same { start, end, .. } => match map.styles_of_range(start as usize..end as usize) {
            Some(set) => Answer::Marks(ours(set)),
            None => return Said::Nothing,
        },
        Call::Marks { at, .. } => Answer::Marks(at_position(map, at)),
        Call::Mark { at, rank, .. } => ranked(at_position(map, at), rank),
        Call::Inherit { at, .. } => Answer::Marks(ours(map.styles_for_insert(at as usize))),
        Call::Inherited { at, rank, .. } => ranked(ours(map.styles_for_insert(at as usize)), rank),
        Call::Stretches { start, end, .. } => {
            Answer::Stretches(number, listed(map.iter_range(start as usize..end as usize)))
        }
        Call::StretchesNeeded { start, end, .. } => {
            Answer::Needed(3 * listed(map.iter_range(start as usize..end as usize)).len() as u64)
        }
        Call::Whole { .. } => Answer::Stretches(number, listed(map.iter())),
        Call::WholeNeeded { .. } => Answer::Needed(3 * listed(map.iter()).len() as u64),
        Call::Anchors { .. } => {
            Answer::Anchors(map.anchors().into_iter().map(our_anchor).collect())
        }
        // The Rust has no such call: among its elements, with equal neighbours joined, the one with the position.
        Call::Find { at, .. } => {
            let holds = |(from, to, _): &(u64, u64, Vec<Mark>)| (*from..*to).contains(&at);
            let (from, to, _) = joined(map.elements()).into_iter().find(holds).expect("a position");
            Answer::Extent(Extent { first: from, last: to - 1 })
        }
        _ => unreachable!("{tank:?}: {call:?} is no question"),
    })
}

fn at_position(map: &original::Tank, at: u64) -> Vec<Mark> {
    let at = at as usize;
    ours(map.styles_of_range(at..at + 1).expect("a touched tank answers a set"))
}

fn ranked(marks: Vec<Mark>, rank: u64) -> Answer {
    marks.get(rank as usize).map_or(Answer::None, |mark| Answer::Mark(*mark))
}

/// The Rust's stretches with equal neighbours joined.
fn joined(stretches: Vec<original::Stretch>) -> Vec<(u64, u64, Vec<Mark>)> {
    let mut list: Vec<(u64, u64, Vec<Mark>)> = Vec::new();
    for stretch in stretches {
        let (from, to) = (stretch.range.start as u64, stretch.range.end as u64);
        let marks = ours(stretch.marks);
        match list.last_mut() {
            Some(before) if before.1 == from && before.2 == marks => before.1 = to,
            _ => list.push((from, to, marks)),
        }
    }
    list
}

fn listed(stretches: Vec<original::Stretch>) -> Vec<Listed> {
    let entry = |(from, to, marks): (u64, u64, Vec<Mark>)| {
        let marks = marks.len() as u64;
        Listed { from, to, marks }
    };
    joined(stretches).into_iter().map(entry).collect()
}

fn ours(marks: Vec<original::Mark>) -> Vec<Mark> {
    let mark = |mark: original::Mark| Mark {
        id: mark.id,
        content: Content { cnt: mark.cnt, flags: mark.flags, value: our_value(&mark.value) },
    };
    marks.into_iter().map(mark).collect()
}

fn theirs(mark: Mark) -> original::Mark {
    let Mark { id, content } = mark;
    let Content { cnt, flags, value } = content;
    original::Mark { id, cnt, flags, value: their_value(value) }
}

fn our_anchor(anchor: original::Anchor) -> Anchor {
    Anchor { at: anchor.at as u64, start: anchor.start, id: anchor.id }
}

fn our_value(value: &LoroValue) -> Value {
    match *value {
        LoroValue::Null => Value::Null,
        LoroValue::Bool(yes) => Value::Bool(yes),
        LoroValue::I64(whole) => Value::Whole(whole),
        LoroValue::Double(decimal) => Value::Decimal(decimal.to_bits()),
    }
}

fn their_value(value: Value) -> LoroValue {
    match value {
        Value::Null => LoroValue::Null,
        Value::Bool(yes) => LoroValue::Bool(yes),
        Value::Whole(whole) => LoroValue::I64(whole),
        Value::Decimal(bits) => LoroValue::Double(f64::from_bits(bits)),
    }
}

thread_local! {
    /// Whether the Rust is being asked, so that a panic is an answer.
    static ASKING: Cell<bool> = const { Cell::new(false) };
}

/// Lets the panics of `quietly` print nothing, and all others print as ever.
pub fn hush() {
    let usual = take_hook();
    set_hook(Box::new(move |panic| {
        if !ASKING.get() {
            usual(panic);
        }
    }));
}

/// What the Rust answers, or the text of its panic.
pub fn quietly<A>(ask: impl FnOnce() -> A) -> Result<A, String> {
    ASKING.set(true);
    let answer = catch_unwind(AssertUnwindSafe(ask));
    ASKING.set(false);
    answer.map_err(|cause| match cause.downcast::<String>() {
        Ok(text) => *text,
        Err(cause) => cause.downcast_ref::<&str>().unwrap_or(&"").to_string(),
    })
}

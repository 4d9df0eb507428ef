//! One tank by the rules of document 01, "What a tank means" and "Questions and lists": a set of
//! marks for each position. Positions that carry equal sets in a row are kept as one entry, under
//! the first of them, so that a length near 2^63 is no burden.

use std::borrow::Cow;
use std::collections::BTreeMap;
use std::rc::Rc;

use crate::answer::{Aged, Anchor, Extent, Listed, Range};
use crate::mark::{only, Id, Mark, Owned, Party, Set, Value};

/// A fresh tank's length.
pub const T: u64 = (1 << 62) - 1;
/// The largest length.
pub const LONGEST: u64 = (1 << 63) - 1;
/// So many ranges a plan has at most.
pub const RANGES: usize = 32;

#[derive(Clone, Debug, PartialEq)]
pub struct Tank {
    pub length: u64,
    pub touched: bool,
    /// Where a set begins; it goes on to the next place, or to the length.
    begins: BTreeMap<u64, Rc<Set>>,
}

/// A maximal stretch of positions with equal sets, or the part of it inside a range.
#[derive(Clone, Debug)]
pub struct Stretch {
    pub from: u64,
    pub to: u64,
    pub set: Rc<Set>,
}

impl Default for Tank {
    fn default() -> Self {
        let begins = BTreeMap::from([(0, Rc::new(Set::new()))]);
        Self { length: T, touched: false, begins }
    }
}

impl Tank {
    /// A tank of sets in a row, each over so many positions, the last one up to the length.
    pub fn laid(touched: bool, length: u64, runs: impl IntoIterator<Item = (u64, Set)>) -> Self {
        let mut tank = Self { length, touched, begins: BTreeMap::new() };
        tank.begins.extend((length > 0).then(|| (0, Rc::new(Set::new()))));
        let mut place: u64 = 0;
        for (len, set) in runs {
            if place < length {
                tank.begins.insert(place, Rc::new(set));
            }
            place = place.saturating_add(len);
        }
        tank.tidy();
        tank
    }
}

/// Edits. Each one is asked for only where the rules accept it.
impl Tank {
    pub fn annotate(&mut self, who: Party, start: u64, end: u64, mark: Mark) {
        self.touched = true;
        self.change(start, end, |set| {
            set.entry((who, mark.id)).or_insert(mark.content);
        });
    }

    /// New positions inherit of both parties.
    pub fn insert(&mut self, at: u64, len: u64) -> Set {
        let inherited = self.inherited(at);
        if self.touched {
            self.cut(at);
            let later = self.begins.split_off(&at);
            self.begins.insert(at, Rc::new(inherited.clone()));
            self.begins.extend(later.into_iter().map(|(place, set)| (place + len, set)));
            self.length += len;
            self.tidy();
        }
        inherited
    }

    pub fn delete(&mut self, start: u64, end: u64) {
        if self.touched {
            self.cut(start);
            self.cut(end);
            let later = self.begins.split_off(&end);
            self.begins.split_off(&start);
            let down = end - start;
            self.begins.extend(later.into_iter().map(|(place, set)| (place - down, set)));
            self.length -= down;
            self.tidy();
        }
    }

    /// The first `budget` of the stretches that overlap 0..before go, the last clipped there.
    pub fn age(&mut self, before: u64, budget: u64) -> Aged {
        let list = if self.touched { self.stretches(0, before) } else { Vec::new() };
        let gone = &list[..list.len().min(usize::try_from(budget).unwrap_or(usize::MAX))];
        let Some(last) = gone.last() else { return Aged { dropped: 0, remaining: 0 } };
        self.delete(0, last.to);
        Aged { dropped: gone.len() as u64, remaining: before - last.to }
    }

    /// Answers the first position of the stretch that lost the mark, or `last + 1`.
    pub fn remove(&mut self, who: Party, id: Id, last: u64) -> u64 {
        let id = (who, id);
        let first = self.first_carrying(id, last);
        if first <= last {
            self.change(first, last + 1, |set| {
                set.remove(&id);
            });
        }
        first
    }

    fn first_carrying(&self, id: Owned, last: u64) -> u64 {
        let mut first = last + 1;
        for (&place, set) in self.begins.range(..=last).rev() {
            if !set.contains_key(&id) {
                break;
            }
            first = place;
        }
        first
    }

    /// Changes the set of each position of a non-empty range.
    fn change(&mut self, start: u64, end: u64, change: impl Fn(&mut Set)) {
        self.cut(start);
        self.cut(end);
        for (_, set) in self.begins.range_mut(start..end) {
            change(Rc::make_mut(set));
        }
        self.tidy();
    }

    /// Lets an entry begin at this place, where a position stands there.
    fn cut(&mut self, place: u64) {
        if place < self.length {
            let set = self.set_at(place).clone();
            self.begins.entry(place).or_insert(set);
        }
    }

    /// Drops each entry that only goes on with the set before it.
    fn tidy(&mut self) {
        let mut before: Option<Rc<Set>> = None;
        self.begins.retain(|_, set| {
            let goes_on = before.as_ref().is_some_and(|before| before == set);
            before = Some(set.clone());
            !goes_on
        });
    }
}

/// Parties: change request 10 as a model. Every question and list is asked of what a party is shown.
impl Tank {
    /// Each set cut down to the party's marks; length and touched stay.
    pub fn shown_to(&self, who: Party) -> Cow<'_, Tank> {
        // A set is sorted with the plant first, so its ends tell whether another's mark is in it.
        let ends = |set: &Set| [set.keys().next().copied(), set.keys().next_back().copied()];
        let other = |set: &Rc<Set>| ends(set).into_iter().flatten().any(|id| id.0 != who);
        if !self.begins.values().any(other) {
            return Cow::Borrowed(self);
        }
        let mut shown = self.clone();
        shown.begins.values_mut().for_each(|set| *set = Rc::new(only(who, set)));
        shown.tidy();
        Cow::Owned(shown)
    }
}

/// Plans: change request 9 as a model. All ranges are in the numbering before. Either party's mark
/// holds.
impl Tank {
    /// The tank after a plan, where it keeps the rules.
    pub fn planned(&self, hold: u16, runs: u64, ranges: &[Range]) -> Option<Tank> {
        let in_order = ranges.windows(2).all(|two| two[0].end <= two[1].start);
        let within = |r: &Range| r.start < r.end && r.end <= self.length;
        let free = |r: &Range| !self.has_key(r.start, r.end, hold);
        let few = ranges.len() <= RANGES && (self.touched || ranges.is_empty());
        if !few || !in_order || !ranges.iter().all(within) || !ranges.iter().all(free) {
            return None;
        }
        Some(self.without(ranges)).filter(|after| after.runs() <= runs)
    }

    /// What lies between the ranges, put together.
    fn without(&self, ranges: &[Range]) -> Tank {
        let mut left = Tank { length: 0, touched: self.touched, begins: BTreeMap::new() };
        let mut from = 0;
        let rest = Range { start: self.length, end: self.length };
        for range in ranges.iter().chain([&rest]) {
            for stretch in self.stretches(from, range.start) {
                left.begins.insert(left.length, stretch.set);
                left.length += stretch.to - stretch.from;
            }
            from = range.end;
        }
        left.tidy();
        left
    }

    /// The unheld ranges below the least place for which they are accepted. Inside a stretch no
    /// place does that its beginning doesn't do, since a rest of it stays.
    pub fn proposed(&self, hold: u16, runs: u64) -> Option<Vec<Range>> {
        let places = self.begins.keys().copied().chain([self.length]);
        let mut plans = places.map(|below| self.unheld(hold, below));
        plans.find(|ranges| self.planned(hold, runs, ranges).is_some())
    }

    /// The maximal ranges below a place that no mark holds, the first 32 of them.
    pub fn unheld(&self, hold: u16, below: u64) -> Vec<Range> {
        let mut list: Vec<Range> = Vec::new();
        let stretches = self.stretches(0, below).into_iter();
        for free in stretches.filter(|s| s.set.keys().all(|(_, id)| id.0 != hold)) {
            match list.last_mut() {
                Some(before) if before.end == free.from => before.end = free.to,
                _ => list.push(Range { start: free.from, end: free.to }),
            }
        }
        list.truncate(RANGES);
        list
    }
}

/// Questions.
impl Tank {
    fn set_at(&self, at: u64) -> &Rc<Set> {
        self.begins.range(..=at).next_back().expect("a position below the length").1
    }

    pub fn at(&self, at: u64) -> &Set {
        self.set_at(at)
    }

    /// The marks common to the positions on both sides.
    pub fn inherited(&self, at: u64) -> Set {
        if !self.touched || at == 0 || at == self.length {
            return Set::new();
        }
        let (left, right) = (self.at(at - 1), self.at(at));
        left.iter().filter(|(id, _)| right.contains_key(id)).map(|(&id, &c)| (id, c)).collect()
    }

    /// The winning mark's value: the greatest lamport, then the greatest peer.
    pub fn winning(&self, at: u64, key: u16) -> Option<Value> {
        winner(self.at(at), key)
    }

    /// The value shown: a winning null is a mark taken off.
    pub fn value(&self, at: u64, key: u16) -> Option<Value> {
        self.winning(at, key).filter(|won| *won != Value::Null)
    }

    pub fn has_key(&self, start: u64, end: u64, key: u16) -> bool {
        let of_key = |s: &Stretch| s.set.keys().any(|(_, id)| id.0 == key);
        self.touched && self.stretches(start, end).iter().any(of_key)
    }

    pub fn all_value(&self, start: u64, end: u64, key: u16, value: Value) -> bool {
        let shown = |s: &Stretch| winner(&s.set, key).is_some_and(|won| won.shows(value));
        self.touched && start < end && self.stretches(start, end).iter().all(shown)
    }

    pub fn same(&self, start: u64, end: u64) -> Option<Rc<Set>> {
        let list = self.stretches(start, end);
        (self.touched && list.len() == 1).then(|| list[0].set.clone())
    }

    /// The stretch of equal sets that a position is in.
    pub fn find(&self, at: u64) -> Extent {
        let (&first, _) =
            self.begins.range(..=at).next_back().expect("a position below the length");
        let next = self.begins.range(at + 1..).next().map_or(self.length, |(&place, _)| place);
        Extent { first, last: next - 1 }
    }

    pub fn runs(&self) -> u64 {
        self.begins.len() as u64
    }

    /// Every mark that some position carries.
    pub fn carried(&self) -> Set {
        self.begins.values().flat_map(|set| set.iter().map(|(&id, &c)| (id, c))).collect()
    }
}

/// Lists.
impl Tank {
    pub fn stretches(&self, start: u64, end: u64) -> Vec<Stretch> {
        if start >= end {
            return Vec::new();
        }
        let mut list: Vec<Stretch> = Vec::new();
        let first = self.begins.range(..=start).next_back().map(|(&place, _)| place);
        for (&place, set) in self.begins.range(first.unwrap_or(0)..end) {
            if let Some(before) = list.last_mut() {
                before.to = place;
            }
            list.push(Stretch { from: place.max(start), to: end, set: set.clone() });
        }
        list
    }

    pub fn whole(&self) -> Vec<Stretch> {
        let all = self.stretches(0, self.length);
        all.into_iter().filter(|stretch| !stretch.set.is_empty()).collect()
    }

    /// At each boundary the ends, then the starts; the boundaries are 0, the places where the set
    /// changes, and the length.
    pub fn anchors(&self) -> Vec<Anchor> {
        let mut list = Vec::new();
        let nothing = Rc::new(Set::new());
        let mut left = nothing.clone();
        let places = self.begins.iter().map(|(&place, set)| (place, set.clone()));
        for (place, right) in places.chain([(self.length, nothing)]) {
            for &(_, id) in left.keys().filter(|id| !right.contains_key(id)) {
                list.push(Anchor { at: place - 1, start: false, id });
            }
            for &(_, id) in right.keys().filter(|id| !left.contains_key(id)) {
                list.push(Anchor { at: place, start: true, id });
            }
            left = right;
        }
        list
    }

    /// Where the set changes: the places worth asking about.
    pub fn boundaries(&self) -> Vec<u64> {
        self.begins.keys().copied().collect()
    }
}

pub fn listed(stretches: &[Stretch]) -> Vec<Listed> {
    let entry = |s: &Stretch| Listed { from: s.from, to: s.to, marks: s.set.len() as u64 };
    stretches.iter().map(entry).collect()
}

fn winner(set: &Set, key: u16) -> Option<Value> {
    let of_key = set.iter().filter(|((_, id), _)| id.0 == key);
    of_key.max_by_key(|((_, id), _)| (id.1, id.2)).map(|(_, content)| content.value)
}

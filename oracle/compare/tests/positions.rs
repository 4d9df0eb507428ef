//! The model keeps equal neighbours in one entry. Here each position of a short tank has a set of
//! its own, and every rule is written out position by position; both must tell the same.

use std::collections::BTreeSet;

use compare::answer::Range;
use compare::author::{identity, usual, usual_of};
use compare::mark::{Content, Id, Mark, Owned, Party, Value, PARTIES};
use compare::random::Random;
use compare::strip::{self, Legend, CELLS};
use compare::tank::{Tank, RANGES, T};

type Positions = Vec<BTreeSet<Owned>>;

/// What a party is shown.
fn of(who: Party, all: &Positions) -> Positions {
    let own = |set: &BTreeSet<Owned>| set.iter().filter(|id| id.0 == who).copied().collect();
    all.iter().map(own).collect()
}

fn value_of(id: Owned) -> Value {
    usual_of(id.0, id.1).value
}

fn inherited(all: &Positions, at: usize) -> BTreeSet<Owned> {
    if at == 0 || at == all.len() {
        return BTreeSet::new();
    }
    all[at - 1].intersection(&all[at]).copied().collect()
}

fn removed(all: &mut Positions, id: Owned, last: usize) -> usize {
    let mut first = last + 1;
    while first > 0 && all[first - 1].remove(&id) {
        first -= 1;
    }
    first
}

/// Drops positions from the front while they lie in the first stretches of 0..before.
fn aged(all: &mut Positions, before: u64, budget: u64) -> (u64, u64) {
    let (mut dropped, mut remaining) = (0, before);
    let mut last: Option<BTreeSet<Owned>> = None;
    while remaining > 0 {
        let new = last.as_ref() != Some(&all[0]);
        if new && dropped == budget {
            break;
        }
        dropped += new as u64;
        last = Some(all.remove(0));
        remaining -= 1;
    }
    (dropped, remaining)
}

/// A touched tank of a few positions without marks, and its positions.
fn short(random: &mut Random) -> (Tank, Positions) {
    let mut tank = Tank::default();
    let id = identity(0);
    tank.annotate(Party::Plant, 0, 1, Mark { id, content: usual(id) });
    let left = random.below(9);
    tank.delete(0, T - left);
    (tank, vec![BTreeSet::new(); left as usize])
}

fn edit(random: &mut Random, tank: &mut Tank, all: &mut Positions) {
    let length = all.len() as u64;
    let (who, id) = (random.pick(&PARTIES), identity(random.below(4)));
    let start = random.below(length);
    let end = start + 1 + random.below(length - start.min(length));
    match random.below(6) {
        _ if length == 0 => {
            tank.insert(0, 3);
            all.extend([const { BTreeSet::new() }; 3]);
        }
        0 | 1 => {
            tank.annotate(who, start, end, Mark { id, content: usual_of(who, id) });
            all[start as usize..end as usize].iter_mut().for_each(|set| {
                set.insert((who, id));
            });
        }
        2 => {
            let at = random.below(length + 1);
            let set = inherited(all, at as usize);
            let answer = tank.insert(at, 2);
            assert!(answer.keys().eq(set.iter()));
            all.splice(at as usize..at as usize, [set.clone(), set]);
        }
        3 => {
            tank.delete(start, end);
            all.drain(start as usize..end as usize);
        }
        4 => {
            let (before, budget) = (random.below(length + 1), 1 + random.below(3));
            let told = tank.age(before, budget);
            assert_eq!((told.dropped, told.remaining), aged(all, before, budget));
        }
        _ => {
            let first = removed(all, (who, id), start as usize) as u64;
            assert_eq!(tank.remove(who, id, start), first);
        }
    }
}

/// The tank means the positions, and so does what each party is shown.
fn same(tank: &Tank, all: &Positions) {
    told(tank, all);
    for who in PARTIES {
        let (shown, own) = (tank.shown_to(who), of(who, all));
        told(&shown, &own);
        for start in 0..own.len() {
            for end in start + 1..=own.len() {
                range(&shown, &own, start, end);
            }
        }
    }
}

fn told(tank: &Tank, all: &Positions) {
    assert_eq!(tank.length, all.len() as u64);
    for (at, set) in all.iter().enumerate() {
        assert!(tank.at(at as u64).keys().eq(set.iter()));
    }
    let starts = |at: &usize| *at == 0 || all[*at] != all[*at - 1];
    assert_eq!(tank.runs(), (0..all.len()).filter(starts).count() as u64);
    for at in 0..all.len() {
        let extent = tank.find(at as u64);
        let (first, last) = (extent.first as usize, extent.last as usize);
        assert!(first <= at && at <= last && all[first..=last].iter().all(|set| *set == all[at]));
        assert!(first == 0 || all[first - 1] != all[at]);
        assert!(last + 1 == all.len() || all[last + 1] != all[at]);
    }
    let mut anchors = Vec::new();
    for at in 0..=all.len() {
        let nothing = BTreeSet::new();
        let left = if at == 0 { &nothing } else { &all[at - 1] };
        let right = all.get(at).unwrap_or(&nothing);
        anchors.extend(left.difference(right).map(|&id| (at as u64 - 1, false, id.1)));
        anchors.extend(right.difference(left).map(|&id| (at as u64, true, id.1)));
    }
    let told: Vec<_> = tank.anchors().iter().map(|a| (a.at, a.start, a.id)).collect();
    assert_eq!(told, anchors);
}

fn range(tank: &Tank, all: &Positions, start: usize, end: usize) {
    let part = &all[start..end];
    let list = tank.stretches(start as u64, end as u64);
    let told = list.iter().flat_map(|s| (s.from..s.to).map(|_| s.set.keys().copied().collect()));
    assert_eq!(told.collect::<Positions>(), part);
    assert!(list.windows(2).all(|two| two[0].to == two[1].from && two[0].set != two[1].set));
    for key in 0..4 {
        let winner =
            |set: &BTreeSet<Owned>| set.iter().filter(|(_, id)| id.0 == key).max().copied();
        let any = part.iter().any(|set| winner(set).is_some());
        assert_eq!(tank.has_key(start as u64, end as u64, key), any);
        let Some(id) = winner(&part[0]) else { continue };
        let value = value_of(id);
        assert_eq!(tank.winning(start as u64, key), Some(value));
        assert_eq!(tank.value(start as u64, key), Some(value).filter(|won| *won != Value::Null));
        let shown = |set| winner(set).is_some_and(|id| value_of(id).shows(value));
        assert_eq!(tank.all_value(start as u64, end as u64, key, value), part.iter().all(shown));
    }
    let shared = part.iter().all(|set| *set == part[0]);
    assert_eq!(tank.same(start as u64, end as u64).is_some(), shared);
}

#[test]
fn entries_mean_positions() {
    for seed in 0..300 {
        let mut random = Random::new(seed);
        let (mut tank, mut all) = short(&mut random);
        for _ in 0..30 {
            edit(&mut random, &mut tank, &mut all);
            same(&tank, &all);
            if all.len() > 12 {
                tank.delete(12, all.len() as u64);
                all.truncate(12);
            }
        }
    }
}

/// The positions after a plan, where it keeps the rules: those that are in none of its ranges.
fn planned(
    all: &Positions,
    hold: u16,
    runs: usize,
    ranges: &[(usize, usize)],
) -> Option<Positions> {
    let mut gone = vec![false; all.len()];
    let mut from = 0;
    for &(start, end) in ranges {
        if start < from || end <= start || end > all.len() {
            return None;
        }
        gone[start..end].fill(true);
        from = end;
    }
    let held = |at: usize| all[at].iter().any(|(_, id)| id.0 == hold);
    if ranges.len() > RANGES || (0..all.len()).any(|at| gone[at] && held(at)) {
        return None;
    }
    let left: Positions =
        (0..all.len()).filter(|&at| !gone[at]).map(|at| all[at].clone()).collect();
    let mut joined = left.clone();
    joined.dedup();
    (joined.len() <= runs).then_some(left)
}

/// The first 32 unheld ranges below a place.
fn unheld(all: &Positions, hold: u16, below: usize) -> Vec<(usize, usize)> {
    let free = |at: usize| at < below && all[at].iter().all(|(_, id)| id.0 != hold);
    let first = |at: &usize| free(*at) && (*at == 0 || !free(*at - 1));
    let end = |start: usize| (start..=below).find(|&at| !free(at)).expect("the place is not below");
    (0..below).filter(first).map(|start| (start, end(start))).take(RANGES).collect()
}

fn of_numbers(ranges: &[(usize, usize)]) -> Vec<Range> {
    let range = |&(start, end): &(usize, usize)| Range { start: start as u64, end: end as u64 };
    ranges.iter().map(range).collect()
}

/// Each place is tried, not only those where a set changes.
fn proposes(tank: &Tank, all: &Positions) {
    for hold in 0..4 {
        for runs in 0..=all.len().min(9) {
            let works =
                |below: &usize| planned(all, hold, runs, &unheld(all, hold, *below)).is_some();
            let least = (0..=all.len()).find(works);
            let expected = least.map(|below| of_numbers(&unheld(all, hold, below)));
            assert_eq!(tank.proposed(hold, runs as u64), expected);
        }
    }
}

#[test]
fn plans_mean_positions() {
    let mut accepted = 0;
    for seed in 0..200 {
        let mut random = Random::new(seed);
        let (mut tank, mut all) = short(&mut random);
        for _ in 0..20 {
            edit(&mut random, &mut tank, &mut all);
            if all.len() > 12 {
                tank.delete(12, all.len() as u64);
                all.truncate(12);
            }
            proposes(&tank, &all);
            let mut place = 0;
            let mut number = |random: &mut Random| {
                place =
                    (place + random.below(4) as usize).saturating_sub(random.one_in(9) as usize);
                place
            };
            let count = random.below(4);
            let ranges: Vec<_> =
                (0..count).map(|_| (number(&mut random), number(&mut random))).collect();
            let (hold, runs) = (random.below(4) as u16, random.below(8));
            let after = tank.planned(hold, runs, &of_numbers(&ranges));
            let expected = planned(&all, hold, runs as usize, &ranges);
            assert_eq!(after.is_some(), expected.is_some(), "{ranges:?}");
            if let (Some(after), Some(left)) = (after, expected) {
                accepted += 1;
                same(&after, &left);
            }
        }
    }
    assert!(accepted > 200, "{accepted} plans were accepted");
}

/// More than 32 unheld ranges, and what is proposed there.
#[test]
fn a_comb_is_thinned_as_far_as_32_ranges_go() {
    for teeth in [30, 31, 32, 33, 34, 40] {
        let (mut tank, mut all) = (Tank::default(), vec![BTreeSet::new(); 2 * teeth + 1]);
        let id: Id = (3, 5, 1);
        for tooth in 0..teeth {
            let at = 2 * tooth as u64 + 1;
            tank.annotate(Party::Lab, at, at + 1, Mark { id, content: usual(id) });
            all[2 * tooth + 1].insert((Party::Lab, id));
        }
        tank.delete(all.len() as u64, T);
        for runs in 0..=2 * teeth + 2 {
            let works = |below: &usize| planned(&all, 3, runs, &unheld(&all, 3, *below)).is_some();
            let least = (0..=all.len()).find(works);
            let expected = least.map(|below| of_numbers(&unheld(&all, 3, below)));
            assert_eq!(tank.proposed(3, runs as u64), expected);
        }
    }
}

/// The letter of the first key that some position of a cell shows, by looking at each position.
fn cell(all: &Positions, legend: &Legend, from: usize, k: usize) -> u8 {
    let winner = |at: usize, key: u16| all[at].iter().filter(|(_, id)| id.0 == key).max().copied();
    let shows = |at: usize, key: u16| winner(at, key).is_some_and(|id| value_of(id) != Value::Null);
    let mut places = legend.iter();
    let first =
        places.find(|(key, _)| (from..from + k).any(|at| at < all.len() && shows(at, *key)));
    first.map_or(b'.', |(_, letter)| *letter)
}

#[test]
fn strips_mean_positions() {
    let mut lettered = 0;
    for seed in 0..200 {
        let mut random = Random::new(seed);
        let (mut tank, mut all) = short(&mut random);
        let legend: Legend =
            std::array::from_fn(|place| (random.below(6) as u16, b'a' + place as u8));
        for _ in 0..20 {
            edit(&mut random, &mut tank, &mut all);
            let (tank, all) = (tank.shown_to(Party::Plant), of(Party::Plant, &all));
            for (start, k) in (0..8).flat_map(|start| [1, 2, 3, 5, 60].map(|k| (start, k))) {
                let told = strip::cells(&tank, &legend, start as u64, k as u64);
                let expected = std::array::from_fn(|at| cell(&all, &legend, start + at * k, k));
                assert_eq!(told, expected);
                lettered += (told != [b'.'; CELLS]) as u64;
            }
        }
    }
    assert!(lettered > 1000, "{lettered} strips had a letter");
}

/// A null, which `usual` gives few marks, and the sums that pass 64 bits.
#[test]
fn a_null_shows_nothing_and_nothing_comes_again_past_64_bits() {
    let mut tank = Tank::default();
    let mark = |lamport, value| Mark {
        id: (3, lamport, 1),
        content: Content { cnt: 0, flags: 0x84, value },
    };
    tank.annotate(Party::Plant, 0, 4, mark(1, Value::Bool(false)));
    tank.annotate(Party::Plant, 2, 4, mark(2, Value::Null));
    let told = |start, k| strip::cells(&tank, &strip::FIRST, start, k);
    assert!(told(0, 1).starts_with(b"33.."));
    assert!(told(2, 2).starts_with(b".."));
    for (start, k) in [(0, u64::MAX), (1, 1 << 63), (0, 1 << 62), (u64::MAX, 1), (1 << 63, 1 << 63)]
    {
        let letters = told(start, k).iter().filter(|cell| **cell != b'.').count();
        assert_eq!(letters, (start < 2) as usize, "{start} {k}");
    }
}

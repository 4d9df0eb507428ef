//! Saved texts by hand: tanks said as one likes, on both sides of every rule, and the line at which
//! a reader has to stop.

use crate::call::Settings;
use crate::mark::{Content, Id, Party, Set, Value};
use crate::saved::mark_text;
use crate::tank::{Tank, LONGEST, T};
use crate::tanks::Tanks;

use Party::{Lab, Plant};

/// A text, and its first wrong line where there is one.
pub struct Case {
    pub text: Vec<u8>,
    pub wrong: Option<u64>,
}

/// What a text says of a tank, right or not.
#[derive(Clone)]
pub struct Said {
    pub touched: u64,
    pub length: u64,
    pub marks: Vec<(Party, Id, Content)>,
    /// The length and the set of each run.
    pub runs: Vec<(u64, u64)>,
}

const EMPTIED: Said = Said { touched: 1, length: 0, marks: Vec::new(), runs: Vec::new() };

#[derive(Clone)]
pub struct Draft {
    pub version: u64,
    pub settings: Settings,
    pub tanks: [Said; 8],
}

/// Eight emptied tanks, so that a text is short.
impl Default for Draft {
    fn default() -> Self {
        Self { version: 3, settings: [(1, 512); 8], tanks: [EMPTIED; 8] }
    }
}

impl Draft {
    pub fn with(tank: usize, said: Said) -> Self {
        let mut draft = Self::default();
        draft.tanks[tank] = said;
        draft
    }

    /// A state as its text says it.
    pub fn of(tanks: &Tanks) -> Self {
        let said = |tank: &Tank| {
            let marks: Vec<_> = tank.carried().into_iter().collect();
            let bit = |set: &Set, place: usize| (set.contains_key(&marks[place].0) as u64) << place;
            let number = |set: &Set| (0..marks.len()).map(|place| bit(set, place)).sum();
            let runs = tank.stretches(0, tank.length);
            Said {
                touched: tank.touched as u64,
                length: tank.length,
                runs: runs.iter().map(|run| (run.to - run.from, number(&run.set))).collect(),
                marks: marks.iter().map(|&((party, id), content)| (party, id, content)).collect(),
            }
        };
        let Tanks { settings, tanks, .. } = tanks;
        Self { version: 3, settings: *settings, tanks: tanks.each_ref().map(said) }
    }

    pub fn page(&self) -> Page {
        let mut lines = vec![format!("version={}", self.version)];
        for (tank, (share, limit)) in self.settings.iter().enumerate() {
            lines.extend([format!("share{tank}={share}"), format!("limit{tank}={limit}")]);
        }
        for (tank, said) in self.tanks.iter().enumerate() {
            lines.extend([format!("tank={tank}"), format!("touched={}", said.touched)]);
            lines.extend([format!("length={}", said.length)]);
            lines.push(format!("marks={}", said.marks.len()));
            for &(party, id, content) in &said.marks {
                let text = mark_text(self.version, party, id, content);
                lines.extend(text.lines().map(String::from));
            }
            lines.push(format!("runs={}", said.runs.len()));
            let run = |(len, set): &(u64, u64)| [format!("len={len}"), format!("set={set:016x}")];
            lines.extend(said.runs.iter().flat_map(run));
        }
        Page(lines)
    }

    pub fn text(&self) -> Vec<u8> {
        self.page().text()
    }
}

/// A text's lines.
#[derive(Clone)]
pub struct Page(pub Vec<String>);

impl Page {
    pub fn text(&self) -> Vec<u8> {
        self.0.iter().flat_map(|line| format!("{line}\n").into_bytes()).collect()
    }

    /// The place of a tank's line of this name, the first one having the number 0.
    fn at(&self, tank: usize, name: &str, nth: usize) -> usize {
        let tank = format!("tank={tank}");
        let first = self.0.iter().position(|line| *line == tank).expect("a tank");
        let named = |place: &usize| self.0[*place].split('=').next() == Some(name);
        (first..self.0.len()).filter(named).nth(nth).expect("a line of that name")
    }

    /// The place of a tank's last line.
    fn last(&self, tank: usize) -> usize {
        let next = format!("tank={}", tank + 1);
        self.0.iter().position(|line| *line == next).unwrap_or(self.0.len()) - 1
    }

    fn with(&self, place: usize, line: &str) -> Page {
        let mut other = self.clone();
        other.0[place] = line.into();
        other
    }

    /// With something else behind the name of a line.
    fn spelt(&self, place: usize, value: &str) -> Page {
        let name = self.0[place].split('=').next().unwrap_or_default().to_string();
        self.with(place, &format!("{name}={value}"))
    }
}

#[derive(Default)]
struct Cases(Vec<Case>);

impl Cases {
    fn good(&mut self, page: &Page) {
        self.0.push(Case { text: page.text(), wrong: None });
    }

    fn wrong(&mut self, page: &Page, place: usize) {
        self.0.push(Case { text: page.text(), wrong: Some(place as u64 + 1) });
    }

    /// Good as it is, or wrong at the tank's last line.
    fn adds_up(&mut self, tank: usize, draft: &Draft, holds: bool) {
        let page = draft.page();
        match holds {
            true => self.good(&page),
            false => self.wrong(&page, page.last(tank)),
        }
    }
}

fn content(cnt: i32, flags: u8, value: Value) -> Content {
    Content { cnt, flags, value }
}

const YES: Content = Content { cnt: 0, flags: 0x84, value: Value::Bool(true) };

/// A position that carries all of these marks.
pub fn crowd(marks: Vec<(Party, Id, Content)>) -> Said {
    let set = u64::MAX.checked_shr(64 - marks.len().min(64) as u32).unwrap_or(0);
    Said { touched: 1, length: 1, marks, runs: vec![(1, set)] }
}

/// A position with so many marks of each party.
pub fn rooms(plant: u64, lab: u64) -> Said {
    let of = |party, count| (1..=count).map(move |peer| (party, (1, 5, peer), YES));
    crowd(of(Plant, plant).chain(of(Lab, lab)).collect())
}

/// So many runs of one position each, every other one with a mark.
pub fn many(runs: u64) -> Said {
    let list = (0..runs).map(|run| (1, (run + 1) % 2)).collect();
    Said { touched: 1, length: runs, marks: vec![(Plant, (1, 5, 1), YES)], runs: list }
}

/// As long a text as a state can have: eight tanks of 64 wide marks and 64 long runs each.
pub fn widest() -> Draft {
    let wide = content(i32::MIN, u8::MAX, Value::Whole(i64::MIN));
    let mark = |place: u64| (Plant, (u16::MAX, u32::MAX, u64::MAX - 63 + place), wide);
    let len = LONGEST / 64;
    let runs = (0..64).map(|place| (len, u64::MAX >> place)).collect();
    let said = Said { touched: 1, length: 64 * len, marks: (0..64).map(mark).collect(), runs };
    Draft { version: 3, settings: [(64, 512); 8], tanks: std::array::from_fn(|_| said.clone()) }
}

/// One mark on all of these runs but those with the set 0.
fn long(length: u64, runs: &[(u64, u64)]) -> Said {
    Said { touched: 1, length, marks: vec![(Plant, (1, 5, 1), YES)], runs: runs.to_vec() }
}

const FRESH: (u64, u64) = (T, 0);

fn fresh() -> Said {
    Said { touched: 0, length: T, marks: Vec::new(), runs: vec![FRESH] }
}

/// Each version, and each text under another version's number.
fn versions(cases: &mut Cases) {
    let plain = [(Plant, (1, 5, 1), YES), (Plant, (2, 5, 1), content(0, 0x80, Value::Null))];
    let mut draft = Draft::with(0, crowd(plain.to_vec()));
    let stops = [("key", "key"), ("party", "flags"), ("party", "cnt")];
    for version in 1..=3 {
        draft.version = version;
        let page = draft.page();
        cases.good(&page);
        let others = (1..=3).filter(|other| *other != version);
        let (first, second) = stops[version as usize - 1];
        for (other, name) in others.zip([first, second]) {
            let page = page.with(0, &format!("version={other}"));
            cases.wrong(&page, page.at(0, name, 0));
        }
    }
    let empty = Draft::default().page();
    (1..=3).for_each(|version| cases.good(&empty.with(0, &format!("version={version}"))));
    let spelt = ["0", "4", "03", "", "-3", "+3", "3 ", "3\r", "259", "18446744073709551619"];
    for spelt in spelt.map(|spelt| format!("version={spelt}")) {
        cases.wrong(&draft.page().with(0, &spelt), 0);
    }
    cases.wrong(&draft.page().with(0, "Version=3"), 0);
}

/// Shares and limits: line 2 * tank + 2 and the one behind it, and line 17.
fn settings(cases: &mut Cases) {
    let with = |settings: Settings| Draft { settings, ..Draft::default() }.page();
    for tank in [0, 4, 7] {
        let pair = |pair: (u64, u64)| {
            let mut settings = [(1, 512); 8];
            settings[tank] = pair;
            with(settings)
        };
        let (share, limit) = (2 * tank + 1, 2 * tank + 2);
        for good in [(1, 1), (505, 505), (505, 512), (1, 512), (7, 7)] {
            cases.good(&pair(good));
        }
        for bad in [0, 513, 65537, u64::MAX] {
            cases.wrong(&pair((bad, 512)), share);
            cases.wrong(&pair((1, bad)), limit);
        }
        for bad in [(2, 1), (505, 504), (512, 511)] {
            cases.wrong(&pair(bad), limit);
        }
        cases.wrong(&pair((506, 506)), 16);
        cases.wrong(&pair((512, 512)), 16);
    }
    cases.good(&with([(64, 64); 8]));
    let mut over = [(64, 64); 8];
    over[0] = (65, 65);
    cases.wrong(&with(over), 16);
    cases.wrong(&with(over).with(17, "tank=1"), 16);
    cases.wrong(&with([(512, 512); 8]), 16);
    cases.wrong(&with([(512, 512); 8]).with(14, "limit6=511"), 14);
}

/// The first lines of a tank.
fn firsts(cases: &mut Cases) {
    for tank in [0, 3, 7] {
        let page = Draft::with(tank, fresh()).page();
        cases.good(&page);
        for other in [tank + 1, 8, tank + 256, 9 - tank] {
            let place = page.at(tank, "tank", 0);
            cases.wrong(&page.with(place, &format!("tank={other}")), place);
        }
        let touched = page.at(tank, "touched", 0);
        cases.good(&page.with(touched, "touched=1"));
        for bad in ["2", "", "01", "256", "-1", "yes"] {
            cases.wrong(&page.spelt(touched, bad), touched);
        }
    }
    let mut wrong = |said: Said, name: &str| {
        let page = Draft::with(1, said).page();
        cases.wrong(&page, page.at(1, name, 0));
    };
    for length in [0, T - 1, T + 1, LONGEST] {
        wrong(Said { length, runs: vec![(length, 0)], ..fresh() }, "length");
    }
    wrong(Said { touched: 0, ..many(2) }, "length");
    wrong(Said { touched: 0, length: T, runs: vec![(T, 1)], ..many(1) }, "marks");
    wrong(Said { runs: vec![], ..fresh() }, "runs");
    wrong(Said { runs: vec![(1, 0), (T - 1, 1)], ..fresh() }, "runs");
    wrong(long(LONGEST + 1, &[(LONGEST + 1, 1)]), "length");
    wrong(long(u64::MAX, &[(u64::MAX, 1)]), "length");
    wrong(rooms(65, 0), "marks");
    wrong(rooms(48, 17), "marks");
    wrong(rooms(33, 32), "marks");
    cases.good(&Draft::with(1, Said { marks: vec![], ..long(T, &[(T, 0)]) }).page());
    cases.good(&Draft::with(1, long(T, &[(T, 1)])).page());
    cases.good(&Draft::with(1, long(LONGEST, &[(LONGEST, 1)])).page());
    cases.good(&Draft::with(1, rooms(64, 0)).page());
}

/// Two marks, one behind the other: the line that shows that they are not in order.
const ORDERS: [(Id, Id, Option<&str>); 11] = [
    ((2, 5, 5), (2, 5, 6), None),
    ((2, 5, 5), (2, 6, 0), None),
    ((2, 5, 5), (3, 0, 0), None),
    ((2, 5, 5), (1, 9, 9), Some("key")),
    ((2, 5, 5), (1, 5, 5), Some("key")),
    ((2, 5, 5), (2, 4, 9), Some("lamport")),
    ((2, 5, 5), (2, 5, 5), Some("peer")),
    ((2, 5, 5), (2, 5, 4), Some("peer")),
    ((u16::MAX, u32::MAX, u64::MAX - 1), (u16::MAX, u32::MAX, u64::MAX), None),
    ((u16::MAX, u32::MAX, u64::MAX), (u16::MAX, u32::MAX, u64::MAX), Some("peer")),
    ((0, 0, 1 << 63), (0, 0, 1), Some("peer")),
];

fn orders(cases: &mut Cases) {
    for (one, two, wrong) in ORDERS {
        for (version, party) in [(1, Plant), (2, Plant), (3, Plant), (2, Lab), (3, Lab)] {
            let mut draft = Draft::with(2, crowd([one, two].map(|id| (party, id, YES)).to_vec()));
            draft.version = version;
            let page = draft.page();
            match wrong {
                Some(name) => cases.wrong(&page, page.at(2, name, 1)),
                None => cases.good(&page),
            }
        }
    }
    // Each party's ascend for themselves, the plant's come first.
    let id = (2, 5, 5);
    for (parties, wrong) in [
        (vec![(Plant, id), (Lab, id)], None),
        (vec![(Plant, id), (Lab, (1, 0, 0)), (Lab, id)], None),
        (vec![(Lab, id), (Plant, (3, 6, 6))], Some(1)),
        (vec![(Plant, (1, 0, 0)), (Lab, id), (Plant, id)], Some(2)),
    ] {
        let marks = parties.into_iter().map(|(party, id)| (party, id, YES));
        let page = Draft::with(2, crowd(marks.collect())).page();
        match wrong {
            Some(nth) => cases.wrong(&page, page.at(2, "party", nth)),
            None => cases.good(&page),
        }
    }
}

/// A mark's fields: what may stand behind a name, and what may not.
const FIELDS: [(&str, &[&str], &[&str]); 7] = [
    ("party", &["plant", "lab"], &["", "Plant", "LAB", "labs", "la", "plant ", "0"]),
    ("key", &["0", "65535"], &["65536", "", "01", "-1", "+1", "1 ", "131073", "a"]),
    ("lamport", &["0", "4294967295"], &["4294967296", "00", "", "-5", "4294967301"]),
    ("peer", &["0", "18446744073709551615"], &["18446744073709551616", "", "01", "-1"]),
    (
        "cnt",
        &["0", "-1", "7", "2147483647", "-2147483648"],
        &["2147483648", "-2147483649", "-0", "+1", "00", "-01", "", "-", "4294967295"],
    ),
    ("flags", &["0", "65", "130", "132", "255"], &["256", "-1", "", "0132", "388"]),
    ("kind", &[], &["", "Bool", "float", "bool ", "nulls", "1"]),
];

const VALUES: [(&str, &[&str], &[&str]); 4] = [
    ("null", &[""], &["0", "null", " "]),
    ("bool", &["0", "1"], &["", "2", "01", "true"]),
    (
        "whole",
        &["0", "-1", "9223372036854775807", "-9223372036854775808"],
        &["-0", "00", "+1", "", "9223372036854775808", "-9223372036854775809"],
    ),
    (
        "decimal",
        &["0000000000000000", "8000000000000000", "7ff0000000000000", "fff0000000000000"],
        &[
            "7ff0000000000001",
            "7ff8000000000000",
            "7fffffffffffffff",
            "fff0000000000001",
            "fff8000000000000",
            "ffffffffffffffff",
            "7FF0000000000000",
            "7ff000000000000",
            "07ff0000000000000",
            "7ff000000000000g",
            "",
        ],
    ),
];

fn fields(cases: &mut Cases) {
    let page = Draft::with(0, rooms(1, 0)).page();
    for (name, good, bad) in FIELDS {
        let place = page.at(0, name, 0);
        good.iter().for_each(|value| cases.good(&page.spelt(place, value)));
        bad.iter().for_each(|value| cases.wrong(&page.spelt(place, value), place));
    }
    let (kind, value) = (page.at(0, "kind", 0), page.at(0, "value", 0));
    for (name, good, bad) in VALUES {
        let page = page.spelt(kind, name);
        good.iter().for_each(|text| cases.good(&page.spelt(value, text)));
        bad.iter().for_each(|text| cases.wrong(&page.spelt(value, text), value));
    }
    for byte in 0..=255 {
        let marks = vec![(Plant, (1, 5, 1), content(-3, byte, Value::Whole(byte as i64)))];
        cases.good(&Draft::with(0, crowd(marks)).page());
    }
}

/// How many runs there are: up to the limit, and as many as are told.
fn counts(cases: &mut Cases) {
    for (limit, runs) in [(1, 1), (1, 2), (4, 4), (4, 5), (4, 505), (505, 505), (505, 506)] {
        let mut draft = Draft::with(3, many(runs));
        draft.settings[3] = (1, limit);
        let page = draft.page();
        match runs <= limit {
            true => cases.good(&page),
            false => cases.wrong(&page, page.at(3, "runs", 0)),
        }
    }
    for tank in [0, 7] {
        let page = Draft::with(tank, many(3)).page();
        let (runs, last) = (page.at(tank, "runs", 0), page.last(tank));
        // Too few: the sum's line, which is now that of an earlier run. Too many: no run is there.
        cases.wrong(&page.spelt(runs, "2"), page.at(tank, "set", 1));
        cases.wrong(&page.spelt(runs, "1"), page.at(tank, "set", 0));
        cases.wrong(&page.spelt(runs, "0"), runs);
        cases.wrong(&page.spelt(runs, "4"), last + 1);
        cases.wrong(&page.spelt(runs, "512"), last + 1);
        cases.wrong(&page.spelt(runs, "513"), runs);
        // The sum is right, and a run is left over.
        let page = Draft::with(tank, long(5, &[(5, 1), (3, 0)])).page();
        cases.wrong(&page.spelt(runs, "1"), page.at(tank, "len", 1));
        let marks = page.at(tank, "marks", 0);
        cases.wrong(&page.spelt(marks, "0"), page.at(tank, "party", 0));
        cases.wrong(&page.spelt(marks, "2"), runs);
    }
}

const ALL: u64 = u64::MAX;
const HALF: u64 = 1 << 63;

/// Lengths of a tank, and of its runs: those that sum to it, those that don't, also by 2^64.
const SUMS: [(u64, &[(u64, u64)]); 17] = [
    (0, &[(1, 1)]),
    (5, &[(5, 1)]),
    (5, &[(4, 1)]),
    (5, &[(6, 1)]),
    (5, &[(2, 1), (3, 0)]),
    (5, &[(2, 1), (2, 0)]),
    (5, &[(2, 1), (4, 0)]),
    (5, &[(6, 1), (1, 0)]),
    (1, &[(1, 1), (1, 0)]),
    (5, &[(ALL, 1), (6, 0)]),
    (5, &[(6, 1), (ALL, 0)]),
    (5, &[(HALF, 1), (HALF, 0), (5, 1)]),
    (5, &[(ALL, 0), (ALL, 1), (7, 0)]),
    (LONGEST, &[(LONGEST - 1, 1), (1, 0)]),
    (LONGEST, &[(HALF, 1)]),
    (LONGEST, &[(LONGEST, 1), (HALF, 0), (HALF, 1)]),
    (T, &[(T, 1), (T, 0), (T, 1), (T, 0), (4, 1)]),
];

fn sums(cases: &mut Cases) {
    for tank in [0, 5, 7] {
        for (length, runs) in SUMS {
            let total: u128 = runs.iter().map(|run| run.0 as u128).sum();
            let draft = Draft::with(tank, long(length, runs));
            cases.adds_up(tank, &draft, total == length as u128);
        }
        cases.adds_up(tank, &Draft::with(tank, Said { length: 1, ..EMPTIED }), false);
        cases.adds_up(tank, &Draft::with(tank, Said { length: LONGEST, ..EMPTIED }), false);
        cases.adds_up(
            tank,
            &Draft::with(tank, Said { touched: 1, length: T - 1, ..fresh() }),
            false,
        );
    }
    let mut wrapped = many(505);
    wrapped.runs.iter_mut().for_each(|run| run.0 = ALL);
    wrapped.runs[504].0 = 504 + 5;
    wrapped.length = 5;
    cases.adds_up(0, &Draft::with(0, wrapped.clone()), false);
    wrapped.length = LONGEST;
    cases.adds_up(0, &Draft::with(0, wrapped), false);
}

/// An untouched tank's run is as long as the tank, and a run has a position.
fn lengths(cases: &mut Cases) {
    for len in [1, T - 1, T + 1, LONGEST] {
        let draft = Draft::with(4, Said { runs: vec![(len, 0)], ..fresh() });
        cases.adds_up(4, &draft, false);
    }
    for (nth, runs) in [(0, [(0, 1), (5, 0)]), (1, [(5, 1), (0, 0)])] {
        let page = Draft::with(4, long(5, &runs)).page();
        cases.wrong(&page, page.at(4, "len", nth));
    }
    let page = Draft::with(4, long(5, &[(5, 1)])).page();
    let len = page.at(4, "len", 0);
    for bad in ["", "05", "-5", "+5", "5 ", "18446744073709551616", "18446744073709551621"] {
        cases.wrong(&page.spelt(len, bad), len);
    }
}

/// Sets: no bit past the marks, none as the run before.
fn sets(cases: &mut Cases) {
    let mut wrong = |said: Said, nth: usize| {
        let page = Draft::with(6, said).page();
        cases.wrong(&page, page.at(6, "set", nth));
    };
    for set in [2, 3, 1 << 63, u64::MAX] {
        wrong(long(5, &[(2, 1), (3, set)]), 1);
    }
    for set in [1, 1 << 63] {
        wrong(Said { runs: vec![(T, set)], ..fresh() }, 0);
        wrong(Said { marks: vec![], ..long(5, &[(5, set)]) }, 0);
    }
    wrong(Said { runs: vec![(1, u64::MAX)], ..rooms(63, 0) }, 0);
    wrong(Said { runs: vec![(1, 1 << 32)], ..rooms(32, 0) }, 0);
    wrong(long(5, &[(2, 1), (3, 1)]), 1);
    wrong(long(5, &[(2, 0), (3, 0)]), 1);
    wrong(long(5, &[(2, 1), (1, 0), (1, 1), (1, 1)]), 3);
    // It is the line's own fault before the sum's, and before that of the mark that none carries.
    wrong(long(5, &[(2, 0), (9, 0), (1, 0)]), 1);
    let page = Draft::with(6, long(5, &[(5, 1)])).page();
    let set = page.at(6, "set", 0);
    for bad in ["", "1", "000000000000001", "00000000000000001", "000000000000000A"] {
        cases.wrong(&page.spelt(set, bad), set);
    }
    cases.good(&Draft::with(6, long(5, &[(2, 1), (1, 0), (1, 1), (1, 0)])).page());
    // Runs of two tanks are no neighbours.
    let mut draft = Draft::with(6, long(5, &[(2, 0), (3, 1)]));
    draft.tanks[7] = long(5, &[(3, 1), (2, 0)]);
    cases.good(&draft.page());
}

/// Each mark is in some run.
fn unused(cases: &mut Cases) {
    for (marks, runs) in [(1, vec![(1, 0)]), (2, vec![(1, 1)]), (2, vec![(1, 2), (2, 0), (1, 2)])] {
        let length = runs.iter().map(|run| run.0).sum();
        let said = Said { length, runs, ..rooms(marks, 0) };
        cases.adds_up(6, &Draft::with(6, said), false);
    }
    cases.adds_up(6, &Draft::with(6, Said { length: 0, runs: vec![], ..rooms(1, 0) }), false);
    for missing in [0, 31, 32, 63] {
        let runs = vec![(1, !(1 << missing))];
        cases.adds_up(6, &Draft::with(6, Said { runs, ..rooms(64, 0) }), false);
        let runs = vec![(1, !(1 << missing)), (1, 1 << missing)];
        cases.adds_up(6, &Draft::with(6, Said { length: 2, runs, ..rooms(64, 0) }), true);
    }
}

/// Refusal 8's sum, where the laboratory has a mark.
fn assured(cases: &mut Cases) {
    let counts = [
        (48, 1),
        (49, 1),
        (48, 16),
        (47, 16),
        (47, 17),
        (46, 17),
        (32, 32),
        (31, 32),
        (31, 33),
        (20, 33),
        (20, 32),
        (0, 32),
        (0, 33),
        (0, 64),
        (63, 1),
        (60, 4),
    ];
    for (plant, lab) in counts {
        let holds = plant.max(32) + lab.max(16) <= 64;
        for version in 2..=3 {
            let mut draft = Draft::with(3, rooms(plant, lab));
            draft.version = version;
            cases.adds_up(3, &draft, holds);
        }
    }
    for plant in [48, 49, 56, 63, 64] {
        for version in 1..=3 {
            let mut draft = Draft::with(3, rooms(plant, 0));
            draft.version = version;
            cases.good(&draft.page());
        }
    }
}

/// Refusal 10's sum: the shares of the tanks to come count, and a tank under its share counts it.
fn pool(cases: &mut Cases) {
    let pools: [(&[(usize, u64)], &[(usize, u64)], Option<usize>); 14] = [
        (&[], &[(0, 505)], None),
        (&[], &[(0, 506)], Some(0)),
        (&[], &[(7, 505)], None),
        (&[], &[(7, 506)], Some(7)),
        (&[], &[(0, 300), (1, 206)], None),
        (&[], &[(0, 300), (1, 207)], Some(1)),
        (&[], &[(2, 100), (4, 200), (6, 207)], None),
        (&[], &[(2, 100), (4, 200), (6, 208)], Some(6)),
        (&[(7, 100)], &[(0, 406)], None),
        (&[(7, 100)], &[(0, 407)], Some(0)),
        (&[(0, 100)], &[(0, 3), (1, 406)], None),
        (&[(0, 100)], &[(0, 3), (1, 407)], Some(1)),
        (&[(3, 400), (5, 100)], &[(3, 401), (5, 105), (7, 2)], Some(7)),
        (&[(3, 400), (5, 100)], &[(3, 401), (5, 105), (7, 1)], None),
    ];
    for (shares, runs, wrong) in pools {
        let mut draft = Draft::default();
        shares.iter().for_each(|&(tank, share)| draft.settings[tank].0 = share);
        runs.iter().for_each(|&(tank, runs)| draft.tanks[tank] = many(runs));
        cases.adds_up(wrong.unwrap_or(0), &draft, wrong.is_none());
        if wrong.is_some_and(|tank| tank < 7) {
            let (page, tank) = (draft.page(), wrong.unwrap_or(0));
            let later = page.at(tank + 1, "touched", 0);
            cases.wrong(&page.with(later, "touched=2"), page.last(tank));
        }
    }
    for (runs, wrong) in [(64, None), (65, Some(3))] {
        let mut draft = Draft::with(3, many(runs));
        draft.settings = [(64, 65); 8];
        cases.adds_up(3, &draft, wrong.is_none());
    }
}

/// A short text is wrong behind its last newline, a long one behind its last line.
fn ends(cases: &mut Cases) {
    let mut draft = Draft::with(1, rooms(1, 1));
    draft.tanks[7] = long(5, &[(2, 1), (3, 0)]);
    let page = draft.page();
    let all = page.0.len();
    for place in 0..all {
        let before = Page(page.0[..place].to_vec()).text();
        let line = page.0[place].as_bytes();
        for part in [&line[..0], &line[..1], &line[..line.len() / 2], line] {
            let text = [&before[..], part].concat();
            cases.0.push(Case { text, wrong: Some(place as u64 + 1) });
        }
    }
    for left in ["\n", "x", " ", "\0", "tank=8\n", "len=1\n", "version=3\n"] {
        let text = [page.text(), left.as_bytes().to_vec()].concat();
        cases.0.push(Case { text, wrong: Some(all as u64 + 1) });
        let (wrong, place) = (page.with(page.last(3), "runs=600"), page.last(3) as u64 + 1);
        let text = [wrong.text(), left.as_bytes().to_vec()].concat();
        cases.0.push(Case { text, wrong: Some(place) });
    }
    let text = [page.text(), page.text()].concat();
    cases.0.push(Case { text, wrong: Some(all as u64 + 1) });
    for text in [vec![], vec![b'\n'; 200], vec![255; 70], b"op=length\ntank=00\n".to_vec()] {
        cases.0.push(Case { text, wrong: Some(1) });
    }
}

/// Every rule, on both sides.
pub fn cases() -> Vec<Case> {
    let mut cases = Cases::default();
    let parts = [versions, settings, firsts, orders, fields, counts, sums, lengths, sets];
    parts.into_iter().chain([unused, assured, pool, ends]).for_each(|part| part(&mut cases));
    cases.0
}

#[cfg(test)]
mod tests {
    use super::*;
    use crate::saved::read;

    #[test]
    fn the_reader_stops_where_it_has_to() {
        for Case { text, wrong } in cases() {
            let text_read = String::from_utf8_lossy(&text).into_owned();
            assert_eq!(read(&text, "").err(), wrong, "{text_read}");
        }
    }
}

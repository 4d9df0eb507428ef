//! Writing random scripts. The author carries each call out on a model of its own, so that the
//! next one can aim at what is there: at boundaries, carried marks, exact rooms.

use std::borrow::Cow;

use crate::answer::Answer;
use crate::call::{Call, Settings};
use crate::mark::{Content, Id, Mark, Party, Value};
use crate::mirror;
use crate::random::Random;
use crate::tank::{Tank, LONGEST, T};
use crate::tanks::{Tanks, FLAGS};

/// What a class of scripts is like.
#[derive(Clone, Copy)]
pub struct Habit {
    /// Tanks 0 up to this one are used.
    pub tanks: u64,
    /// Positions lie this near to 0, to a boundary or to the length.
    pub reach: u64,
    /// How many identities there are.
    pub marks: u64,
    /// One number in so many is taken from `WILD`; 0 says never.
    pub wild: u64,
    /// Only calls inside the oracle domain.
    pub inside: bool,
    /// Questions to each edit.
    pub questions: u64,
    /// Before one call in so many the other party takes its turn; 0 says never.
    pub turns: u64,
}

/// Numbers at which something changes, whatever they are used for.
const WILD: [u64; 24] = [
    0,
    1,
    2,
    7,
    8,
    63,
    64,
    65,
    255,
    256,
    512,
    513,
    1535,
    1536,
    65536,
    1 << 32,
    T - 1,
    T,
    T + 1,
    LONGEST - 1,
    LONGEST,
    LONGEST + 1,
    u64::MAX - 1,
    u64::MAX,
];

pub struct Author {
    pub random: Random,
    pub tanks: Tanks,
    pub calls: Vec<Call>,
    pub habit: Habit,
}

impl Author {
    pub fn new(seed: u64, habit: Habit) -> Self {
        Self { random: Random::new(seed), tanks: Tanks::default(), calls: Vec::new(), habit }
    }

    pub fn say(&mut self, call: Call) -> Answer {
        let answer = self.tanks.call(&call);
        self.calls.push(call);
        answer
    }

    pub fn open(&mut self, settings: Settings) {
        self.say(Call::Open { settings });
    }

    /// Edits and questions, so many in all.
    pub fn go_on(&mut self, calls: usize) {
        let end = self.calls.len() + calls;
        while self.calls.len() < end {
            if self.habit.turns > 0 && self.random.one_in(self.habit.turns) {
                self.turn();
            }
            let edit = self.random.one_in(self.habit.questions + 1);
            for _ in 0..30 {
                let call = if edit { self.edit() } else { self.question() };
                if !self.habit.inside || self.is_inside(&call) {
                    self.say(call);
                    break;
                }
            }
        }
    }

    /// The other party goes on.
    pub fn turn(&mut self) {
        let lab = self.tanks.party == Party::Lab;
        self.say(Call::Party { party: if lab { Party::Plant } else { Party::Lab } });
    }

    fn is_inside(&self, call: &Call) -> bool {
        let tank = call.tank().unwrap_or(8);
        tank < 8
            && mirror::inside(self.tanks.party, &self.state(tank), call)
            && !matches!(self.tanks.clone().call(call), Answer::Refused(_))
    }
}

/// Numbers and marks.
impl Author {
    fn is_wild(&mut self) -> bool {
        self.habit.wild > 0 && self.random.one_in(self.habit.wild)
    }

    fn or_wild(&mut self, number: u64) -> u64 {
        if self.is_wild() {
            return self.random.pick(&WILD);
        }
        number
    }

    fn tank(&mut self) -> u64 {
        let tank = self.random.below(self.habit.tanks);
        if self.is_wild() && self.random.one_in(2) {
            return self.random.pick(&WILD);
        }
        tank
    }

    fn joint(&self, tank: u64) -> &Tank {
        &self.tanks.tanks[(tank % 8) as usize]
    }

    /// What the party is shown.
    fn state(&self, tank: u64) -> Cow<'_, Tank> {
        self.joint(tank).shown_to(self.tanks.party)
    }

    /// A position worth asking about, perhaps at the length or just past it.
    fn spot(&mut self, tank: u64) -> u64 {
        let length = self.joint(tank).length;
        let off = self.random.below(self.habit.reach + 1);
        let near = match self.random.below(8) {
            0..=3 => off,
            4 => length.saturating_sub(off),
            _ => {
                let boundaries = self.joint(tank).boundaries();
                let place = if boundaries.is_empty() { 0 } else { self.random.pick(&boundaries) };
                let step = self.random.below(3);
                if self.random.one_in(2) {
                    place.saturating_sub(step)
                } else {
                    place + step
                }
            }
        };
        let rare = self.random.one_in(40) && !self.habit.inside;
        self.or_wild(near.min(length + rare as u64))
    }

    /// Mostly a range that isn't empty.
    fn range(&mut self, tank: u64) -> (u64, u64) {
        let (one, two) = (self.spot(tank), self.spot(tank));
        let (start, end) = (one.min(two), one.max(two));
        if start == end && !self.random.one_in(4) {
            return (start, end + 1);
        }
        if self.random.one_in(40) {
            return (end, start);
        }
        (start, end)
    }

    /// Identities on few keys, so that they meet; the outermost numbers are among them.
    fn id(&mut self) -> Id {
        let number = self.random.below(self.habit.marks);
        identity(number)
    }

    pub fn mark(&mut self) -> Mark {
        let id = self.id();
        let mut content = usual_of(self.tanks.party, id);
        if !self.habit.inside && self.random.one_in(25) {
            content.value = self.value();
        }
        if !self.habit.inside && self.random.one_in(30) {
            content.cnt = self.random.pick(&COUNTERS);
        }
        if !self.habit.inside && self.random.one_in(60) {
            content.flags ^= 2 << self.random.below(2);
        }
        if !self.habit.inside && self.random.one_in(60) {
            content.flags ^= 1 << self.random.below(8);
        }
        Mark { id, content }
    }

    fn value(&mut self) -> Value {
        if self.is_wild() {
            return Value::Decimal(self.random.pick(&NANS));
        }
        self.random.pick(&VALUES)
    }

    /// Mostly a key that the position carries.
    fn key(&mut self, tank: u64, at: u64) -> u16 {
        let any = self.id().0;
        if at >= self.joint(tank).length || self.random.one_in(3) {
            return any;
        }
        let keys: Vec<u16> = self.state(tank).at(at).keys().map(|(_, id)| id.0).collect();
        if keys.is_empty() {
            any
        } else {
            self.random.pick(&keys)
        }
    }

    /// An identity that the tank carries, if there is one.
    fn carried(&mut self, tank: u64) -> Option<Id> {
        let ids: Vec<Id> = self.state(tank).carried().into_keys().map(|id| id.1).collect();
        (!ids.is_empty()).then(|| self.random.pick(&ids))
    }
}

/// Calls.
impl Author {
    pub fn edit(&mut self) -> Call {
        let tank = self.tank();
        // The laboratory mostly keeps to what it may do.
        let lab = self.tanks.party == Party::Lab && !self.random.one_in(8);
        match if lab { self.random.pick(&[0, 0, 10]) } else { self.random.below(13) } {
            0..=4 => {
                let (start, end) = self.range(tank);
                Call::Annotate { tank, start, end, mark: self.mark() }
            }
            5..=7 => {
                let at = self.spot(tank);
                let len = self.inserted(tank);
                Call::Insert { tank, at, len: self.or_wild(len) }
            }
            8..=9 => {
                let (start, end) = self.range(tank);
                Call::Delete { tank, start, end }
            }
            12 => self.ageing(tank),
            _ => self.removal(tank),
        }
    }

    /// A small length, sometimes 0; in a long tank sometimes all that there is room for, or one more.
    fn inserted(&mut self, tank: u64) -> u64 {
        let length = self.joint(tank).length;
        if length > T + (1 << 60) && self.random.one_in(4) {
            return LONGEST - length + self.random.below(2);
        }
        if self.random.one_in(30) {
            return 0;
        }
        1 + self.random.below(3)
    }

    /// Mostly with a budget of a few stretches, sometimes with one for all of them, or with none.
    fn ageing(&mut self, tank: u64) -> Call {
        let before = self.spot(tank);
        let budget = match self.random.below(24) {
            0 => 0,
            1..=4 => self.joint(tank).runs() + self.random.below(2),
            _ => 1 + self.random.below(3),
        };
        Call::Age { tank, before, budget: self.or_wild(budget) }
    }

    /// Mostly of a mark that is carried, from the end of one of its stretches.
    fn removal(&mut self, tank: u64) -> Call {
        let ends: Vec<(u64, Id)> = {
            let anchors = self.state(tank).anchors();
            anchors.iter().filter(|a| !a.start).map(|a| (a.at, a.id)).collect()
        };
        if ends.is_empty() || self.random.one_in(4) {
            let id = self.id();
            let id = self.carried(tank).filter(|_| self.random.one_in(2)).unwrap_or(id);
            return Call::Remove { tank, id, last: self.spot(tank) };
        }
        let (end, id) = self.random.pick(&ends);
        let back = if self.random.one_in(3) { self.random.below(3) } else { 0 };
        Call::Remove { tank, id, last: end.saturating_sub(back) }
    }

    pub fn question(&mut self) -> Call {
        let tank = self.tank();
        let (start, end) = self.range(tank);
        let at = self.spot(tank);
        let few = self.random.below(3);
        let rank = self.or_wild(few);
        match self.random.below(20) {
            0 => Call::Length { tank },
            1 => Call::Touched { tank },
            2 => Call::Runs { tank },
            3 | 4 => Call::Value { tank, at, key: self.key(tank, at) },
            5 => Call::HasKey { tank, start, end, key: self.key(tank, end.saturating_sub(1)) },
            6 | 7 => self.all_value(tank, start, end),
            8 => Call::Same { tank, start, end },
            9 => Call::Marks { tank, at },
            10 => Call::Inherit { tank, at },
            11 => Call::Mark { tank, at, rank },
            12 => Call::Inherited { tank, at, rank },
            13 => {
                let needed = 3 * self.state(tank).stretches(start, end).len() as u64;
                Call::Stretches { tank, start, end, room: self.room(needed) }
            }
            14 => Call::StretchesNeeded { tank, start, end },
            15 => {
                let needed = 3 * self.state(tank).whole().len() as u64;
                Call::Whole { tank, room: self.room(needed) }
            }
            16 => Call::WholeNeeded { tank },
            17 => Call::Find { tank, at },
            18 => self.strip(tank),
            _ => {
                let needed = self.state(tank).anchors().len() as u64;
                Call::Anchors { tank, room: self.room(needed) }
            }
        }
    }

    /// Often with the key and the value that the range's first position shows.
    fn all_value(&mut self, tank: u64, start: u64, end: u64) -> Call {
        let key = self.key(tank, start);
        let within = start < self.joint(tank).length;
        let shown = if within { self.state(tank).winning(start, key) } else { None };
        let other = self.value();
        let value = shown.filter(|_| !self.random.one_in(4)).unwrap_or(other);
        Call::AllValue { tank, start, end, key, value }
    }

    /// Cells of a few positions, of so many that they reach about the length, or of any size.
    pub fn strip(&mut self, tank: u64) -> Call {
        let start = self.spot(tank);
        let left = self.joint(tank).length.saturating_sub(start);
        let parts = 1 + self.random.below(100);
        let k = match self.random.below(12) {
            0 => left / parts,
            1 => left / parts + 1,
            2 => u64::MAX / parts + self.random.below(2),
            3 => 1 << self.random.below(64),
            4 => parts,
            _ => 1 + self.random.below(4),
        };
        let rare = !self.habit.inside && self.random.one_in(30);
        let k = self.or_wild(if rare { 0 } else { k });
        let room = if self.random.one_in(4) { self.room(96) } else { 96 };
        Call::Strip { tank, start, k, room }
    }

    /// Room around what is needed.
    fn room(&mut self, needed: u64) -> u64 {
        let room = match self.random.below(8) {
            0 => needed.saturating_sub(1),
            1 => needed + 1,
            2 => needed.saturating_sub(3),
            3 => 0,
            4 => u64::MAX,
            _ => needed,
        };
        self.or_wild(room)
    }
}

const NANS: [u64; 3] = [0x7ff8_0000_0000_0000, 0xfff8_0000_0000_0001, 0x7ff0_0000_0000_0001];

const VALUES: [Value; 15] = [
    Value::Null,
    Value::Bool(false),
    Value::Bool(true),
    Value::Whole(0),
    Value::Whole(1),
    Value::Whole(-1),
    Value::Whole(i64::MIN),
    Value::Whole(i64::MAX),
    Value::Decimal(0),
    Value::Decimal(0x8000_0000_0000_0000),
    Value::Decimal(0x3ff0_0000_0000_0000),
    Value::Decimal(0x7ff0_0000_0000_0000),
    Value::Decimal(0xfff0_0000_0000_0000),
    Value::Decimal(1),
    Value::Decimal(0x7fef_ffff_ffff_ffff),
];

const COUNTERS: [i32; 7] = [-1, 0, i32::MAX, 1, i32::MIN, -65536, 2_000_000_000];

/// The identity of a number: three keys out of four are few, lamports and peers repeat.
pub fn identity(number: u64) -> Id {
    match number % 16 {
        13 => (u16::MAX, u32::MAX, u64::MAX - number / 16),
        14 => (0, 0, number / 16),
        15 => (1 + (number / 16) as u16, 1 << 31, 1 << 63),
        rest => (1 + (rest % 3) as u16, (rest / 3 + 3) as u32, 1 + number / 16),
    }
}

/// The content that a party's identity mostly comes with: the laboratory's is another.
pub fn usual_of(who: Party, id: Id) -> Content {
    match who {
        Party::Plant => usual(id),
        Party::Lab => Content { cnt: !usual(id).cnt, ..usual((id.0, id.1, id.2 ^ 1)) },
    }
}

/// The content that an identity mostly comes with.
pub fn usual(id: Id) -> Content {
    let number = id.0 as u64 + 3 * id.1 as u64 + 5 * (id.2 % 1000);
    Content {
        cnt: COUNTERS[number as usize % COUNTERS.len()],
        flags: FLAGS[number as usize % FLAGS.len()],
        value: VALUES[number as usize % VALUES.len()],
    }
}

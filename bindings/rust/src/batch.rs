//! Several calls as one script.

use std::fmt::{self, Display};
use std::io::Write;
use std::ops::Range;

use crate::mark::{Identity, Mark, Party, Setting, Value};

/// The kind of answer that a call gets.
#[derive(Clone, Copy, Debug, PartialEq, Eq)]
pub(crate) enum Kind {
    Accepted,
    /// Behind the answers to so many ranges.
    Plan(usize),
    Styles,
    /// A set, or none.
    Shared,
    Value,
    Yes,
    Touched,
    First,
    Length,
    Runs,
    /// Of a tank.
    Stretches(u64),
    Anchors,
    Extent,
    Aged,
    Proposal,
    /// Behind the answers to a legend.
    Strip,
}

impl Kind {
    pub(crate) fn may_be_none(self) -> bool {
        matches!(self, Kind::Shared | Kind::Value | Kind::Proposal)
    }
}

/// The keys of a legend.
pub(crate) const LEGEND: usize = 8;

/// Room that no list takes.
const ROOM: u64 = u64::MAX;

/// Several calls that cross to the library at once.
///
/// A crossing reads and writes the whole map as a text, whatever the call, so that many calls in one
/// batch cost little more than one. Each call has the name and the arguments of
/// [`Map`](crate::Map)'s; [`Map::run`](crate::Map::run) makes them in their order and answers each.
/// A refused one changes nothing, and the ones behind it are made.
///
/// ```
/// use mavelino::{Answer, Batch, Map, Mark, Value};
/// let hold = Mark { key: 2, lamport: 7, peer: 2, cnt: 12, flags: 0x80, value: true.into() };
/// let mut map = Map::open(Map::EVEN)?;
/// let mut batch = Batch::new();
/// batch.annotate(0, 1400..2000, &hold).insert(0, 1500, 60).value_at(0, 1999, 2);
/// let answers = map.run(&batch)?;
/// assert_eq!(answers[0], Answer::Accepted);
/// assert_eq!(answers[1], Answer::Styles(vec![hold]));
/// assert_eq!(answers[2], Answer::Value(Value::Bool(true)));
/// # Ok::<(), mavelino::Error>(())
/// ```
#[derive(Clone, Default, PartialEq, Eq)]
pub struct Batch {
    script: Vec<u8>,
    kinds: Vec<Kind>,
}

/// The script as it reads.
impl fmt::Debug for Batch {
    fn fmt(&self, f: &mut fmt::Formatter<'_>) -> fmt::Result {
        let script = String::from_utf8_lossy(&self.script);
        f.debug_struct("Batch").field("script", &script).finish()
    }
}

/// A legend for strips: eight keys with a letter each. The first key that shows a value in a cell
/// gives the cell its letter.
///
/// ```
/// use mavelino::Legend;
/// let mut pairs = [(1, b'c'); 8];
/// assert!(Legend::new(pairs).is_some());
/// pairs[0].1 = b'\n';
/// assert!(Legend::new(pairs).is_none());
/// ```
#[derive(Clone, Copy, Debug, PartialEq, Eq)]
pub struct Legend {
    pairs: [(u16, u8); LEGEND],
}

impl Legend {
    /// Keys and letters. A letter is any byte but a newline.
    pub fn new(pairs: [(u16, u8); LEGEND]) -> Option<Self> {
        let fits = pairs.iter().all(|(_, letter)| *letter != b'\n');
        fits.then_some(Self { pairs })
    }
}

/// Keys 0 to 7 with their digits.
impl Default for Legend {
    fn default() -> Self {
        Self { pairs: std::array::from_fn(|place| (place as u16, b'0' + place as u8)) }
    }
}

impl Batch {
    /// No calls.
    pub fn new() -> Self {
        Self::default()
    }

    /// How many calls it holds.
    pub fn len(&self) -> usize {
        self.kinds.len()
    }

    /// Whether it holds none.
    pub fn is_empty(&self) -> bool {
        self.kinds.is_empty()
    }

    /// The script that crosses, as docs/CONSOLE.md has it.
    pub fn script(&self) -> &[u8] {
        &self.script
    }

    pub(crate) fn kinds(&self) -> &[Kind] {
        &self.kinds
    }

    /// The calls that follow in this batch are made as this party. The map's own party stays.
    ///
    /// ```
    /// use mavelino::{Answer, Batch, Map, Party, Refusal};
    /// let mut map = Map::open(Map::EVEN)?;
    /// let mut batch = Batch::new();
    /// batch.set_party(Party::Lab).delete(0, 0..5);
    /// assert_eq!(map.run(&batch)?[1], Answer::Refused(Refusal::PlantsWork));
    /// # Ok::<(), mavelino::Error>(())
    /// ```
    pub fn set_party(&mut self, party: Party) -> &mut Self {
        let word = if party == Party::Lab { "lab" } else { "plant" };
        self.op("party").line("party", word).gets(Kind::Accepted)
    }

    /// [`Map::annotate`](crate::Map::annotate): [`Accepted`](crate::Answer::Accepted).
    pub fn annotate(&mut self, tank: u64, range: Range<u64>, mark: &Mark) -> &mut Self {
        let Mark { cnt, flags, value, .. } = *mark;
        self.op("annotate").line("tank", tank).range(range).identity(&mark.identity());
        self.line("cnt", cnt).line("flags", flags).value(value).gets(Kind::Accepted)
    }

    /// [`Map::insert`](crate::Map::insert): [`Styles`](crate::Answer::Styles).
    pub fn insert(&mut self, tank: u64, pos: u64, len: u64) -> &mut Self {
        self.op("insert").line("tank", tank).line("at", pos).line("len", len).gets(Kind::Styles)
    }

    /// [`Map::delete`](crate::Map::delete): [`Accepted`](crate::Answer::Accepted).
    pub fn delete(&mut self, tank: u64, range: Range<u64>) -> &mut Self {
        self.op("delete").line("tank", tank).range(range).gets(Kind::Accepted)
    }

    /// [`Map::remove_style_scanning_backward`](crate::Map::remove_style_scanning_backward):
    /// [`Number`](crate::Answer::Number).
    pub fn remove_style_scanning_backward(
        &mut self,
        tank: u64,
        to_remove: &Identity,
        last_index: u64,
    ) -> &mut Self {
        self.op("remove").line("tank", tank).identity(to_remove);
        self.line("last", last_index).gets(Kind::First)
    }

    /// [`Map::length`](crate::Map::length): [`Number`](crate::Answer::Number).
    pub fn length(&mut self, tank: u64) -> &mut Self {
        self.op("length").line("tank", tank).gets(Kind::Length)
    }

    /// [`Map::runs`](crate::Map::runs): [`Number`](crate::Answer::Number).
    pub fn runs(&mut self, tank: u64) -> &mut Self {
        self.op("runs").line("tank", tank).gets(Kind::Runs)
    }

    /// [`Map::has_style`](crate::Map::has_style): [`Yes`](crate::Answer::Yes).
    pub fn has_style(&mut self, tank: u64) -> &mut Self {
        self.op("touched").line("tank", tank).gets(Kind::Touched)
    }

    /// [`Map::value_at`](crate::Map::value_at): [`Value`](crate::Answer::Value) or
    /// [`None`](crate::Answer::None).
    pub fn value_at(&mut self, tank: u64, pos: u64, key: u16) -> &mut Self {
        self.op("value").line("tank", tank).line("at", pos).line("key", key).gets(Kind::Value)
    }

    /// [`Map::styles_at`](crate::Map::styles_at): [`Styles`](crate::Answer::Styles).
    pub fn styles_at(&mut self, tank: u64, pos: u64) -> &mut Self {
        self.op("marks").line("tank", tank).line("at", pos).gets(Kind::Styles)
    }

    /// [`Map::stretch_at`](crate::Map::stretch_at): [`Extent`](crate::Answer::Extent).
    pub fn stretch_at(&mut self, tank: u64, pos: u64) -> &mut Self {
        self.op("find").line("tank", tank).line("at", pos).gets(Kind::Extent)
    }

    /// [`Map::get_styles_for_insert`](crate::Map::get_styles_for_insert):
    /// [`Styles`](crate::Answer::Styles).
    pub fn get_styles_for_insert(&mut self, tank: u64, index: u64) -> &mut Self {
        self.op("inherit").line("tank", tank).line("at", index).gets(Kind::Styles)
    }

    /// [`Map::get_styles_of_range`](crate::Map::get_styles_of_range):
    /// [`Styles`](crate::Answer::Styles) or [`None`](crate::Answer::None).
    pub fn get_styles_of_range(&mut self, tank: u64, range: Range<u64>) -> &mut Self {
        self.op("same").line("tank", tank).range(range).gets(Kind::Shared)
    }

    /// [`Map::range_contains_key`](crate::Map::range_contains_key): [`Yes`](crate::Answer::Yes).
    pub fn range_contains_key(&mut self, tank: u64, range: Range<u64>, key: u16) -> &mut Self {
        self.op("has_key").line("tank", tank).range(range).line("key", key).gets(Kind::Yes)
    }

    /// [`Map::range_has_key_value`](crate::Map::range_has_key_value): [`Yes`](crate::Answer::Yes).
    pub fn range_has_key_value(
        &mut self,
        tank: u64,
        range: Range<u64>,
        key: u16,
        value: Value,
    ) -> &mut Self {
        self.op("all_value").line("tank", tank).range(range).line("key", key);
        self.value(value).gets(Kind::Yes)
    }

    /// [`Map::iter`](crate::Map::iter): [`Stretches`](crate::Answer::Stretches).
    pub fn iter(&mut self, tank: u64) -> &mut Self {
        self.op("whole").line("tank", tank).line("room", ROOM).gets(Kind::Stretches(tank))
    }

    /// [`Map::iter_range`](crate::Map::iter_range): [`Stretches`](crate::Answer::Stretches).
    pub fn iter_range(&mut self, tank: u64, range: Range<u64>) -> &mut Self {
        self.op("stretches").line("tank", tank).range(range).line("room", ROOM);
        self.gets(Kind::Stretches(tank))
    }

    /// [`Map::iter_anchors`](crate::Map::iter_anchors): [`Anchors`](crate::Answer::Anchors).
    pub fn iter_anchors(&mut self, tank: u64) -> &mut Self {
        self.op("anchors").line("tank", tank).line("room", ROOM).gets(Kind::Anchors)
    }

    /// [`Map::age`](crate::Map::age): [`Aged`](crate::Answer::Aged).
    pub fn age(&mut self, tank: u64, before: u64, budget: u64) -> &mut Self {
        self.op("age").line("tank", tank).line("before", before).line("budget", budget);
        self.gets(Kind::Aged)
    }

    /// [`Map::apply_plan`](crate::Map::apply_plan): [`Accepted`](crate::Answer::Accepted).
    pub fn apply_plan(
        &mut self,
        tank: u64,
        plan: &[Range<u64>],
        hold: u16,
        most_runs: u64,
    ) -> &mut Self {
        for range in plan {
            self.op("range").range(range.clone());
        }
        self.op("plan").line("tank", tank).line("hold", hold).line("runs", most_runs);
        self.gets(Kind::Plan(plan.len()))
    }

    /// [`Map::propose`](crate::Map::propose): [`Plan`](crate::Answer::Plan) or
    /// [`None`](crate::Answer::None).
    pub fn propose(&mut self, tank: u64, hold: u16, most_runs: u64) -> &mut Self {
        self.op("propose").line("tank", tank).line("hold", hold).line("runs", most_runs);
        self.gets(Kind::Proposal)
    }

    /// [`Map::strip`](crate::Map::strip): [`Strip`](crate::Answer::Strip).
    pub fn strip(&mut self, tank: u64, start: u64, k: u64, legend: &Legend) -> &mut Self {
        for (place, (key, letter)) in legend.pairs.iter().enumerate() {
            self.op("legend").line("place", place).line("key", key);
            self.script.extend(b"letter=");
            self.script.extend([*letter, b'\n']);
        }
        self.op("strip").line("tank", tank).line("start", start).line("k", k);
        self.line("room", ROOM).gets(Kind::Strip)
    }

    /// The calls of another batch behind these.
    pub(crate) fn append(&mut self, more: &Batch) -> &mut Self {
        self.script.extend(&more.script);
        self.kinds.extend(&more.kinds);
        self
    }

    /// Eight settings in the place of the ones that are there.
    pub(crate) fn open(&mut self, settings: &[Setting; 8]) -> &mut Self {
        self.op("open");
        for (tank, setting) in settings.iter().enumerate() {
            self.line(&format!("share{tank}"), setting.share);
            self.line(&format!("limit{tank}"), setting.limit);
        }
        self.gets(Kind::Accepted)
    }

    fn op(&mut self, name: &str) -> &mut Self {
        self.line("op", name)
    }

    /// A line of the group that is being written. Writing into memory has no way to fail.
    fn line(&mut self, name: &str, value: impl Display) -> &mut Self {
        let _ = writeln!(self.script, "{name}={value}");
        self
    }

    fn range(&mut self, range: Range<u64>) -> &mut Self {
        self.line("start", range.start).line("end", range.end)
    }

    fn identity(&mut self, identity: &Identity) -> &mut Self {
        self.line("key", identity.key).line("lamport", identity.lamport).line("peer", identity.peer)
    }

    fn value(&mut self, value: Value) -> &mut Self {
        match value {
            Value::Null => self.line("kind", "null").line("value", ""),
            Value::Bool(yes) => self.line("kind", "bool").line("value", yes as u8),
            Value::Whole(whole) => self.line("kind", "whole").line("value", whole),
            Value::Decimal(decimal) => {
                let bits = format!("{:016x}", decimal.to_bits());
                self.line("kind", "decimal").line("value", bits)
            }
        }
    }

    /// The group is whole, and this is the kind of its answer.
    fn gets(&mut self, kind: Kind) -> &mut Self {
        self.kinds.push(kind);
        self
    }
}

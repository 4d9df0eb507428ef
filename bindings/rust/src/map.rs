//! The map: eight tanks, held as their saved text.

use std::fmt;
use std::ops::Range;

use crate::answer::{Aged, Anchor, Answer, CELLS, Extent, Stretch};
use crate::batch::{Batch, Legend};
use crate::ffi;
use crate::mark::{Identity, Mark, Party, Setting, Value};
use crate::reader::Reader;
use crate::refusal::{Error, Surprise};

/// Eight tanks of readings, with the marks that their positions carry.
///
/// It holds the saved text that docs/CONSOLE.md describes, and nothing else but as whom calls are
/// made. A call hands that text and a script to the proved library, which reads it, makes the call
/// and writes the next text: so a call costs what reading and writing all tanks costs, and a
/// [`Batch`] shares that among its calls. A call wants a stack with 1,310,720 bytes of room, which a
/// thread of Rust's own has unless it is given less.
///
/// Two maps are `==` where their settings, tanks and party are: one meaning has one text.
///
/// ```
/// use mavelino::{Map, Mark, Value};
/// let cleaning = Mark { key: 1, lamport: 5, peer: 1, cnt: 31, flags: 0x84, value: Value::Null };
/// let hold = Mark { key: 2, lamport: 7, peer: 2, cnt: 12, flags: 0x80, value: true.into() };
///
/// let mut map = Map::open(Map::EVEN)?;
/// map.annotate(0, 1000..1600, &cleaning)?;
/// map.annotate(0, 1400..2000, &hold)?;
/// // Late readings get what both their neighbours carry.
/// assert_eq!(map.insert(0, 1500, 60)?, [cleaning, hold]);
/// assert_eq!(map.value_at(0, 2059, 2)?, Some(Value::Bool(true)));
/// # Ok::<(), mavelino::Error>(())
/// ```
#[derive(Clone, PartialEq, Eq)]
pub struct Map {
    text: Vec<u8>,
    party: Party,
}

/// The text as it reads.
impl fmt::Debug for Map {
    fn fmt(&self, f: &mut fmt::Formatter<'_>) -> fmt::Result {
        let text = String::from_utf8_lossy(&self.text);
        f.debug_struct("Map").field("party", &self.party).field("text", &text).finish()
    }
}

/// Settings that any opening accepts, as a text.
const LEAST: &[u8] = b"version=1\n\
    share0=1\nlimit0=1\nshare1=1\nlimit1=1\nshare2=1\nlimit2=1\nshare3=1\nlimit3=1\n\
    share4=1\nlimit4=1\nshare5=1\nlimit5=1\nshare6=1\nlimit6=1\nshare7=1\nlimit7=1\n";

impl Map {
    /// Eight tanks alike: each has 32 of the 512 runs for itself, and the other 256 are for whichever
    /// takes them first.
    pub const EVEN: [Setting; 8] = [Setting { share: 32, limit: 288 }; 8];

    /// Eight fresh tanks. Refused by 2 where a share is 0, a limit is under its share or over 512,
    /// or the shares sum to more than 512.
    ///
    /// ```
    /// use mavelino::{Map, Refusal, Setting};
    /// let mut settings = Map::EVEN;
    /// settings[3] = Setting { share: 65, limit: 64 };
    /// let error = Map::open(settings).unwrap_err();
    /// assert_eq!(error.refusal(), Some(Refusal::BrokenRule));
    /// ```
    pub fn open(settings: [Setting; 8]) -> Result<Map, Error> {
        let mut map = Map { text: ffi::begin(LEAST)?, party: Party::Plant };
        let mut batch = Batch::new();
        batch.open(&settings);
        map.edit(batch)?.accepted()?;
        Ok(map)
    }

    /// Eight fresh tanks with the settings of a text: `version=1`, then `share0=` and `limit0=` and
    /// on to `share7=` and `limit7=`, a line each. Refused by 12 with the first bad line, or by 2.
    ///
    /// ```
    /// use mavelino::{Error, Map, Refusal};
    /// let error = Map::open_text(b"version=2\n").unwrap_err();
    /// assert_eq!(error, Error::RefusedAt(Refusal::BadSettings, 1));
    /// ```
    pub fn open_text(settings: &[u8]) -> Result<Map, Error> {
        Ok(Map { text: ffi::begin(settings)?, party: Party::Plant })
    }

    /// The saved text: settings and all eight tanks, both parties' marks in it.
    pub fn save(&self) -> &[u8] {
        &self.text
    }

    /// The map of a saved text, of version 1, 2 or 3, called as the plant. Refused by 13 with the
    /// first wrong line.
    ///
    /// ```
    /// use mavelino::{Error, Map, Refusal};
    /// let map = Map::open(Map::EVEN)?;
    /// assert_eq!(Map::restore(map.save())?, map);
    /// let error = Map::restore(b"version=9\n").unwrap_err();
    /// assert_eq!(error, Error::RefusedAt(Refusal::BadLine, 1));
    /// # Ok::<(), Error>(())
    /// ```
    pub fn restore(text: &[u8]) -> Result<Map, Error> {
        // A script of no calls: what comes back is the text in the newest version.
        let text = ffi::run(text, b"", |next, answers| {
            Reader::new(answers).answers(&[])?;
            Ok(next.to_vec())
        })?;
        Ok(Map { text, party: Party::Plant })
    }

    /// As whom calls are made: the plant at first.
    pub fn party(&self) -> Party {
        self.party
    }

    /// Calls are made as this party from now on.
    ///
    /// ```
    /// use mavelino::{Map, Mark, Party};
    /// let mark = Mark { key: 1, lamport: 1, peer: 1, flags: 0x80, ..Mark::default() };
    /// let mut map = Map::open(Map::EVEN)?;
    /// map.annotate(0, 0..5, &mark)?;
    /// map.set_party(Party::Lab);
    /// assert_eq!(map.styles_at(0, 3)?, []);
    /// # Ok::<(), mavelino::Error>(())
    /// ```
    pub fn set_party(&mut self, party: Party) {
        self.party = party;
    }

    /// Makes the calls of a batch in one crossing, and answers each.
    ///
    /// An error means that none of them was made. A refused call is no such error: it has its place
    /// among the answers.
    pub fn run(&mut self, batch: &Batch) -> Result<Vec<Answer>, Error> {
        let (text, answers) = self.cross(batch, <[u8]>::to_vec)?;
        self.text = text;
        Ok(answers)
    }

    /// Every position of the range gains the mark. Refused by 1, 3, 4, 6, 14, 18, 7, 8, 17, 9 or 10,
    /// the first that applies.
    ///
    /// ```
    /// use mavelino::{Map, Mark, Refusal, Value};
    /// let mark = Mark { key: 1, lamport: 1, peer: 1, flags: 0x80, ..Mark::default() };
    /// let mut map = Map::open(Map::EVEN)?;
    /// map.annotate(0, 10..20, &mark)?;
    /// let error = map.annotate(0, 5..5, &mark).unwrap_err();
    /// assert_eq!(error.refusal(), Some(Refusal::Empty));
    /// let other = Mark { value: Value::Whole(3), ..mark };
    /// let error = map.annotate(0, 30..40, &other).unwrap_err();
    /// assert_eq!(error.refusal(), Some(Refusal::OtherContent));
    /// # Ok::<(), mavelino::Error>(())
    /// ```
    pub fn annotate(&mut self, tank: u64, range: Range<u64>, mark: &Mark) -> Result<(), Error> {
        self.edited(|batch| batch.annotate(tank, range, mark))?.accepted()
    }

    /// Puts `len` new positions before `pos`. They get what both neighbours carry, of either party;
    /// the answer is the calling party's part. Refused by 1, 16, 3, 4, 5, 9 or 10.
    ///
    /// ```
    /// use mavelino::{Map, Mark};
    /// let mark = Mark { key: 1, lamport: 1, peer: 1, flags: 0x80, ..Mark::default() };
    /// let mut map = Map::open(Map::EVEN)?;
    /// map.annotate(0, 10..20, &mark)?;
    /// assert_eq!(map.insert(0, 10, 5)?, []);
    /// assert_eq!(map.insert(0, 20, 5)?, [mark]);
    /// # Ok::<(), mavelino::Error>(())
    /// ```
    pub fn insert(&mut self, tank: u64, pos: u64, len: u64) -> Result<Vec<Mark>, Error> {
        self.edited(|batch| batch.insert(tank, pos, len))?.styles()
    }

    /// The positions of the range go. Refused by 1, 16, 3 or 4.
    ///
    /// ```
    /// use mavelino::{Map, Mark};
    /// let mark = Mark { key: 1, lamport: 1, peer: 1, flags: 0x80, ..Mark::default() };
    /// let mut map = Map::open(Map::EVEN)?;
    /// map.annotate(0, 10..20, &mark)?;
    /// map.delete(0, 0..15)?;
    /// assert_eq!(map.iter(0)?[0].range(), 0..5);
    /// # Ok::<(), mavelino::Error>(())
    /// ```
    pub fn delete(&mut self, tank: u64, range: Range<u64>) -> Result<(), Error> {
        self.edited(|batch| batch.delete(tank, range))?.accepted()
    }

    /// The longest stretch that ends at `last_index` and carries the mark loses it. The answer is its
    /// first position, or `last_index + 1` where `last_index` does not carry it. Refused by 1, 4, 17,
    /// 9 or 10.
    ///
    /// ```
    /// use mavelino::{Map, Mark};
    /// let mark = Mark { key: 1, lamport: 1, peer: 1, flags: 0x80, ..Mark::default() };
    /// let mut map = Map::open(Map::EVEN)?;
    /// map.annotate(0, 10..20, &mark)?;
    /// assert_eq!(map.remove_style_scanning_backward(0, &mark.identity(), 14)?, 10);
    /// assert_eq!(map.iter(0)?[0].range(), 15..20);
    /// # Ok::<(), mavelino::Error>(())
    /// ```
    pub fn remove_style_scanning_backward(
        &mut self,
        tank: u64,
        to_remove: &Identity,
        last_index: u64,
    ) -> Result<u64, Error> {
        self.edited(|batch| batch.remove_style_scanning_backward(tank, to_remove, last_index))?
            .number()
    }

    /// How many positions the tank has: 2^62 - 1 in a fresh one. Refused by 1.
    pub fn length(&self, tank: u64) -> Result<u64, Error> {
        self.asked(|batch| batch.length(tank))?.number()
    }

    /// How many runs of the 512 it takes, over both parties' marks. Refused by 1.
    pub fn runs(&self, tank: u64) -> Result<u64, Error> {
        self.asked(|batch| batch.runs(tank))?.number()
    }

    /// Whether a mark was ever put into the tank, by either party. Refused by 1.
    ///
    /// ```
    /// use mavelino::Map;
    /// assert!(!Map::open(Map::EVEN)?.has_style(0)?);
    /// # Ok::<(), mavelino::Error>(())
    /// ```
    pub fn has_style(&self, tank: u64) -> Result<bool, Error> {
        self.asked(|batch| batch.has_style(tank))?.yes()
    }

    /// The value that a key shows at a position: that of its mark with the greatest lamport, then
    /// peer. None without such a mark, and none where it says null. Refused by 1 or 4.
    pub fn value_at(&self, tank: u64, pos: u64, key: u16) -> Result<Option<Value>, Error> {
        self.asked(|batch| batch.value_at(tank, pos, key))?.maybe(Answer::value)
    }

    /// The marks at a position, by key, lamport and peer. Refused by 1 or 4.
    pub fn styles_at(&self, tank: u64, pos: u64) -> Result<Vec<Mark>, Error> {
        self.asked(|batch| batch.styles_at(tank, pos))?.styles()
    }

    /// From where to where the marks of a position hold. Refused by 1 or 4.
    ///
    /// ```
    /// use mavelino::{Extent, Map, Mark};
    /// let mark = Mark { key: 1, lamport: 1, peer: 1, flags: 0x80, ..Mark::default() };
    /// let mut map = Map::open(Map::EVEN)?;
    /// map.annotate(0, 10..20, &mark)?;
    /// assert_eq!(map.stretch_at(0, 12)?, Extent { first: 10, last: 19 });
    /// # Ok::<(), mavelino::Error>(())
    /// ```
    pub fn stretch_at(&self, tank: u64, pos: u64) -> Result<Extent, Error> {
        self.asked(|batch| batch.stretch_at(tank, pos))?.extent()
    }

    /// What an insertion at this index would get. Refused by 1 or 4.
    pub fn get_styles_for_insert(&self, tank: u64, index: u64) -> Result<Vec<Mark>, Error> {
        self.asked(|batch| batch.get_styles_for_insert(tank, index))?.styles()
    }

    /// The marks that all positions of the range share where they carry the same, else none. Refused
    /// by 1, 3 or 4.
    pub fn get_styles_of_range(
        &self,
        tank: u64,
        range: Range<u64>,
    ) -> Result<Option<Vec<Mark>>, Error> {
        self.asked(|batch| batch.get_styles_of_range(tank, range))?.maybe(Answer::styles)
    }

    /// Whether some position of the range has a mark with the key; no where the range is empty.
    /// Refused by 1 or 4.
    pub fn range_contains_key(
        &self,
        tank: u64,
        range: Range<u64>,
        key: u16,
    ) -> Result<bool, Error> {
        self.asked(|batch| batch.range_contains_key(tank, range, key))?.yes()
    }

    /// Whether every position of the range shows the value for the key; no where the range is empty.
    /// Refused by 1, 4 or 6.
    pub fn range_has_key_value(
        &self,
        tank: u64,
        range: Range<u64>,
        key: u16,
        value: Value,
    ) -> Result<bool, Error> {
        self.asked(|batch| batch.range_has_key_value(tank, range, key, value))?.yes()
    }

    /// The marked stretches of the tank. Refused by 1.
    ///
    /// ```
    /// use mavelino::{Map, Mark, Stretch};
    /// let mark = Mark { key: 1, lamport: 1, peer: 1, flags: 0x80, ..Mark::default() };
    /// let mut map = Map::open(Map::EVEN)?;
    /// map.annotate(0, 10..20, &mark)?;
    /// map.annotate(0, 30..40, &mark)?;
    /// let marked = map.iter(0)?;
    /// assert_eq!(marked[1], Stretch { from: 30, to: 40, marks: 1 });
    /// assert_eq!(map.styles_at(0, marked[1].from)?, [mark]);
    /// # Ok::<(), mavelino::Error>(())
    /// ```
    pub fn iter(&self, tank: u64) -> Result<Vec<Stretch>, Error> {
        self.asked(|batch| batch.iter(tank))?.stretches()
    }

    /// All stretches of a range, those without marks too, clipped to it. Refused by 1 or 4.
    pub fn iter_range(&self, tank: u64, range: Range<u64>) -> Result<Vec<Stretch>, Error> {
        self.asked(|batch| batch.iter_range(tank, range))?.stretches()
    }

    /// Where the tank's marks begin and end, by position. Refused by 1. A tank of many marks on many
    /// runs can have more than one crossing brings, some 3,000: that is [`Error::TooMuch`].
    ///
    /// ```
    /// use mavelino::{AnchorType, Map, Mark};
    /// let mark = Mark { key: 1, lamport: 1, peer: 1, flags: 0x80, ..Mark::default() };
    /// let mut map = Map::open(Map::EVEN)?;
    /// map.annotate(0, 10..20, &mark)?;
    /// let anchors = map.iter_anchors(0)?;
    /// assert_eq!((anchors[0].index, anchors[0].anchor_type), (10, AnchorType::Start));
    /// assert_eq!((anchors[1].index, anchors[1].anchor_type), (19, AnchorType::End));
    /// # Ok::<(), mavelino::Error>(())
    /// ```
    pub fn iter_anchors(&self, tank: u64) -> Result<Vec<Anchor>, Error> {
        self.asked(|batch| batch.iter_anchors(tank))?.anchors()
    }

    /// Drops the oldest positions up to `before`, at most `budget` stretches of them. The next call
    /// takes what remains for its `before`. Refused by 1, 16, 3 or 4.
    pub fn age(&mut self, tank: u64, before: u64, budget: u64) -> Result<Aged, Error> {
        self.edited(|batch| batch.age(tank, before, budget))?.aged()
    }

    /// Deletes the ranges of a plan, all of them as numbered before the call, or none: they ascend,
    /// are at most 32, hold no position with the key `hold`, and leave at most `most_runs` runs.
    /// Refused by 1, 16 or 15.
    ///
    /// ```
    /// use mavelino::{Map, Mark, Refusal};
    /// let hold = Mark { key: 7, lamport: 1, peer: 1, flags: 0x80, ..Mark::default() };
    /// let mut map = Map::open(Map::EVEN)?;
    /// map.annotate(0, 10..20, &hold)?;
    /// let error = map.apply_plan(0, &[0..11], 7, 3).unwrap_err();
    /// assert_eq!(error.refusal(), Some(Refusal::BadPlan));
    /// map.apply_plan(0, &[0..5, 25..30], 7, 3)?;
    /// # Ok::<(), mavelino::Error>(())
    /// ```
    pub fn apply_plan(
        &mut self,
        tank: u64,
        plan: &[Range<u64>],
        hold: u16,
        most_runs: u64,
    ) -> Result<(), Error> {
        self.edited(|batch| batch.apply_plan(tank, plan, hold, most_runs))?.accepted()
    }

    /// A plan that would be accepted, the oldest positions first and no more than needed, or none.
    /// Refused by 1.
    pub fn propose(
        &self,
        tank: u64,
        hold: u16,
        most_runs: u64,
    ) -> Result<Option<Vec<Range<u64>>>, Error> {
        self.asked(|batch| batch.propose(tank, hold, most_runs))?.maybe(Answer::plan)
    }

    /// 96 cells of `k` positions each from `start` on, of the plant's marks: the letter of the first
    /// key of the legend that shows a value in the cell, else a dot. Refused by 1 or 3.
    ///
    /// ```
    /// use mavelino::{Legend, Map, Mark};
    /// let mark = Mark { key: 1, lamport: 1, peer: 1, flags: 0x80, value: true.into(), cnt: 0 };
    /// let mut map = Map::open(Map::EVEN)?;
    /// map.annotate(0, 10..30, &mark)?;
    /// let strip = map.strip(0, 0, 10, &Legend::default())?;
    /// assert!(strip.starts_with(b".11..."));
    /// # Ok::<(), mavelino::Error>(())
    /// ```
    pub fn strip(
        &self,
        tank: u64,
        start: u64,
        k: u64,
        legend: &Legend,
    ) -> Result<[u8; CELLS], Error> {
        self.asked(|batch| batch.strip(tank, start, k, legend))?.strip()
    }

    /// One edit: the map is the next one where the answers could be read.
    fn edited(&mut self, call: impl FnOnce(&mut Batch) -> &mut Batch) -> Result<Answer, Error> {
        let mut batch = Batch::new();
        call(&mut batch);
        self.edit(batch)
    }

    fn edit(&mut self, batch: Batch) -> Result<Answer, Error> {
        only(self.run(&batch)?)
    }

    /// One question, which changes nothing, so the text that comes back is let go.
    fn asked(&self, call: impl FnOnce(&mut Batch) -> &mut Batch) -> Result<Answer, Error> {
        let mut batch = Batch::new();
        call(&mut batch);
        only(self.cross(&batch, |_| ())?.1)
    }

    /// A batch's answers, and of the next text what `keep` keeps.
    fn cross<T>(
        &self,
        batch: &Batch,
        keep: impl FnOnce(&[u8]) -> T,
    ) -> Result<(T, Vec<Answer>), Error> {
        // Every script starts as the plant.
        let mut whole = Batch::new();
        if self.party != Party::Plant {
            whole.set_party(self.party);
        }
        let before = whole.len();
        whole.append(batch);
        ffi::run(&self.text, whole.script(), |next, answers| {
            let answers = Reader::new(answers).answers(whole.kinds())?;
            Ok((keep(next), answers.into_iter().skip(before).collect()))
        })
    }

    pub(crate) fn text(&self) -> &[u8] {
        &self.text
    }

    pub(crate) fn replace(&mut self, text: Vec<u8>) {
        self.text = text;
    }
}

/// The answer to the only call.
fn only(answers: Vec<Answer>) -> Result<Answer, Error> {
    let mut answers = answers.into_iter();
    answers.next().ok_or_else(|| {
        let (expected, came) = ("an answer".into(), "none".into());
        Surprise { expected, came }.into()
    })
}

//! Eight tanks with shares and limits, and the answer to every call: document 01's refusal table
//! over the rules of one tank. The tests of a call stand in the order of their numbers.

use crate::answer::{Answer, Range};
use crate::call::{Call, Settings};
use crate::log::Log;
use crate::mark::{listed, only, Mark, Party, Set, PARTIES};
use crate::saved::{self, Saved};
use crate::settings::{self, Kept};
use crate::strip::{self, Legend};
use crate::tank::{self, Tank, LONGEST};

/// Runs in all.
pub const POOL: u64 = 512;
/// Different marks that one tank carries at most, and how many of them each party is assured.
pub const MARKS: usize = 64;
pub const ASSURED: [usize; 2] = [32, 16];
/// The flag bytes that an annotate may carry.
pub const FLAGS: [u8; 3] = [0x80, 0x84, 0x86];
/// The flag byte of Before, which an annotate no longer may carry.
pub const RETIRED: u8 = 0x82;
/// The console's own buffers, in u64 and in anchor records.
const STRETCH_ROOM: u64 = 1536;
const ANCHOR_ROOM: u64 = 32768;
/// So many pending ranges make a plan that is too long, and no more are counted.
const PENDING: usize = 33;

#[derive(Clone, Debug, PartialEq)]
pub struct Tanks {
    pub settings: Settings,
    pub tanks: [Tank; 8],
    pub kept: Kept,
    pub log: Log,
    /// The ranges of the next plan; no more than `PENDING` are counted.
    pub pending: Vec<Range>,
    pub legend: Legend,
    /// As whom calls are made.
    pub party: Party,
}

impl Default for Tanks {
    fn default() -> Self {
        Self {
            settings: [(1, 1); 8],
            tanks: Default::default(),
            kept: Kept::default(),
            log: Log::default(),
            pending: Vec::new(),
            legend: strip::FIRST,
            party: Party::Plant,
        }
    }
}

/// A refusal's number ends the call.
type Judged<A> = Result<A, u8>;

fn refuse_if(applies: bool, number: u8) -> Judged<()> {
    if applies {
        Err(number)
    } else {
        Ok(())
    }
}

impl Tanks {
    /// Carries a call out and answers it.
    pub fn call(&mut self, call: &Call) -> Answer {
        self.judged(call).unwrap_or_else(Answer::Refused)
    }

    fn judged(&mut self, call: &Call) -> Judged<Answer> {
        match call {
            Call::Open { settings } => return self.open(*settings),
            Call::Settings { body } => return Ok(self.kept.take(settings::pairs_of(body))),
            Call::Log { body } => return Ok(self.log(body)),
            Call::LogEnd => return Ok(self.log.end()),
            Call::Set { number } => {
                return Ok(self.kept.set(*number).map_or(Answer::None, Answer::Pairs))
            }
            Call::OpenSet { number } => {
                return self.kept.set(*number).map_or(Ok(Answer::None), |set| self.open(set))
            }
            Call::Range { start, end } => return Ok(self.range(*start, *end)),
            Call::Legend { place, key, letter } => {
                self.legend[*place as usize] = (*key, *letter);
                return Ok(Answer::Accepted);
            }
            Call::Party { party } => {
                self.party = *party;
                return Ok(Answer::Accepted);
            }
            Call::Plan { tank, hold, runs } => return self.plan(*tank, *hold, *runs),
            Call::Save { room } => return self.save(*room),
            Call::SaveNeeded => return Ok(Answer::Needed(self.text().len() as u64)),
            Call::Restore { body } => return Ok(self.restore(saved::read(body, ""))),
            _ => {}
        }
        let tank = call.tank().expect("an edit and a question name a tank");
        refuse_if(tank >= 8, 1)?;
        let moves = matches!(call, Call::Insert { .. } | Call::Delete { .. } | Call::Age { .. });
        refuse_if(moves && self.party == Party::Lab, 16)?;
        let who = self.party;
        match *call {
            Call::Annotate { start, end, mark, .. } => self.annotate(tank, start, end, mark),
            Call::Insert { at, len, .. } => self.insert(tank, at, len),
            Call::Delete { start, end, .. } => {
                self.edit_range(tank, start, end)?;
                self.edit(tank, |t| t.delete(start, end))?;
                Ok(Answer::Accepted)
            }
            Call::Remove { id, last, .. } => {
                refuse_if(last >= self.tank(tank).length, 4)?;
                Ok(Answer::First(self.edit(tank, |t| t.remove(who, id, last))?))
            }
            Call::Age { before, budget, .. } => {
                refuse_if(budget == 0, 3)?;
                refuse_if(before > self.tank(tank).length, 4)?;
                Ok(Answer::Aged(self.edit(tank, |t| t.age(before, budget))?))
            }
            _ => self.asked(tank, call),
        }
    }

    fn tank(&self, tank: u64) -> &Tank {
        &self.tanks[tank as usize]
    }

    fn open(&mut self, settings: Settings) -> Judged<Answer> {
        self.settings = [(1, 1); 8];
        self.tanks = Default::default();
        let pair = |&(share, limit): &(u64, u64)| 1 <= share && share <= limit && limit <= POOL;
        refuse_if(!settings.iter().all(pair), 2)?;
        refuse_if(settings.iter().map(|pair| pair.0).sum::<u64>() > POOL, 2)?;
        self.settings = settings;
        Ok(Answer::Accepted)
    }

    /// A read of the log, whose edits are this state's, and the plant's.
    fn log(&mut self, read: &[u8]) -> Answer {
        let mut log = std::mem::take(&mut self.log);
        let who = std::mem::replace(&mut self.party, Party::Plant);
        let answer = log.take(read, |call| self.call(call));
        self.party = who;
        self.log = log;
        answer
    }

    fn range(&mut self, start: u64, end: u64) -> Answer {
        if self.pending.len() < PENDING {
            self.pending.push(Range { start, end });
        }
        Answer::Pending(self.pending.len() as u64)
    }

    /// Submits the pending ranges. Limits and the pool have no say: deleting adds no run.
    fn plan(&mut self, tank: u64, hold: u16, runs: u64) -> Judged<Answer> {
        let ranges = std::mem::take(&mut self.pending);
        refuse_if(tank >= 8, 1)?;
        refuse_if(self.party == Party::Lab, 16)?;
        let after = self.tank(tank).planned(hold, runs, &ranges).ok_or(15)?;
        self.tanks[tank as usize] = after;
        Ok(Answer::Accepted)
    }

    /// Settings and all tanks as a text of the newest version, whoever asks.
    pub fn text(&self) -> Vec<u8> {
        saved::text_of(saved::NEWEST, &self.settings, &self.tanks)
    }

    fn save(&self, room: u64) -> Judged<Answer> {
        let text = self.text();
        refuse_if(text.len() as u64 > room, 11)?;
        Ok(Answer::Saved(text))
    }

    /// What a text said takes the place of settings and tanks, and of nothing else.
    pub fn restore(&mut self, read: Result<Saved, u64>) -> Answer {
        match read {
            Err(line) => Answer::WrongLine(line),
            Ok(Saved { settings, tanks }) => {
                (self.settings, self.tanks) = (settings, tanks);
                Answer::Accepted
            }
        }
    }

    fn edit_range(&self, tank: u64, start: u64, end: u64) -> Judged<()> {
        refuse_if(start >= end, 3)?;
        refuse_if(end > self.tank(tank).length, 4)
    }

    fn annotate(&mut self, tank: u64, start: u64, end: u64, mark: Mark) -> Judged<Answer> {
        self.edit_range(tank, start, end)?;
        refuse_if(mark.content.value.is_nan(), 6)?;
        let flags = mark.content.flags;
        refuse_if(flags != RETIRED && !FLAGS.contains(&flags), 14)?;
        refuse_if(flags == RETIRED, 18)?;
        let carried = self.tank(tank).carried();
        let who = self.party;
        let known = carried.get(&(who, mark.id));
        refuse_if(known.is_some_and(|content| *content != mark.content), 7)?;
        refuse_if(known.is_none() && crowded(who, &carried), 8)?;
        self.edit(tank, |t| t.annotate(who, start, end, mark))?;
        Ok(Answer::Accepted)
    }

    fn insert(&mut self, tank: u64, at: u64, len: u64) -> Judged<Answer> {
        refuse_if(len == 0, 3)?;
        let Tank { length, touched, .. } = *self.tank(tank);
        refuse_if(at > length, 4)?;
        refuse_if(touched && len > LONGEST - length, 5)?;
        let inherited = self.edit(tank, |t| t.insert(at, len))?;
        Ok(Answer::Marks(listed(&only(Party::Plant, &inherited))))
    }

    /// Tries an edit on a copy of the tank, and keeps it where the runs after it are allowed.
    fn edit<A>(&mut self, tank: u64, edit: impl FnOnce(&mut Tank) -> A) -> Judged<A> {
        let mut after = self.tank(tank).clone();
        let answer = edit(&mut after);
        let (share, limit) = self.settings[tank as usize];
        let (held, runs) = (self.tank(tank).runs(), after.runs());
        refuse_if(self.party == Party::Lab && runs > held && runs > share, 17)?;
        refuse_if(runs > limit, 9)?;
        let before = std::mem::replace(&mut self.tanks[tank as usize], after);
        if self.pooled() > POOL {
            self.tanks[tank as usize] = before;
            return Err(10);
        }
        Ok(answer)
    }

    /// The sum, over tanks, of the larger of runs held and share.
    pub fn pooled(&self) -> u64 {
        let larger = |(tank, pair): (&Tank, &(u64, u64))| tank.runs().max(pair.0);
        self.tanks.iter().zip(&self.settings).map(larger).sum()
    }

    fn asked(&self, number: u64, call: &Call) -> Judged<Answer> {
        let joint = self.tank(number);
        let tank = joint.shown_to(self.party);
        let position = |at: u64| refuse_if(at >= tank.length, 4);
        let place = |at: u64| refuse_if(at > tank.length, 4);
        let inside = |start: u64, end: u64| refuse_if(start < end && end > tank.length, 4);
        Ok(match *call {
            Call::Length { .. } => Answer::Length(tank.length),
            Call::Touched { .. } => Answer::Touched(tank.touched),
            Call::Runs { .. } => Answer::Runs(joint.runs()),
            Call::Value { at, key, .. } => {
                position(at)?;
                tank.value(at, key).map_or(Answer::None, Answer::Value)
            }
            Call::HasKey { start, end, key, .. } => {
                inside(start, end)?;
                Answer::Yes(tank.has_key(start, end, key))
            }
            Call::AllValue { start, end, key, value, .. } => {
                inside(start, end)?;
                refuse_if(start < end && value.is_nan(), 6)?;
                Answer::Yes(tank.all_value(start, end, key, value))
            }
            Call::Same { start, end, .. } => {
                self.edit_range(number, start, end)?;
                tank.same(start, end).map_or(Answer::None, |set| Answer::Marks(listed(&set)))
            }
            Call::Marks { at, .. } => {
                position(at)?;
                Answer::Marks(listed(tank.at(at)))
            }
            Call::Mark { at, rank, .. } => {
                position(at)?;
                ranked(tank.at(at), rank)
            }
            Call::Inherit { at, .. } => {
                place(at)?;
                Answer::Marks(listed(&tank.inherited(at)))
            }
            Call::Inherited { at, rank, .. } => {
                place(at)?;
                ranked(&tank.inherited(at), rank)
            }
            Call::Stretches { start, end, room, .. } => {
                inside(start, end)?;
                lent(number, &tank.stretches(start, end), room)?
            }
            Call::StretchesNeeded { start, end, .. } => {
                inside(start, end)?;
                Answer::Needed(3 * tank.stretches(start, end).len() as u64)
            }
            Call::Whole { room, .. } => lent(number, &tank.whole(), room)?,
            Call::WholeNeeded { .. } => Answer::Needed(3 * tank.whole().len() as u64),
            Call::Anchors { room, .. } => {
                let list = tank.anchors();
                refuse_if(list.len() as u64 > room.min(ANCHOR_ROOM), 11)?;
                Answer::Anchors(list)
            }
            Call::Find { at, .. } => {
                position(at)?;
                Answer::Extent(tank.find(at))
            }
            Call::Strip { start, k, room, .. } => {
                refuse_if(k == 0, 3)?;
                refuse_if(room < strip::CELLS as u64, 11)?;
                Answer::Strip(strip::cells(&joint.shown_to(Party::Plant), &self.legend, start, k))
            }
            Call::Propose { hold, runs, .. } => {
                joint.proposed(hold, runs).map_or(Answer::None, Answer::Plan)
            }
            Call::Open { .. }
            | Call::Range { .. }
            | Call::Plan { .. }
            | Call::Legend { .. }
            | Call::Party { .. }
            | Call::Settings { .. }
            | Call::Set { .. }
            | Call::OpenSet { .. }
            | Call::Log { .. }
            | Call::LogEnd
            | Call::Save { .. }
            | Call::SaveNeeded
            | Call::Restore { .. }
            | Call::Annotate { .. }
            | Call::Insert { .. }
            | Call::Delete { .. }
            | Call::Remove { .. }
            | Call::Age { .. } => unreachable!("no question of a tank"),
        })
    }
}

/// Whether one more mark of a party leaves the other without the room that it is assured.
fn crowded(who: Party, carried: &Set) -> bool {
    let counted = |party: Party| only(party, carried).len() + (party == who) as usize;
    let needed = PARTIES.map(|party| counted(party).max(ASSURED[party as usize]));
    needed.iter().sum::<usize>() > MARKS
}

fn ranked(set: &Set, rank: u64) -> Answer {
    let place = usize::try_from(rank).unwrap_or(usize::MAX);
    listed(set).get(place).map_or(Answer::None, |mark| Answer::Mark(*mark))
}

fn lent(tank: u64, stretches: &[tank::Stretch], room: u64) -> Judged<Answer> {
    refuse_if(3 * stretches.len() as u64 > room.min(STRETCH_ROOM), 11)?;
    Ok(Answer::Stretches(tank, tank::listed(stretches)))
}

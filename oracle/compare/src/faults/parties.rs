//! Faults of a console that knows two parties.

use super::Faulty;
use crate::answer::{Aged, Answer, Listed};
use crate::call::Call;
use crate::mark::{listed, only, Id, Party, Set};
use crate::strip;
use crate::tank::{Stretch, Tank};
use crate::tanks::{Tanks, ASSURED, MARKS};

/// An edit that is no worse than refused by 7 and the numbers behind it, tried on a copy.
struct Tried {
    who: Party,
    id: Id,
    before: Tank,
    after: Tank,
    /// What it is answered where it is accepted.
    told: Answer,
}

impl Tried {
    fn rises(&self) -> bool {
        self.after.runs() > self.before.runs()
    }
}

fn other(who: Party) -> Party {
    match who {
        Party::Plant => Party::Lab,
        Party::Lab => Party::Plant,
    }
}

/// The marks of a party, or those that it is assured.
fn counted(who: Party, carried: &Set) -> usize {
    only(who, carried).len().max(ASSURED[who as usize])
}

impl Faulty {
    /// The call as another party makes it.
    fn as_party(&mut self, who: Party, call: &Call) -> Answer {
        let party = std::mem::replace(&mut self.tanks.party, who);
        let answer = self.tanks.call(call);
        self.tanks.party = party;
        answer
    }

    /// Faults that answer without carrying the call out as the party that makes it.
    pub(super) fn party_instead(&mut self, call: &Call) -> Option<Answer> {
        if !self.fault.starts_with("party-") {
            return None;
        }
        let lab = self.tanks.party == Party::Lab;
        match (self.fault.as_str(), call) {
            ("party-insert", Call::Insert { .. }) if lab => Some(self.as_party(Party::Plant, call)),
            ("party-late", Call::Insert { .. } | Call::Delete { .. } | Call::Age { .. }) if lab => {
                let before = self.tanks.clone();
                let answer = self.as_party(Party::Plant, call);
                self.tanks = before;
                matches!(answer, Answer::Refused(3..=5)).then_some(answer)
            }
            ("party-log", Call::Log { body }) if lab => {
                let mut log = std::mem::take(&mut self.tanks.log);
                let answer = log.take(body, |call| self.tanks.call(call));
                self.tanks.log = log;
                Some(answer)
            }
            ("party-hold", &Call::Plan { tank, hold, .. }) if !lab && tank < 8 => {
                let ranges = &self.tanks.pending;
                let free = |tank: &Tank| tank.planned(hold, u64::MAX, ranges).is_some();
                let held = !free(&self.tanks.tanks[tank as usize]) && free(&self.plants(tank));
                held.then(|| {
                    self.tanks.pending.clear();
                    Answer::Accepted
                })
            }
            ("party-propose", &Call::Propose { tank, hold, runs }) if tank < 8 => {
                let plan = self.plants(tank).proposed(hold, runs);
                Some(plan.map_or(Answer::None, Answer::Plan))
            }
            ("party-age", &Call::Age { tank, before, .. }) if !lab && tank < 8 => {
                Some(self.aged_alone(tank, before, call))
            }
            ("party-takes", &Call::Remove { tank, id, last }) if tank < 8 => {
                let tank = &self.tanks.tanks[tank as usize];
                let carries = |who| last < tank.length && tank.at(last).contains_key(&(who, id));
                let (who, other) = (self.tanks.party, other(self.tanks.party));
                (!carries(who) && carries(other)).then(|| self.as_party(other, call))
            }
            (_, Call::Annotate { .. } | Call::Remove { .. }) => self.party_edit(call),
            _ => self.party_asked(call),
        }
    }

    /// Ages by the stretches of the plant's marks alone; what is deleted is deleted of both.
    fn aged_alone(&mut self, tank: u64, before: u64, call: &Call) -> Answer {
        let joint = self.tanks.clone();
        self.tanks.tanks[tank as usize] = self.plants(tank).into_owned();
        let told = self.tanks.call(call);
        self.tanks = joint;
        if let Answer::Aged(Aged { dropped: 1.., remaining }) = told {
            self.tanks.tanks[tank as usize].delete(0, before - remaining);
        }
        told
    }

    /// Faults in what an annotate and a removal are refused by.
    fn party_edit(&mut self, call: &Call) -> Option<Answer> {
        let place = call.tank().filter(|tank| *tank < 8)? as usize;
        let answer = self.tanks.clone().call(call);
        let tried = self.tried(place, call, &answer)?;
        match self.misjudged(place, call, &answer, &tried)? {
            Ok(()) => {
                self.tanks.tanks[place] = tried.after;
                Some(tried.told)
            }
            Err(number) => Some(Answer::Refused(number)),
        }
    }

    fn tried(&self, place: usize, call: &Call, answer: &Answer) -> Option<Tried> {
        let who = self.tanks.party;
        let before = self.tanks.tanks[place].clone();
        let mut after = before.clone();
        let (told, id) = match (call, answer) {
            (_, Answer::Refused(1..=6 | 14 | 18)) => return None,
            (&Call::Annotate { start, end, mark, .. }, _) => {
                after.annotate(who, start, end, mark);
                (Answer::Accepted, mark.id)
            }
            (&Call::Remove { id, last, .. }, _) => (Answer::First(after.remove(who, id, last)), id),
            _ => return None,
        };
        Some(Tried { who, id, before, after, told })
    }

    /// The wrong judgement where there is one: accepted, or refused by a number.
    fn misjudged(
        &self,
        place: usize,
        call: &Call,
        answer: &Answer,
        tried: &Tried,
    ) -> Option<Result<(), u8>> {
        let (share, limit) = self.tanks.settings[place];
        let (lab, other) = (tried.who == Party::Lab, other(tried.who));
        let (rises, runs) = (tried.rises(), tried.after.runs());
        let carried = tried.before.carried();
        let room = || counted(tried.who, &carried) + counted(other, &carried) <= MARKS;
        let clashes = |content| match call {
            Call::Annotate { mark, .. } => mark.content != content,
            _ => false,
        };
        let accepted = matches!(answer, Answer::Accepted | Answer::First(_));
        match (self.fault.as_str(), answer) {
            ("party-sum", Answer::Refused(8)) if carried.len() < MARKS => Some(Ok(())),
            ("party-before", Answer::Refused(8)) if room() => Some(Ok(())),
            ("party-plant-room", Answer::Refused(8)) if !lab && carried.len() < MARKS => {
                Some(Ok(()))
            }
            ("party-known", Answer::Refused(8)) if carried.contains_key(&(other, tried.id)) => {
                Some(Ok(()))
            }
            ("party-clash", Answer::Accepted) => {
                let theirs = carried.get(&(other, tried.id)).copied();
                theirs.is_some_and(clashes).then_some(Err(7))
            }
            ("party-falls", _) if accepted && lab && runs > share => Some(Err(17)),
            ("party-reaches", _) if accepted && lab && rises && runs == share => Some(Err(17)),
            ("party-plant-17", _) if accepted && !lab && rises && runs > share => Some(Err(17)),
            ("party-removal", Answer::Refused(17)) if matches!(call, Call::Remove { .. }) => {
                Some(Ok(()))
            }
            ("party-nine", Answer::Refused(17)) if runs > limit => Some(Err(9)),
            ("party-eight", Answer::Refused(8)) if lab && rises && runs > share => Some(Err(17)),
            _ => None,
        }
    }

    /// Faults in what a party is shown.
    fn party_asked(&mut self, call: &Call) -> Option<Answer> {
        let tank = call.tank().filter(|tank| *tank < 8)?;
        let lab = self.tanks.party == Party::Lab;
        let joint = &self.tanks.tanks[tank as usize];
        match (self.fault.as_str(), call, self.tanks.clone().call(call)) {
            (_, _, Answer::Refused(_)) => None,
            ("party-ignored", _, _) if lab => Some(self.as_party(Party::Plant, call)),
            ("party-extent", &Call::Find { at, .. }, _) => Some(Answer::Extent(joint.find(at))),
            ("party-anchors", Call::Anchors { .. }, _) => Some(Answer::Anchors(joint.anchors())),
            ("party-wins", &Call::Value { at, key, .. }, _) if !lab => {
                Some(joint.value(at, key).map_or(Answer::None, Answer::Value))
            }
            ("party-key", &Call::HasKey { start, end, key, .. }, _) => {
                Some(Answer::Yes(joint.has_key(start, end, key)))
            }
            ("party-value", &Call::AllValue { start, end, key, value, .. }, _) => {
                Some(Answer::Yes(joint.all_value(start, end, key, value)))
            }
            ("party-marks", &Call::Marks { at, .. }, _) => {
                Some(Answer::Marks(listed(joint.at(at))))
            }
            ("party-rank", &Call::Mark { at, rank, .. }, _) => {
                let mark = listed(joint.at(at)).get(rank as usize).copied();
                Some(mark.map_or(Answer::None, Answer::Mark))
            }
            ("party-inherits", &Call::Inherit { at, .. }, _) => {
                Some(Answer::Marks(listed(&joint.inherited(at))))
            }
            ("party-same", &Call::Same { start, end, .. }, Answer::Marks(_)) => {
                joint.same(start, end).is_none().then_some(Answer::None)
            }
            ("party-runs", Call::Runs { .. }, _) => {
                Some(Answer::Runs(joint.shown_to(self.tanks.party).runs()))
            }
            ("party-set", &Call::Insert { at, .. }, _) => {
                let marks = listed(&joint.inherited(at));
                self.tanks.call(call);
                Some(Answer::Marks(marks))
            }
            ("party-strip", &Call::Strip { start, k, .. }, _) if lab => {
                let shown = joint.shown_to(Party::Lab);
                Some(Answer::Strip(strip::cells(&shown, &self.tanks.legend, start, k)))
            }
            _ => self.party_listed(tank, call),
        }
    }

    /// Faults in lists: the stretches are joint, only the count of marks is the party's own.
    fn party_listed(&self, tank: u64, call: &Call) -> Option<Answer> {
        let joint = &self.tanks.tanks[tank as usize];
        let own = |s: &Stretch| Listed {
            from: s.from,
            to: s.to,
            marks: only(self.tanks.party, &s.set).len() as u64,
        };
        let list = match *call {
            Call::Stretches { start, end, .. } | Call::StretchesNeeded { start, end, .. } => {
                joint.stretches(start, end).iter().map(own).collect::<Vec<Listed>>()
            }
            Call::Whole { .. } | Call::WholeNeeded { .. } => {
                joint.whole().iter().map(own).filter(|listed| listed.marks > 0).collect()
            }
            _ => return None,
        };
        match (self.fault.as_str(), call) {
            ("party-joint", Call::Stretches { .. } | Call::Whole { .. }) => {
                Some(Answer::Stretches(tank, list))
            }
            ("party-needed", Call::StretchesNeeded { .. } | Call::WholeNeeded { .. }) => {
                Some(Answer::Needed(3 * list.len() as u64))
            }
            _ => None,
        }
    }

    /// Faults in what an accepted call leaves of the parties.
    pub(super) fn party_afterwards(&mut self, call: &Call, before: &Tanks) {
        match (self.fault.as_str(), call) {
            ("party-open", Call::Open { .. } | Call::OpenSet { .. }) => {
                self.tanks.party = Party::Plant;
            }
            ("party-inherit", &Call::Insert { tank, at, len }) => self.disinherit(tank, at, len),
            ("party-stays", &Call::Insert { tank, .. }) => {
                let old = before.tanks[tank as usize].shown_to(Party::Lab);
                let mut other = self.plants(tank).into_owned();
                for stretch in old.whole() {
                    for mark in listed(&stretch.set) {
                        other.annotate(Party::Lab, stretch.from, stretch.to, mark);
                    }
                }
                self.tanks.tanks[tank as usize] = other;
            }
            ("party-untouched", &Call::Annotate { tank, .. }) if before.party == Party::Lab => {
                let tank = tank as usize;
                self.tanks.tanks[tank].touched = before.tanks[tank].touched;
            }
            _ => {}
        }
    }

    /// Takes the laboratory's marks off new positions again.
    fn disinherit(&mut self, tank: u64, at: u64, len: u64) {
        let tank = &mut self.tanks.tanks[tank as usize];
        if !tank.touched {
            return;
        }
        for mark in listed(&only(Party::Lab, tank.at(at))) {
            let first = tank.remove(Party::Lab, mark.id, at + len - 1);
            if first < at {
                tank.annotate(Party::Lab, first, at, mark);
            }
        }
    }
}

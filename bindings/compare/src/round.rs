//! A round: the scripts of the comparison, each through a map of its own.

use std::ops::Range;

use compare::answer::Answer;
use compare::call::Call;
use compare::check::{answers, Expected, Mismatch};
use compare::classes::CLASSES;
use compare::exhaust::{self, Asked, Start};
use compare::script::Script;
use compare::tally::Tally;
use compare::{cases, counters, logs, parties, plans, refusals, saves, sets, strips};

use crate::driver::{Came, Driver};

/// How many calls a batch has, by a script's seed and place.
const BATCHES: [usize; 4] = [1, 3, 17, 200];

/// What parts, in words.
pub struct Found {
    pub script: Script,
    pub call: usize,
    pub expected: String,
    pub got: String,
}

/// The scripts of a round, by their class.
pub fn scripts(seeds: Range<u64>, calls: usize) -> Vec<Script> {
    let fixed = |class, calls| Script { class, seed: 0, calls, tail: Vec::new() };
    let mut list = vec![
        fixed("cases", cases::cases()),
        fixed("refusals", refusals::refusals()),
        fixed("letters", strips::letters()),
    ];
    list.extend(saves::damaged());
    list.extend(saves::restored());
    list.extend(sets::scripts());
    list.extend(logs::scripts());
    list.extend(plans::scripts().step_by(7));
    list.extend(counters::scripts());
    list.extend(parties::scripts());
    for class in &CLASSES {
        list.extend(seeds.clone().map(|seed| class.script(seed, calls)));
    }
    list.extend(exhaust::scripts(Start::Fresh, Asked::All, 2, 1));
    list.extend(exhaust::both(Start::Short, Asked::All, 1));
    list
}

/// A script with what was expected and what came.
pub struct Driven {
    script: Script,
    expected: Vec<Expected>,
    pub came: Vec<Came>,
    tally: Tally,
}

/// Makes the calls of a script; its place says how many are made at once.
pub fn drive(place: usize, script: Script) -> Result<Driven, Box<Found>> {
    let script = Script { calls: script.calls.into_iter().map(roomy).collect(), ..script };
    let mut tally = Tally::default();
    let expected = answers(0, &script, &mut tally).map_err(|found| parted(&script, found))?;
    let texts: Vec<Vec<u8>> = expected.iter().map(|entry| entry.answer.clone()).collect();
    let batch = BATCHES[(place + script.seed as usize) % BATCHES.len()];
    let driven = Driver::new().and_then(|mut map| map.script(&script.calls, &texts, batch));
    let came = driven.map_err(|error| {
        let (expected, got) = ("answers to all calls".into(), error.to_string());
        Found { script: script.clone(), call: script.calls.len(), expected, got }
    })?;
    Ok(Driven { script, expected, came, tally })
}

impl Driven {
    /// The first call whose answer is not the expected one. Calls that the crate was not asked have
    /// none.
    pub fn difference(&self, came: &[Came]) -> Option<usize> {
        let parts = |(entry, came): (&Expected, &Came)| {
            came.as_ref().is_some_and(|came| came.bytes() != entry.answer)
        };
        self.expected.iter().zip(came).position(parts)
    }

    /// Compares every answer, and counts them.
    pub fn judged(mut self) -> Result<Tally, Box<Found>> {
        if let Some(call) = self.difference(&self.came) {
            let expected = String::from_utf8_lossy(&self.expected[call].answer).into_owned();
            let got = self.came[call].as_ref().map_or(String::new(), Answer::to_string);
            return Err(Found { script: self.script, call, expected, got }.into());
        }
        for (entry, _) in self.expected.iter().zip(&self.came).filter(|pair| pair.1.is_some()) {
            self.tally.count(entry.kind.clone(), entry.rust);
        }
        self.tally.scripts = 1;
        Ok(self.tally)
    }
}

fn parted(script: &Script, found: Mismatch) -> Found {
    let Mismatch { call, expected, got, .. } = found;
    Found { script: script.clone(), call, expected, got: format!("{} says {got}", found.judge) }
}

/// The crate lends all the room that there can be.
fn roomy(call: Call) -> Call {
    let room = u64::MAX;
    match call {
        Call::Stretches { tank, start, end, .. } => Call::Stretches { tank, start, end, room },
        Call::Whole { tank, .. } => Call::Whole { tank, room },
        Call::Anchors { tank, .. } => Call::Anchors { tank, room },
        Call::Strip { tank, start, k, .. } => Call::Strip { tank, start, k, room },
        Call::Save { .. } => Call::Save { room },
        other => other,
    }
}

//! A script's calls made on a `mavelino::Map`, and what each was answered.

use std::collections::BTreeMap;
use std::ops::Range;

use compare::answer::Answer;
use compare::call::{Call, Settings};
use mavelino::{Batch, Error, Legend, Log, Map, Party, Setting};

use crate::words;

/// What the crate said to a call, if it was asked: it has no call for some.
pub type Came = Option<Answer>;

/// A map, and what the console keeps beside its tanks and a caller of the crate holds by itself.
pub struct Driver {
    map: Map,
    /// As whom calls are made; the map's own party follows it.
    party: Party,
    log: Log,
    pending: Vec<Range<u64>>,
    legend: [(u16, u8); 8],
    /// Settings texts by their numbers.
    sets: BTreeMap<u64, Vec<u8>>,
}

/// How the console starts, and what a refused opening leaves.
const LEAST: Settings = [(1, 1); 8];

fn opened(settings: &Settings) -> Result<Map, Error> {
    Map::open(settings.map(|(share, limit)| Setting { share, limit }))
}

impl Driver {
    pub fn new() -> Result<Self, Error> {
        let legend = std::array::from_fn(|place| (place as u16, b'0' + place as u8));
        Ok(Self {
            map: opened(&LEAST)?,
            party: Party::Plant,
            log: Log::new(),
            pending: Vec::new(),
            legend,
            sets: BTreeMap::new(),
        })
    }

    /// Makes the calls, so many in a batch; one at a time by the map's own methods. `expected` is
    /// what the numbers of settings texts are taken from.
    pub fn script(
        &mut self,
        calls: &[Call],
        expected: &[Vec<u8>],
        batch: usize,
    ) -> Result<Vec<Came>, Error> {
        let mut came = Vec::new();
        let mut at = 0;
        while at < calls.len() {
            let together = calls[at..].iter().take(batch).take_while(|call| crosses(call)).count();
            if together > 1 {
                self.together(&calls[at..at + together], &mut came)?;
                at += together;
            } else {
                came.push(self.alone(&calls[at], &expected[at])?);
                at += 1;
            }
        }
        Ok(came)
    }

    /// In one crossing, or where the answers are too long for one, in two halves.
    fn together(&mut self, calls: &[Call], came: &mut Vec<Came>) -> Result<(), Error> {
        let (pending, legend, party) = (self.pending.clone(), self.legend, self.party);
        let mut batch = Batch::new();
        let asked: Vec<bool> = calls.iter().map(|call| self.put(&mut batch, call)).collect();
        self.map.set_party(party);
        match self.map.run(&batch) {
            Ok(answers) => {
                let mut answers = answers.into_iter();
                for (call, asked) in calls.iter().zip(asked) {
                    let answer = if asked { answers.next() } else { None };
                    came.push(answer.map(|answer| said(call, answer)));
                }
                Ok(())
            }
            Err(Error::TooMuch) if calls.len() > 1 => {
                (self.pending, self.legend, self.party) = (pending, legend, party);
                let (front, back) = calls.split_at(calls.len() / 2);
                self.together(front, came)?;
                self.together(back, came)
            }
            Err(error) => Err(error),
        }
    }

    /// Puts a call into a batch, if it is one for the crate; what is kept beside the tanks is kept.
    fn put(&mut self, batch: &mut Batch, call: &Call) -> bool {
        match *call {
            Call::Annotate { tank, start, end, mark } => {
                batch.annotate(tank, start..end, &words::mark(mark))
            }
            Call::Insert { tank, at, len } => batch.insert(tank, at, len),
            Call::Delete { tank, start, end } => batch.delete(tank, start..end),
            Call::Remove { tank, id, last } => {
                batch.remove_style_scanning_backward(tank, &words::identity(id), last)
            }
            Call::Length { tank } => batch.length(tank),
            Call::Touched { tank } => batch.has_style(tank),
            Call::Runs { tank } => batch.runs(tank),
            Call::Value { tank, at, key } => batch.value_at(tank, at, key),
            Call::HasKey { tank, start, end, key } => {
                batch.range_contains_key(tank, start..end, key)
            }
            Call::AllValue { tank, start, end, key, value } => {
                batch.range_has_key_value(tank, start..end, key, words::value(value))
            }
            Call::Same { tank, start, end } => batch.get_styles_of_range(tank, start..end),
            Call::Marks { tank, at } | Call::Mark { tank, at, .. } => batch.styles_at(tank, at),
            Call::Inherit { tank, at } | Call::Inherited { tank, at, .. } => {
                batch.get_styles_for_insert(tank, at)
            }
            Call::Stretches { tank, start, end, .. }
            | Call::StretchesNeeded { tank, start, end } => batch.iter_range(tank, start..end),
            Call::Whole { tank, .. } | Call::WholeNeeded { tank } => batch.iter(tank),
            Call::Anchors { tank, .. } => batch.iter_anchors(tank),
            Call::Find { tank, at } => batch.stretch_at(tank, at),
            Call::Age { tank, before, budget } => batch.age(tank, before, budget),
            Call::Plan { tank, hold, runs } => {
                let plan = std::mem::take(&mut self.pending);
                batch.apply_plan(tank, &plan, hold, runs)
            }
            Call::Propose { tank, hold, runs } => batch.propose(tank, hold, runs),
            Call::Strip { tank, start, k, .. } => batch.strip(tank, start, k, &self.legend()),
            Call::Party { party } => {
                self.party = words::party(party);
                batch.set_party(self.party)
            }
            _ => {
                self.keep(call);
                return false;
            }
        };
        true
    }

    /// What a caller of the crate holds by itself until it is needed.
    fn keep(&mut self, call: &Call) {
        match *call {
            Call::Range { start, end } => self.pending.push(start..end),
            Call::Legend { place, key, letter } => self.legend[place as usize] = (key, letter),
            _ => {}
        }
    }

    fn legend(&self) -> Legend {
        Legend::new(self.legend).expect("a letter of a script is no newline")
    }

    /// One call, by the map's own method.
    fn alone(&mut self, call: &Call, expected: &[u8]) -> Result<Came, Error> {
        self.map.set_party(self.party);
        let answer = match call {
            Call::Range { .. } | Call::Legend { .. } => {
                self.keep(call);
                return Ok(None);
            }
            Call::Party { party } => {
                self.party = words::party(*party);
                return Ok(None);
            }
            Call::Set { .. } => return Ok(None),
            Call::Open { .. } | Call::Settings { .. } | Call::OpenSet { .. } => {
                return self.opening(call, expected)
            }
            Call::Restore { body } => {
                let came = Map::restore(body).map(|map| self.map = map);
                words::judged(came, |()| Answer::Accepted)
            }
            Call::Log { body } => words::judged(self.map.feed(&mut self.log, body), words::report),
            Call::LogEnd => Ok(words::report(std::mem::take(&mut self.log).end())),
            Call::Save { .. } => Ok(Answer::Saved(self.map.save().to_vec())),
            Call::SaveNeeded => Ok(Answer::Needed(self.map.save().len() as u64)),
            _ => self.edit_or_ask(call),
        };
        answer.map(Some)
    }

    /// Openings by pairs and by a text. A text that reads well is opened with at once, to see that it
    /// does; its number is the comparison's, since the crate numbers no texts.
    fn opening(&mut self, call: &Call, expected: &[u8]) -> Result<Came, Error> {
        let came = match call {
            Call::Open { settings } => opened(settings),
            Call::OpenSet { number } => match self.sets.get(number) {
                Some(text) if expected != b"none=1\n" => Map::open_text(text),
                _ => return Ok(None),
            },
            Call::Settings { body } => {
                let number = expected.strip_prefix(b"set=").unwrap_or_default();
                let number = std::str::from_utf8(number).unwrap_or_default().trim_end().parse();
                return match (Map::open_text(body), number) {
                    (Ok(_) | Err(Error::Refused(_)), Ok(number)) => {
                        self.sets.insert(number, body.clone());
                        Ok(Some(Answer::Set(number)))
                    }
                    (came, _) => words::judged(came, |_| Answer::Set(0)).map(Some),
                };
            }
            _ => return Ok(None),
        };
        let answer = words::judged(came.map(|map| self.map = map), |()| Answer::Accepted)?;
        if answer != Answer::Accepted {
            self.map = opened(&LEAST)?;
        }
        Ok(Some(answer))
    }

    fn edit_or_ask(&mut self, call: &Call) -> Result<Answer, Error> {
        let map = &mut self.map;
        match *call {
            Call::Annotate { tank, start, end, mark } => {
                let mark = words::mark(mark);
                words::judged(map.annotate(tank, start..end, &mark), |()| Answer::Accepted)
            }
            Call::Insert { tank, at, len } => {
                words::judged(map.insert(tank, at, len), words::marks)
            }
            Call::Delete { tank, start, end } => {
                words::judged(map.delete(tank, start..end), |()| Answer::Accepted)
            }
            Call::Remove { tank, id, last } => {
                let id = words::identity(id);
                let came = map.remove_style_scanning_backward(tank, &id, last);
                words::judged(came, Answer::First)
            }
            Call::Age { tank, before, budget } => {
                words::judged(map.age(tank, before, budget), words::aged)
            }
            Call::Plan { tank, hold, runs } => {
                let plan = std::mem::take(&mut self.pending);
                let came = map.apply_plan(tank, &plan, hold, runs);
                words::judged(came, |()| Answer::Accepted)
            }
            Call::Propose { tank, hold, runs } => {
                words::judged(map.propose(tank, hold, runs), words::plan)
            }
            Call::Strip { tank, start, k, .. } => {
                let legend = self.legend();
                words::judged(self.map.strip(tank, start, k, &legend), Answer::Strip)
            }
            _ => ask(map, call),
        }
    }
}

/// One question or list.
fn ask(map: &Map, call: &Call) -> Result<Answer, Error> {
    match *call {
        Call::Length { tank } => words::judged(map.length(tank), Answer::Length),
        Call::Touched { tank } => words::judged(map.has_style(tank), Answer::Touched),
        Call::Runs { tank } => words::judged(map.runs(tank), Answer::Runs),
        Call::Value { tank, at, key } => words::judged(map.value_at(tank, at, key), words::shown),
        Call::HasKey { tank, start, end, key } => {
            words::judged(map.range_contains_key(tank, start..end, key), Answer::Yes)
        }
        Call::AllValue { tank, start, end, key, value } => {
            let value = words::value(value);
            words::judged(map.range_has_key_value(tank, start..end, key, value), Answer::Yes)
        }
        Call::Same { tank, start, end } => {
            words::judged(map.get_styles_of_range(tank, start..end), words::shared)
        }
        Call::Marks { tank, at } => words::judged(map.styles_at(tank, at), words::marks),
        Call::Mark { tank, at, rank } => {
            words::judged(map.styles_at(tank, at), |marks| words::ranked(marks, rank))
        }
        Call::Inherit { tank, at } => {
            words::judged(map.get_styles_for_insert(tank, at), words::marks)
        }
        Call::Inherited { tank, at, rank } => {
            let came = map.get_styles_for_insert(tank, at);
            words::judged(came, |marks| words::ranked(marks, rank))
        }
        Call::Stretches { tank, start, end, .. } => {
            let came = map.iter_range(tank, start..end);
            words::judged(came, |list| words::stretches(tank, list))
        }
        Call::StretchesNeeded { tank, start, end } => {
            words::judged(map.iter_range(tank, start..end), words::needed)
        }
        Call::Whole { tank, .. } => {
            words::judged(map.iter(tank), |list| words::stretches(tank, list))
        }
        Call::WholeNeeded { tank } => words::judged(map.iter(tank), words::needed),
        Call::Anchors { tank, .. } => words::judged(map.iter_anchors(tank), words::anchors),
        Call::Find { tank, at } => words::judged(map.stretch_at(tank, at), words::extent),
        _ => unreachable!("{} is no question", call.name()),
    }
}

/// Whether a call may stand in a batch.
fn crosses(call: &Call) -> bool {
    !matches!(
        call,
        Call::Open { .. }
            | Call::Settings { .. }
            | Call::Set { .. }
            | Call::OpenSet { .. }
            | Call::Log { .. }
            | Call::LogEnd
            | Call::Save { .. }
            | Call::SaveNeeded
            | Call::Restore { .. }
    )
}

/// An answer of a batch, as the comparison has it.
fn said(call: &Call, answer: mavelino::Answer) -> Answer {
    use mavelino::Answer as Came;
    match (call, answer) {
        (_, Came::Refused(refusal)) => Answer::Refused(refusal.number() as u8),
        (_, Came::Accepted) => Answer::Accepted,
        (_, Came::None) => Answer::None,
        (&(Call::Mark { rank, .. } | Call::Inherited { rank, .. }), Came::Styles(marks)) => {
            words::ranked(marks, rank)
        }
        (_, Came::Styles(marks)) => words::marks(marks),
        (_, Came::Value(value)) => words::shown(Some(value)),
        (Call::Touched { .. }, Came::Yes(yes)) => Answer::Touched(yes),
        (_, Came::Yes(yes)) => Answer::Yes(yes),
        (Call::Length { .. }, Came::Number(number)) => Answer::Length(number),
        (Call::Runs { .. }, Came::Number(number)) => Answer::Runs(number),
        (_, Came::Number(number)) => Answer::First(number),
        (Call::StretchesNeeded { .. } | Call::WholeNeeded { .. }, Came::Stretches(list)) => {
            words::needed(list)
        }
        (call, Came::Stretches(list)) => words::stretches(call.tank().unwrap_or_default(), list),
        (_, Came::Anchors(list)) => words::anchors(list),
        (_, Came::Extent(extent)) => words::extent(extent),
        (_, Came::Aged(aged)) => words::aged(aged),
        (_, Came::Plan(plan)) => words::plan(Some(plan)),
        (_, Came::Strip(cells)) => Answer::Strip(cells),
    }
}

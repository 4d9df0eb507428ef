//! Compares a console's answers with the rules' and, inside the oracle domain, with the Rust's.

use std::path::PathBuf;
use std::process::ExitCode;
use std::time::Instant;

use compare::call::Call;
use compare::check::{check, Mismatch};
use compare::classes::CLASSES;
use compare::console::{Console, Feed};
use compare::exhaust::{self, Asked, Start};
use compare::mirror::hush;
use compare::script::Script;
use compare::shrink::shrink;
use compare::tally::Tally;
use compare::{cases, counters, logs, parties, plans, refusals, saves, sets, strips, text};

const USE: &str = "\
compare CONSOLE [--quick | --long] [--seeds A..B] [--calls N] [--only CLASS | --without CLASS]
compare --self [--break FAULT] [..]

CONSOLE       the console to compare: call scripts in, answers out
--self        the model's own console in its place, which tries out this program alone
--break       with a fault in that console
--quick       the quick round (this is the default)
--long        the long round
--seeds A..B  random scripts with these seeds, in place of the round's own
--calls N     so many calls in a random script, in place of the round's own
--only CLASS  one class alone: a class of random scripts, or cases, refusals, settings,
              damaged, restored, logs, planned, letters, counters, party, text,
              exhaust, both
--without CLASS
              all classes but one

It prints how many answers of each kind were compared, and ends with status 0. At the first
difference it prints the smallest script found, the expected answer and the one that came, and
ends with status 1.";

/// Calls that are handed to one console in a row.
const BATCH: usize = 40_000;

struct Round {
    console: Console,
    long: bool,
    seeds: std::ops::Range<u64>,
    calls: usize,
    only: Option<String>,
    without: Option<String>,
}

fn main() -> ExitCode {
    let Some(round) = options(std::env::args().skip(1).collect()) else {
        eprintln!("{USE}");
        return ExitCode::from(2);
    };
    if !round.console.path.is_file() {
        eprintln!("there is no console at {}", round.console.path.display());
        return ExitCode::from(2);
    }
    hush();
    let start = Instant::now();
    match round.run() {
        Ok(tally) if tally.scripts == 0 => {
            eprintln!("nothing was compared: no class has that name, or there are no seeds");
            ExitCode::from(2)
        }
        Ok(tally) => {
            println!("{tally}");
            println!("no difference, in {:.1} seconds", start.elapsed().as_secs_f64());
            ExitCode::SUCCESS
        }
        Err(found) => {
            report(&found.0, &found.1);
            ExitCode::FAILURE
        }
    }
}

fn options(arguments: Vec<String>) -> Option<Round> {
    let mut rest = arguments.into_iter();
    let mut console = None;
    let mut fault = Vec::new();
    let (mut long, mut seeds, mut calls) = (false, None, None);
    let (mut only, mut without) = (None, None);
    while let Some(word) = rest.next() {
        match word.as_str() {
            "--self" => {
                console = Some(std::env::current_exe().ok()?.with_file_name("model_console"))
            }
            "--break" => fault = vec![word, rest.next()?],
            "--quick" => long = false,
            "--long" => long = true,
            "--seeds" => {
                let (from, to) =
                    rest.next()?.split_once("..").map(|(a, b)| (a.parse(), b.parse()))?;
                seeds = Some(from.ok()?..to.ok()?);
            }
            "--calls" => calls = Some(rest.next()?.parse().ok()?),
            "--only" => only = Some(rest.next()?),
            "--without" => without = Some(rest.next()?),
            path if !path.starts_with('-') => console = Some(PathBuf::from(path)),
            _ => return None,
        }
    }
    Some(Round {
        console: Console { path: console?, arguments: fault },
        long,
        seeds: seeds.unwrap_or(if long { 1..201 } else { 1..13 }),
        calls: calls.unwrap_or(if long { 800 } else { 300 }),
        only,
        without,
    })
}

type Found = Box<(Script, Mismatch)>;

impl Round {
    fn run(&self) -> Result<Tally, Found> {
        let mut tally = Tally::default();
        let mut part = |name: &str, scripts: &mut dyn Iterator<Item = Script>| {
            let is = |class: &String| class == name;
            if self.only.as_ref().is_some_and(|only| !is(only))
                || self.without.as_ref().is_some_and(is)
            {
                return Ok::<(), Found>(());
            }
            let start = Instant::now();
            let done = self.compare(scripts)?;
            let (total, seconds) = (done.total(), start.elapsed().as_secs_f64());
            println!(
                "{name:<10}{:>10} calls{:>10} with the Rust{seconds:>8.1} s",
                total.model, total.rust
            );
            tally.add(&done);
            Ok(())
        };
        part("cases", &mut std::iter::once(fixed("cases", cases::cases())))?;
        part("refusals", &mut std::iter::once(fixed("refusals", refusals::refusals())))?;
        part("damaged", &mut saves::damaged())?;
        part("restored", &mut saves::restored())?;
        part("settings", &mut sets::scripts().into_iter())?;
        part("logs", &mut logs::scripts().into_iter())?;
        part("planned", &mut plans::scripts())?;
        part("letters", &mut std::iter::once(fixed("letters", strips::letters())))?;
        part("counters", &mut counters::scripts())?;
        part("party", &mut parties::scripts())?;
        for class in &CLASSES {
            part(class.name, &mut self.seeds.clone().map(|seed| class.script(seed, self.calls)))?;
        }
        let texts = self.seeds.start..self.seeds.start + 40 * (self.seeds.end - self.seeds.start);
        part("text", &mut texts.map(text::script))?;
        part("exhaust", &mut self.exhaustive())?;
        part("both", &mut self.of_both())?;
        Ok(tally)
    }

    fn exhaustive(&self) -> Box<dyn Iterator<Item = Script>> {
        let all = |start, marks, depth| exhaust::scripts(start, Asked::All, marks, depth);
        let state = |start, marks, depth| exhaust::scripts(start, Asked::State, marks, depth);
        let upto = |last| {
            (0..=last).flat_map(move |depth| {
                all(Start::Fresh, 2, depth).chain(all(Start::Short, 2, depth))
            })
        };
        if self.long {
            let wide = all(Start::Fresh, 3, 3);
            let deep = state(Start::Fresh, 2, 4);
            return Box::new(upto(3).chain(wide).chain(deep));
        }
        Box::new(upto(2).chain(state(Start::Fresh, 2, 3)))
    }

    fn of_both(&self) -> Box<dyn Iterator<Item = Script>> {
        let all =
            |start, last| (0..=last).flat_map(move |depth| exhaust::both(start, Asked::All, depth));
        let state = |start, depth| exhaust::both(start, Asked::State, depth);
        if self.long {
            let asked = all(Start::Fresh, 2).chain(all(Start::Short, 2));
            return Box::new(asked.chain(state(Start::Fresh, 3)).chain(state(Start::Short, 3)));
        }
        Box::new(all(Start::Fresh, 2).chain(all(Start::Short, 1)).chain(state(Start::Short, 2)))
    }

    /// Scripts that start anew share a console; the others have one of their own.
    fn compare(&self, scripts: &mut dyn Iterator<Item = Script>) -> Result<Tally, Found> {
        let mut tally = Tally::default();
        let mut batch: Vec<Script> = Vec::new();
        let mut calls = 0;
        for script in scripts {
            if script.joins() {
                calls += script.calls.len();
                batch.push(script);
            } else {
                tally.add(&self.checked(vec![script])?);
            }
            if calls >= BATCH {
                tally.add(&self.checked(std::mem::take(&mut batch))?);
                calls = 0;
            }
        }
        tally.add(&self.checked(batch)?);
        Ok(tally)
    }

    fn checked(&self, scripts: Vec<Script>) -> Result<Tally, Found> {
        let Some(first) = scripts.first() else { return Ok(Tally::default()) };
        let feed = feed(first);
        check(&self.console, feed, &scripts).map_err(|found| {
            let script = scripts[found.script].clone();
            let alone = check(&self.console, feed, std::slice::from_ref(&script));
            Box::new(match alone {
                Err(found) => shrink(&self.console, feed, script, found),
                Ok(_) => (joined(&scripts, &found), found),
            })
        })
    }
}

/// Inputs of their own are handed over in pieces, half of them, by their seed; long ones in larger
/// pieces, so that the pauses stay few.
fn feed(script: &Script) -> Feed {
    let least = script.text().len() / 400;
    match script.seed % 16 {
        _ if script.joins() => Feed::AtOnce,
        0 => Feed::Pieces(least.max(7)),
        1..4 => Feed::Pieces(least.max(61)),
        4..8 => Feed::Pieces(least.max(1021)),
        _ => Feed::AtOnce,
    }
}

/// A difference that shows only after the scripts before it.
fn joined(scripts: &[Script], found: &Mismatch) -> Script {
    let mut whole = scripts[found.script].clone();
    let before = scripts[..found.script].iter().flat_map(|script| script.calls.clone());
    whole.calls = before.chain(whole.calls).collect();
    whole
}

fn fixed(class: &'static str, calls: Vec<Call>) -> Script {
    Script { class, seed: 0, calls, tail: Vec::new() }
}

fn report(script: &Script, found: &Mismatch) {
    println!("{}: class {}, seed {}", found.judge, script.class, script.seed);
    println!("--- script ({} calls)", script.calls.len());
    print!("{}", String::from_utf8_lossy(&script.text()));
    let at = script.calls.get(found.call).map_or("after the calls", |call| call.name());
    println!("--- expected ({at}, number {} of the calls)", found.call + 1);
    print!("{}", found.expected);
    println!("--- got");
    print!("{}", found.got);
}

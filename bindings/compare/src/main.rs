//! Compares the answers of the Rust crate with the rules' and, inside the oracle domain, with the
//! Rust's.

use std::process::ExitCode;
use std::time::Instant;

use compare::mirror::hush;
use compare::tally::Tally;
use through::round;

const USE: &str = "\
through [--seeds A..B] [--calls N]

--seeds A..B  random scripts with these seeds, 1..5 where none are named
--calls N     so many calls in a random script, 200 where none are named

It prints how many answers of each kind were compared, and ends with status 0. At the first
difference it prints the script, the expected answer and the one that came, and ends with
status 1.";

fn main() -> ExitCode {
    let Some((seeds, calls)) = options() else {
        eprintln!("{USE}");
        return ExitCode::from(2);
    };
    hush();
    let start = Instant::now();
    let mut tally = Tally::default();
    for (place, script) in round::scripts(seeds, calls).into_iter().enumerate() {
        match round::drive(place, script).and_then(round::Driven::judged) {
            Ok(done) => tally.add(&done),
            Err(found) => {
                report(&found);
                return ExitCode::FAILURE;
            }
        }
    }
    println!("{tally}");
    println!("through the crate: no difference, in {:.1} seconds", start.elapsed().as_secs_f64());
    ExitCode::SUCCESS
}

fn options() -> Option<(std::ops::Range<u64>, usize)> {
    let (mut seeds, mut calls) = (1..5, 200);
    let mut rest = std::env::args().skip(1);
    while let Some(word) = rest.next() {
        match word.as_str() {
            "--seeds" => {
                let (from, to) =
                    rest.next()?.split_once("..").map(|(a, b)| (a.parse(), b.parse()))?;
                seeds = from.ok()?..to.ok()?;
            }
            "--calls" => calls = rest.next()?.parse().ok()?,
            _ => return None,
        }
    }
    Some((seeds, calls))
}

fn report(found: &round::Found) {
    let script = &found.script;
    println!("class {}, seed {}", script.class, script.seed);
    println!("--- script, to the call ({} calls in all)", script.calls.len());
    for call in script.calls.iter().take(found.call + 1) {
        print!("{}", String::from_utf8_lossy(&call.text()));
    }
    println!("--- expected (number {} of the calls)\n{}", found.call + 1, found.expected);
    println!("--- got\n{}", found.got);
}

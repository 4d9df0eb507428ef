//! Holds what `crates/lists_run` prints against the Rust: its three lists in buffers that are
//! exact, longer and too short. The gate holds the proved program to the same file.
//!
//!     lists FILE
//!
//! The lists themselves are the Rust's, with equal neighbours joined. It fills no buffer of a
//! caller's: that a list too long is refused by 11, that there is no tank 8 (refusal 1), and that
//! what stands behind a list stays, is written here from document 01.

use std::fmt::Write;
use std::fs;
use std::ops::Range;
use std::process::ExitCode;

use compare::page::first_difference;
use original::{Anchor, LoroValue, Mark, Stretch, Tank};

/// What a place of a buffer of numbers holds before, and a place of a list of anchors.
const BEFORE: &str = "7";
const NOBODY: &str = "7:start:7.7.7";

fn main() -> ExitCode {
    let Some(file) = std::env::args().nth(1).filter(|word| !word.starts_with('-')) else {
        eprintln!("lists FILE");
        return ExitCode::from(2);
    };
    let printed = match fs::read_to_string(&file) {
        Ok(text) => text,
        Err(error) => {
            eprintln!("lists: {file}: {error}");
            return ExitCode::from(2);
        }
    };
    let page = page();
    if let Some(difference) = first_difference(&printed, &page) {
        println!("{file}, {difference}");
        return ExitCode::FAILURE;
    }
    println!("lists in lent buffers: {} lines; no difference", page.lines().count());
    ExitCode::SUCCESS
}

fn page() -> String {
    let mut text = String::new();
    let mut house: [Tank; 8] = Default::default();
    let marks =
        [(0, 10..20, 1), (0, 15..30, 2), (1, 4..8, 1), (2, 0..3, 1), (2, 5..9, 2), (2, 12..13, 3)];
    for (tank, range, key) in marks {
        annotate(&mut text, &mut house, tank, range, key);
    }
    let ranges = [
        (0, 12..40, 12),
        (0, 12..40, 16),
        (0, 12..40, 11),
        (1, 5..6, 3),
        (2, 2..6, 11),
        (2, 2..6, 3),
        (3, 2..6, 12),
        (8, 12..40, 12),
    ];
    for (tank, range, room) in ranges {
        let list = house.get(tank).map(|map| numbers(map.iter_range(range.clone())));
        let Range { start, end } = range;
        write!(text, "iter_range tank={tank} start={start} end={end} room={room}").unwrap();
        answer(&mut text, list, room, BEFORE);
    }
    let wholes = [(0, 9), (0, 12), (0, 3), (1, 3), (1, 12), (2, 9), (3, 3), (8, 12)];
    for (tank, room) in wholes {
        let list = house.get(tank).map(|map| numbers(map.iter()));
        write!(text, "iter tank={tank} room={room}").unwrap();
        answer(&mut text, list, room, BEFORE);
    }
    for tank in [0, 1, 2, 3, 8] {
        let list = house.get(tank).map(|map| map.anchors().iter().map(anchor).collect());
        write!(text, "iter_anchors tank={tank} room=4").unwrap();
        answer(&mut text, list, 4, NOBODY);
    }
    text
}

fn annotate(text: &mut String, house: &mut [Tank; 8], tank: usize, range: Range<usize>, key: u16) {
    let Range { start, end } = range;
    let mark = Mark { id: (key, 5, 1), cnt: 0, flags: 0x84, value: LoroValue::Bool(true) };
    house[tank].annotate(start..end, &mark);
    writeln!(text, "annotate tank={tank} start={start} end={end} key={key} number=0").unwrap();
}

/// The rest of a line: the list in a buffer of `room` places that all hold `before`.
fn answer(text: &mut String, list: Option<Vec<String>>, room: usize, before: &str) {
    let (number, part) = match list {
        None => (1, Vec::new()),
        Some(list) if list.len() > room => (11, Vec::new()),
        Some(list) => (0, list),
    };
    let rest = vec![before.to_string(); room - part.len()];
    write!(text, " refused={number} count={}", part.len()).unwrap();
    write!(text, " part={}", listed(&part)).unwrap();
    writeln!(text, " rest={}", listed(&rest)).unwrap();
}

fn listed(entries: &[String]) -> String {
    entries.iter().map(|entry| format!(" {entry}")).collect()
}

/// Start, end and how many marks, of each stretch.
fn numbers(stretches: Vec<Stretch>) -> Vec<String> {
    let mut joined: Vec<Stretch> = Vec::new();
    for stretch in stretches {
        match joined.last_mut() {
            Some(last) if last.range.end == stretch.range.start && last.marks == stretch.marks => {
                last.range.end = stretch.range.end;
            }
            _ => joined.push(stretch),
        }
    }
    let three = |s: &Stretch| [s.range.start, s.range.end, s.marks.len()].map(|n| n.to_string());
    joined.iter().flat_map(three).collect()
}

fn anchor(anchor: &Anchor) -> String {
    let side = if anchor.start { "start" } else { "end" };
    let (key, lamport, peer) = anchor.id;
    format!("{}:{side}:{key}.{lamport}.{peer}", anchor.at)
}

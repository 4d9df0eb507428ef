//! The tables, as Markdown. A row is a work with so many marks; each of its cells has a number for
//! each number of runs.

use crate::side::Timed;
use crate::work::{Cell, Work, RUNS};

/// What was measured of a work with so many marks: for each side, in the order of `RUNS`.
pub struct Row<T> {
    pub work: Work,
    pub marks: u64,
    pub cells: Vec<Vec<T>>,
}

/// Cells in their order, each with what was measured of every side.
pub fn rows<T>(measured: impl Iterator<Item = (Cell, Vec<T>)>) -> Vec<Row<T>> {
    let mut rows: Vec<Row<T>> = Vec::new();
    for (Cell { work, marks, runs }, sides) in measured {
        if runs == RUNS[0] {
            rows.push(Row { work, marks, cells: sides.iter().map(|_| Vec::new()).collect() });
        }
        let row = rows.last_mut().expect("a row");
        for (cell, number) in row.cells.iter_mut().zip(sides) {
            cell.push(number);
        }
    }
    rows
}

pub fn print_counted(sides: &[&str], rows: &[Row<f64>]) {
    let machine = format!("{}, counted by callgrind", std::env::consts::ARCH);
    one("Instructions for each call", &machine, sides, rows, |&number| number);
}

pub fn print(sides: &[&str], rows: &[Row<Timed>]) {
    let machine = std::env::consts::ARCH;
    if cfg!(feature = "count") {
        one("Bytes copied for each call", machine, sides, rows, |timed| timed.bytes.copied);
        one("Bytes allocated for each call", machine, sides, rows, |timed| timed.bytes.allocated);
        return;
    }
    one("Nanoseconds for each call", machine, sides, rows, |timed| timed.nanoseconds);
}

/// Which side is held to which: ours to the original, and what was before to ours.
fn held(sides: &[&str]) -> Vec<(usize, usize)> {
    let place = |name: &str| sides.iter().position(|side| *side == name);
    [("ours", "original"), ("before", "ours")]
        .into_iter()
        .filter_map(|(one, other)| Some((place(one)?, place(other)?)))
        .collect()
}

fn one<T>(title: &str, machine: &str, sides: &[&str], rows: &[Row<T>], number: impl Fn(&T) -> f64) {
    println!("{title}, on {machine}, at {} runs:\n", joined(RUNS.map(|runs| runs.to_string())));
    let held = held(sides);
    let ratios = held.iter().map(|&(one, other)| format!("{} / {}", sides[one], sides[other]));
    let heads: Vec<String> = sides.iter().map(|side| side.to_string()).chain(ratios).collect();
    println!("| work | marks | {} |", heads.join(" | "));
    println!("|---|--:{}|", "|--:".repeat(heads.len()));
    for row in rows {
        let side = |side: usize| row.cells[side].iter().map(&number);
        let numbers =
            (0..sides.len()).map(|place| joined(side(place).map(|cell| format!("{cell:.0}"))));
        let ratios = held.iter().map(|&(one, other)| {
            joined(side(one).zip(side(other)).map(|(one, other)| ratio(one / other)))
        });
        let cells: Vec<String> = numbers.chain(ratios).collect();
        println!("| {} | {} | {} |", row.work.name(), row.marks, cells.join(" | "));
    }
    println!();
}

fn joined(parts: impl IntoIterator<Item = String>) -> String {
    parts.into_iter().collect::<Vec<_>>().join(" / ")
}

/// Two digits or more; where the other side has nothing to be held to, a dash.
fn ratio(ratio: f64) -> String {
    match ratio {
        _ if !ratio.is_finite() => "-".to_string(),
        _ if ratio < 10.0 => format!("{ratio:.2}"),
        _ if ratio < 100.0 => format!("{ratio:.1}"),
        _ => format!("{ratio:.0}"),
    }
}

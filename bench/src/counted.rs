//! Instructions in place of time. Callgrind runs this program once more and counts what that run
//! does between two calls of `toggle`, apart for each piece of work. Neither what else the machine
//! does nor how fast it is comes into the numbers.

use std::arch::asm;
use std::process::{self, Command};
use std::{env, fs};

use crate::side::Side;
use crate::table::{self, Row};
use crate::work::{cells, Work};

/// So many turns for every cell and every side.
const TURNS: u64 = 64;

/// What callgrind is asked for, by the numbers of its header callgrind.h.
const DUMP: u64 = 0x4354_0000;
const TOGGLE: u64 = 0x4354_0002;

/// Callgrind begins to count here, or ends.
#[inline(always)]
pub fn toggle() {
    ask(&[TOGGLE, 0, 0, 0, 0, 0]);
}

/// Callgrind writes down what it has counted, and starts again from 0.
fn note() {
    ask(&[DUMP, 0, 0, 0, 0, 0]);
}

/// A sequence of instructions that changes nothing, by which valgrind knows that it is spoken to
/// (valgrind.h).
#[inline(always)]
fn ask(request: &[u64; 6]) {
    // Without valgrind the rotations come to a whole turn; with it, only the request is read.
    #[cfg(target_arch = "aarch64")]
    unsafe {
        asm!(
            "ror x12, x12, #3",
            "ror x12, x12, #13",
            "ror x12, x12, #51",
            "ror x12, x12, #61",
            "orr x10, x10, x10",
            inout("x3") 0u64 => _,
            in("x4") request.as_ptr(),
        )
    }
    #[cfg(target_arch = "x86_64")]
    unsafe {
        asm!(
            "rol rdi, 3",
            "rol rdi, 13",
            "rol rdi, 61",
            "rol rdi, 51",
            "xchg rbx, rbx",
            inout("rdx") 0u64 => _,
            in("rax") request.as_ptr(),
        )
    }
}

/// What callgrind runs: each cell with no turns and with turns, for one side after the other.
pub fn count(sides: &[Box<dyn Side>], chosen: &[Work]) {
    for cell in cells(chosen) {
        let sums = sides.iter().map(|side| {
            side.time(cell, 0);
            note();
            let clock = side.time(cell, TURNS);
            note();
            clock.sum
        });
        let sums: Vec<u64> = sums.collect();
        assert!(sums.iter().all(|&sum| sum == sums[0]), "{cell:?}: other answers");
    }
}

/// The instructions of one call, for each work, number of marks, side and number of runs.
pub fn rows(sides: usize, chosen: &[Work], tank: u64, names: &[String]) -> Vec<Row<f64>> {
    let mut totals = totals(tank, names).into_iter();
    let mut total = || totals.next().expect("what the turns took, or no turns");
    let mut one = || {
        let (idle, busy) = (total(), total());
        (busy - idle) / TURNS as f64
    };
    table::rows(cells(chosen).map(|cell| (cell, (0..sides).map(|_| one()).collect())))
}

/// What callgrind wrote down, one after the other.
fn totals(tank: u64, names: &[String]) -> Vec<f64> {
    let notes = env::temp_dir().join(format!("mavelino-bench-{}", process::id()));
    let ended = Command::new("valgrind")
        .args(["--quiet", "--tool=callgrind", "--collect-atstart=no"])
        .arg("--combine-dumps=yes")
        .arg(format!("--callgrind-out-file={}", notes.display()))
        .arg(env::current_exe().expect("this program"))
        .args(["--under-callgrind".to_string(), format!("--tank={tank}")])
        .args(names)
        .status();
    let ended = ended.expect("valgrind, which is needed to count instructions");
    assert!(ended.success(), "callgrind: {ended}");
    let text = fs::read_to_string(&notes).expect("what callgrind wrote down");
    fs::remove_file(&notes).expect("the notes, to be removed");
    let number = |line: &str| line.strip_prefix("totals: ")?.trim().parse().ok();
    text.lines().filter_map(number).collect()
}

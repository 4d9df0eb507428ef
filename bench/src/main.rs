//! Times the original and the tank map on the same work, or counts their instructions, and prints
//! one table.
//!
//!     cargo run --release [--features count] [-- [--counted] [--rounds=N] [--tank=N] [WORK..]]
//!     cargo run --release -- --floor

mod count;
mod counted;
mod floor;
mod original_side;
#[cfg(ours)]
mod ours;
mod side;
mod table;
mod work;

use side::{Clock, Side, Timed};
use work::{cells, Cell, Work, WORK};

/// Rounds over all work, if no other number is named, and samples of each work in a round. The least
/// counts: what disturbs a sample only adds to it, and what disturbs all samples of a round is seldom
/// there in the next.
const ROUNDS: u64 = 3;
const SAMPLES: u64 = 5;
/// How long a sample is, in nanoseconds, where the side has enough turns for it.
const SAMPLE: f64 = 5e6;
/// The turns over which the answers of the sides are compared.
const COMPARED: u64 = 64;

extern "C" {
    fn mallopt(parameter: i32, value: i32) -> i32;
}

/// Keeps the C library from handing freed memory back to the system between two calls, and asking
/// for it again inside the clock.
fn keep_memory() {
    // From malloc.h: how much may lie free at the end, how much more is asked for at a time, and
    // from which size on a piece is asked for alone.
    const TRIM_THRESHOLD: i32 = -1;
    const TOP_PAD: i32 = -2;
    const MMAP_THRESHOLD: i32 = -3;
    for parameter in [TRIM_THRESHOLD, TOP_PAD, MMAP_THRESHOLD] {
        // Takes plain numbers.
        assert_eq!(unsafe { mallopt(parameter, 1 << 25) }, 1);
    }
}

/// The tank that the library works on, if none is named.
const TANK: u64 = 5;

fn main() {
    keep_memory();
    let (words, names): (Vec<String>, Vec<String>) =
        std::env::args().skip(1).partition(|word| word.starts_with("--"));
    let (mut mode, mut rounds, mut tank) = (Mode::Timed, ROUNDS, TANK);
    for word in &words {
        let number = || word.split_once('=').and_then(|(_, number)| number.parse().ok());
        match word.split('=').next() {
            Some("--rounds") => rounds = number().expect("how many rounds"),
            Some("--tank") => tank = number().expect("a tank's number"),
            Some("--counted") => mode = Mode::Counted,
            Some("--floor") => mode = Mode::Floor,
            Some("--under-callgrind") => mode = Mode::UnderCallgrind,
            _ => panic!("{word} is none of the words that there are"),
        }
    }
    let known = |name: &String| WORK.iter().any(|work| work.name() == name);
    assert!(names.iter().all(known), "{names:?}: not all of them are work that there is");
    let chosen = |work: &Work| names.is_empty() || names.iter().any(|name| name == work.name());
    let chosen: Vec<Work> = WORK.into_iter().filter(chosen).collect();
    let sides = sides(tank);
    let heads: Vec<&str> = sides.iter().map(|side| side.name()).collect();
    match mode {
        Mode::Timed => table::print(&heads, &rows(&sides, &chosen, rounds)),
        Mode::Counted => {
            table::print_counted(&heads, &counted::rows(sides.len(), &chosen, tank, &names))
        }
        Mode::Floor => floor::print(),
        Mode::UnderCallgrind => counted::count(&sides, &chosen),
    }
}

enum Mode {
    Timed,
    Counted,
    Floor,
    UnderCallgrind,
}

/// The original, what was before where an archive of it is linked, and ours.
#[cfg(ours)]
fn sides(tank: u64) -> Vec<Box<dyn Side>> {
    vec![
        Box::new(original_side::OriginalSide),
        #[cfg(before)]
        Box::new(ours::OurSide::before(tank)),
        Box::new(ours::OurSide::ours(tank)),
    ]
}

#[cfg(not(ours))]
fn sides(_: u64) -> Vec<Box<dyn Side>> {
    eprintln!("The static library of the tank map is not at hand: the original is timed alone.");
    vec![Box::new(original_side::OriginalSide)]
}

/// What was measured of a cell on one side: the least with no turns, and with so many.
struct Sampled {
    turns: u64,
    idle: Clock,
    busy: Clock,
}

impl Sampled {
    fn first(side: &dyn Side, cell: Cell) -> Sampled {
        let idle = side.time(cell, 0);
        let turns = enough(side, cell, idle);
        Sampled { turns, idle, busy: side.time(cell, turns) }
    }

    fn again(&mut self, side: &dyn Side, cell: Cell) {
        self.idle = self.idle.least(side.time(cell, 0));
        self.busy = self.busy.least(side.time(cell, self.turns));
    }

    /// One call, without what no turns take.
    fn each(&self) -> Timed {
        self.busy.less(self.idle).each(self.turns)
    }
}

/// The sides take turns at the machine, so that what disturbs it for a while meets all of them.
fn rows(sides: &[Box<dyn Side>], chosen: &[Work], rounds: u64) -> Vec<table::Row<Timed>> {
    let first = |cell| {
        agree(sides, cell);
        (cell, sides.iter().map(|side| Sampled::first(side.as_ref(), cell)).collect())
    };
    let mut sampled: Vec<(Cell, Vec<Sampled>)> = cells(chosen).map(first).collect();
    for _ in 0..rounds {
        for (cell, sampled) in &mut sampled {
            for _ in 0..SAMPLES {
                let each = sides.iter().zip(sampled.iter_mut());
                each.for_each(|(side, sampled)| sampled.again(side.as_ref(), *cell));
            }
        }
    }
    let timed = sampled.iter().map(|(cell, sampled)| {
        let timed: Vec<Timed> = sampled.iter().map(Sampled::each).collect();
        (*cell, timed)
    });
    table::rows(timed)
}

/// The sums of the first turns, which are as many for every side: all must have given the same
/// answers.
fn agree(sides: &[Box<dyn Side>], cell: Cell) {
    let sums: Vec<u64> = sides.iter().map(|side| side.time(cell, COMPARED).sum).collect();
    assert!(sums.iter().all(|&sum| sum == sums[0]), "{cell:?}: other answers");
}

/// So many turns that a sample is long enough, by itself and beside what no turns take, or as many as
/// the side has.
fn enough(side: &dyn Side, cell: Cell, idle: Clock) -> u64 {
    let most = side.most_turns(cell);
    let long = SAMPLE.max(idle.nanoseconds);
    let mut turns = COMPARED;
    while turns < most && side.time(cell, turns).less(idle).nanoseconds < long {
        turns = most.min(2 * turns);
    }
    turns
}

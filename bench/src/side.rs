//! The sides of the measurement.

use std::ops::Range;
use std::sync::OnceLock;
use std::time::Instant;

use crate::count::{self, Counted, Each};
use crate::counted;
use crate::work::Cell;

pub trait Side {
    fn name(&self) -> &'static str;

    /// So many turns are worth asking for at most.
    fn most_turns(&self, cell: Cell) -> u64;

    /// Does the work so many times on the tank of that size. With no turns, what it takes is not
    /// the work's.
    fn time(&self, cell: Cell, turns: u64) -> Clock;
}

#[derive(Clone, Copy, Debug)]
pub struct Timed {
    /// For each call.
    pub nanoseconds: f64,
    /// For each call, where bytes are counted.
    pub bytes: Each,
}

/// Adds up the answers of some turns.
pub fn sum(turns: Range<u64>, call: impl FnMut(u64) -> u64) -> u64 {
    turns.map(call).fold(0, u64::wrapping_add)
}

/// Time and bytes of several pieces of work, without what reading the clock takes.
#[derive(Clone, Copy, Default)]
pub struct Clock {
    pub nanoseconds: f64,
    /// The sum of the answers, by which the sides are seen to have done the same.
    pub sum: u64,
    counted: Counted,
}

impl Clock {
    pub fn run(&mut self, piece: impl FnOnce() -> u64) {
        let (before, start) = (count::now(), Instant::now());
        counted::toggle();
        let sum = piece();
        counted::toggle();
        let nanoseconds = start.elapsed().as_nanos() as f64;
        self.counted = self.counted + (count::now() - before);
        self.nanoseconds += nanoseconds - reading();
        self.sum = self.sum.wrapping_add(sum);
    }

    /// To the sum alone.
    pub fn add(&mut self, answer: u64) {
        self.sum = self.sum.wrapping_add(answer);
    }

    pub fn each(self, calls: u64) -> Timed {
        let nanoseconds = (self.nanoseconds / calls as f64).max(0.0);
        Timed { nanoseconds, bytes: self.counted.each(calls) }
    }

    /// The one that ran for less.
    pub fn least(self, other: Clock) -> Clock {
        if other.nanoseconds < self.nanoseconds {
            other
        } else {
            self
        }
    }

    /// Without the work that another clock ran.
    pub fn less(self, other: Clock) -> Clock {
        let nanoseconds = self.nanoseconds - other.nanoseconds;
        Clock { nanoseconds, sum: self.sum, counted: self.counted - other.counted }
    }
}

/// What reading the clock twice takes, in nanoseconds.
fn reading() -> f64 {
    static READING: OnceLock<f64> = OnceLock::new();
    *READING.get_or_init(|| {
        let mut gaps: Vec<u128> = (0..1001).map(|_| Instant::now().elapsed().as_nanos()).collect();
        gaps.sort();
        gaps[500] as f64
    })
}

//! The tank map through its static library. A state can't stay on the other side of a call, so the
//! function builds the tank of `work.rs`, does the work `turns` times, each time on that same tank,
//! and hands the sum of the answers back. No turns at all take the time of the building.

use crate::side::{Clock, Side};
use crate::work::{Cell, BASE};

/// What the library `timing` exports: the work, the tank's number, what keys are counted from, runs,
/// marks and turns. It adds up, over the turns and with wrapping: for an insert how many marks its
/// answer holds, for any other edit its number; for a question its yes, the whole number that is
/// shown, or how many marks. Behind the edits it adds the last tank's length, and 1 where that tank
/// has the extra mark's key.
type Timing = unsafe extern "C" fn(u64, u64, u64, u64, u64, u64) -> u64;

extern "C" {
    fn timing(work: u64, tank: u64, base: u64, runs: u64, marks: u64, turns: u64) -> u64;
    /// The same of another archive, whose function `build.rs` gave this name.
    #[cfg(before)]
    fn timing_before(work: u64, tank: u64, base: u64, runs: u64, marks: u64, turns: u64) -> u64;
}

pub struct OurSide {
    name: &'static str,
    timing: Timing,
    tank: u64,
}

impl OurSide {
    pub fn ours(tank: u64) -> OurSide {
        OurSide { name: "ours", timing, tank }
    }

    #[cfg(before)]
    pub fn before(tank: u64) -> OurSide {
        OurSide { name: "before", timing: timing_before, tank }
    }
}

impl Side for OurSide {
    fn name(&self) -> &'static str {
        self.name
    }

    fn most_turns(&self, _: Cell) -> u64 {
        1 << 20
    }

    fn time(&self, Cell { work, marks, runs }: Cell, turns: u64) -> Clock {
        let mut clock = Clock::default();
        let call = || unsafe {
            // The function takes and gives back plain numbers, and is proved safe for all of them.
            (self.timing)(work as u64, self.tank, BASE as u64, runs, marks, turns)
        };
        clock.run(call);
        clock
    }
}

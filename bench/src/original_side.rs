//! The original over its list. Each edit meets a copy of the tank of its own; the copies are made
//! outside the clock, as many at a time as stay near the processor.

use std::hint::black_box;
use std::sync::Arc;

use original::{join_neighbours, op, Bare, Key, LoroValue, Mark, StyleOp};

use crate::side::{sum, Clock, Side};
use crate::work::{build, run, span, Cell, Work, ABSENT, ASKED, BASE, EXTRA, WIDTH};

pub struct OriginalSide;

fn mark(number: u64) -> Arc<StyleOp> {
    let id = (BASE + number as u16 + 1, number as u32 + 10, 1);
    op(&Mark { id, cnt: 0, flags: 0x84, value: LoroValue::I64(number as i64 + 1) })
}

fn extra() -> Arc<StyleOp> {
    op(&Mark { id: (EXTRA, 1, 1), cnt: 0, flags: 0x84, value: LoroValue::Null })
}

/// The tank that the work starts from.
fn base(work: Work, runs: u64, marks: u64) -> Bare {
    join_neighbours(false);
    let mut tank = Bare::new();
    let ops: Vec<_> = (0..marks).map(mark).collect();
    for (start, end, mark) in build(runs, marks) {
        tank.annotate(start as usize..end as usize, &ops[mark as usize]);
    }
    assert_eq!(tank.elements() as u64, runs);
    let middle = ((runs - 1) / 2 * WIDTH) as usize;
    match work {
        Work::Remove => tank.annotate(middle..middle + WIDTH as usize, &extra()),
        Work::RemoveWide => tank.annotate(0..span(runs) as usize, &extra()),
        _ => {}
    }
    tank
}

/// What a call needs beside the tank, made once.
struct Needs {
    runs: u64,
    extra: Arc<StyleOp>,
    extras_key: Key,
    absent: Key,
    highest: Key,
}

/// One call; what it answers goes into the sum.
#[inline(always)]
fn call(work: Work, tank: &mut Bare, needs: &Needs, turn: u64) -> u64 {
    let at = (run(needs.runs, turn) * WIDTH) as usize;
    let span = span(needs.runs) as usize;
    match work {
        Work::Annotate => tank.annotate(at + 3..at + 8, &needs.extra),
        Work::AnnotateWide => tank.annotate(1..span - 1, &needs.extra),
        Work::Insert => return tank.insert(at + 5, 1) as u64,
        Work::InsertBetween => return tank.insert(at + WIDTH as usize, 2) as u64,
        Work::Delete => tank.delete(at + 4..at + 6),
        Work::DeleteAcross => tank.delete(at + 5..at + 15),
        Work::Remove => {
            let middle = ((needs.runs - 1) / 2 * WIDTH) as usize;
            tank.remove(&needs.extra, middle + WIDTH as usize - 1);
        }
        Work::RemoveWide => {
            tank.remove(&needs.extra, span - 1);
        }
        Work::HasKey | Work::HasKeyShared => {
            return tank.has_key(at + 3..at + 6, &needs.absent) as u64
        }
        Work::HasKeyWide | Work::HasKeyWideShared => {
            return tank.has_key(0..span, &needs.absent) as u64
        }
        Work::Value | Work::ValueShared => return tank.value(at + 5, &needs.highest),
        Work::Marks | Work::MarksShared => return tank.keys(at + 5) as u64,
    }
    // The number of an edit that is accepted. (What a removal answers is not compared: docs/DIFFERENCES.md.)
    0
}

/// What the last tank counts for.
fn ending(tank: &Bare, needs: &Needs) -> u64 {
    tank.length() as u64 + tank.has_key(0..ASKED as usize, &needs.extras_key) as u64
}

impl Side for OriginalSide {
    fn name(&self) -> &'static str {
        "original"
    }

    /// A copy of a large tank takes far longer than an edit of it.
    fn most_turns(&self, Cell { work, marks, runs }: Cell) -> u64 {
        if work.is_question() {
            return 1 << 20;
        }
        ((1 << 20) / (runs * marks)).max(64)
    }

    fn time(&self, Cell { work, marks, runs }: Cell, turns: u64) -> Clock {
        let mut base = base(work, runs, marks);
        let needs = Needs {
            runs,
            extra: extra(),
            extras_key: Key::new(EXTRA),
            absent: Key::new(ABSENT),
            highest: Key::new(BASE + marks as u16),
        };
        let mut clock = Clock::default();
        if work.is_question() {
            clock.run(|| sum(0..turns, |turn| call(work, black_box(&mut base), &needs, turn)));
            return clock;
        }
        let copies = (2000 / (runs * marks)).clamp(1, 64);
        let mut end = ending(&base, &needs);
        for first in (0..turns).step_by(copies as usize) {
            let last = turns.min(first + copies);
            let mut tanks = vec![base.clone(); (last - first) as usize];
            clock.run(|| {
                let tank = |turn: u64| (turn - first) as usize;
                sum(first..last, |turn| call(work, black_box(&mut tanks[tank(turn)]), &needs, turn))
            });
            end = ending(tanks.last().expect("a tank for each turn"), &needs);
        }
        clock.add(end);
        clock
    }
}

//! What copying the state costs by itself: the floor of any call that takes it by value. A question
//! takes one copy, an edit one in and one out, and a caller who keeps the next state one more.

use std::hint::black_box;
use std::ptr::copy_nonoverlapping;
use std::time::Instant;

/// The size of `tanks::Tanks`.
const STATE: usize = 29_056;
/// How far the copy begins behind a multiple of 64 where the source begins at one: as alike as two
/// can be, behind a number, and behind a number, marks and a first place, as an edit's result once
/// had it.
const OFFS: [usize; 3] = [0, 8, 24];
const SAMPLES: usize = 200;
const TURNS: u32 = 200;

pub fn print() {
    println!("Nanoseconds for copies of a state, on {}:\n", std::env::consts::ARCH);
    println!("| copies of {STATE} bytes | alike | 8 off | 24 off |\n|---|--:|--:|--:|");
    for (name, copies) in [("one", 1), ("in and out", 2), ("in, out and kept", 3)] {
        let cells = OFFS.map(|off| format!("{:.0}", least(copies, off)));
        println!("| {name} | {} |", cells.join(" | "));
    }
    println!();
}

/// The least of many samples of some copies, each from one buffer into the next; every other buffer
/// begins so many bytes behind a multiple of 64.
fn least(copies: usize, off: usize) -> f64 {
    let room = STATE + 64;
    let mut memory = vec![1u8; (copies + 1) * room + 64];
    let first = memory.as_mut_ptr() as usize;
    let first = first.next_multiple_of(64);
    let place = |buffer: usize| (first + buffer * room + buffer % 2 * off) as *mut u8;
    let sample = || {
        let start = Instant::now();
        for _ in 0..TURNS {
            for buffer in 0..copies {
                // Both lie in `memory`, and apart.
                unsafe { copy_nonoverlapping(black_box(place(buffer)), place(buffer + 1), STATE) };
            }
        }
        start.elapsed().as_nanos() as f64 / TURNS as f64
    };
    (0..SAMPLES).map(|_| sample()).fold(f64::INFINITY, f64::min)
}

//! Scripts of strips, with legends of any keys and letters.

use crate::author::Author;
use crate::call::Call;
use crate::classes::ROOMY;
use crate::mark::{Content, Mark, Value};
use crate::tank::{LONGEST, T};

fn mark(key: u16, lamport: u32, value: Value) -> Mark {
    Mark { id: (key, lamport, 1), content: Content { cnt: !(lamport as i32), flags: 0x84, value } }
}

fn annotate(start: u64, end: u64, mark: Mark) -> Call {
    Call::Annotate { tank: 0, start, end, mark }
}

fn strip(start: u64, k: u64) -> Call {
    Call::Strip { tank: 0, start, k, room: 96 }
}

fn legend(place: u64, key: u16, letter: u8) -> Call {
    Call::Legend { place, key, letter }
}

/// The three refusals in their order, and what lies just beside them; an untouched tank.
fn orders() -> Vec<Call> {
    let mut calls = vec![Call::Open { settings: ROOMY }];
    for tank in [0, 7, 8, u64::MAX] {
        for (k, room) in [(0, 0), (0, 96), (1, 0), (1, 95), (1, 96), (u64::MAX, 97)] {
            calls.push(Call::Strip { tank, start: 0, k, room });
        }
        calls.push(Call::Strip { tank, start: u64::MAX, k: u64::MAX, room: u64::MAX });
    }
    calls
}

/// Keys that hide one another in a cell, values that are taken off, and cells of every size: key 3
/// from 0 to 2, key 1 from 2 to 3 and from 5 to 8 with a null over its second half, key 2 under it.
fn keys() -> Vec<Call> {
    let mut calls = vec![
        Call::Open { settings: ROOMY },
        annotate(0, 2, mark(3, 1, Value::Bool(false))),
        annotate(2, 3, mark(1, 1, Value::Whole(0))),
        annotate(5, 8, mark(1, 1, Value::Whole(0))),
        annotate(6, 8, mark(1, 2, Value::Null)),
        annotate(7, 9, mark(2, 1, Value::Decimal(0))),
        annotate(9, 10, mark(4, 2, Value::Bool(true))),
        annotate(9, 10, mark(4, 1, Value::Null)),
        annotate(11, 12, mark(0, 7, Value::Null)),
        annotate(200, 205, mark(6, 7, Value::Bool(true))),
    ];
    for k in 1..=14 {
        calls.extend((0..4).map(|start| strip(start, k)));
    }
    calls.extend([strip(104, 1), strip(105, 1), strip(109, 1), strip(110, 1), strip(204, 1)]);
    calls
}

/// The length lies inside a cell, between cells and before them all.
fn ends() -> Vec<Call> {
    let mut calls = vec![
        annotate(12, 14, mark(7, 1, Value::Bool(true))),
        Call::Delete { tank: 0, start: 14, end: T },
    ];
    for k in [1, 2, 3, 4, 5, 7, 13, 14, 15, 1 << 32, u64::MAX] {
        calls.extend([0, 1, 12, 13, 14, 15, u64::MAX].map(|start| strip(start, k)));
    }
    calls.extend([Call::Delete { tank: 0, start: 0, end: 14 }, strip(0, 1), strip(1, 1)]);
    calls
}

/// Cells of 2^57 positions and more in a tank of the largest length, and sums past 64 bits: key 1 is
/// shown at the first positions, key 2 at the last one.
fn far() -> Vec<Call> {
    let mut calls = vec![
        Call::Open { settings: ROOMY },
        annotate(0, 4, mark(1, 1, Value::Bool(true))),
        annotate(T - 1, T, mark(2, 1, Value::Bool(true))),
        Call::Insert { tank: 0, at: 6, len: LONGEST - T },
    ];
    let sizes = [
        LONGEST / 96,
        LONGEST / 96 + 1,
        LONGEST / 95,
        LONGEST / 2,
        LONGEST - 1,
        LONGEST,
        1 << 63,
        u64::MAX / 96,
        u64::MAX / 95 + 1,
        u64::MAX,
    ];
    for k in (57..63).map(|bits| 1 << bits).chain(sizes) {
        let places = [0, 1, 3, 4, k - 1, LONGEST - 2, LONGEST - 1, LONGEST, 1 << 63, u64::MAX];
        calls.extend(places.map(|start| strip(start, k)));
    }
    for back in [1, 2, 95, 96, 97] {
        calls.extend([strip(LONGEST - back, 1), strip(u64::MAX - back, 1)]);
    }
    calls
}

/// Every place, letters that print, equal keys, and a legend that stays through openings.
fn legends() -> Vec<Call> {
    let mut calls = vec![Call::Open { settings: ROOMY }];
    calls.extend(
        (0..8).map(|key| {
            annotate(3 * key, 3 * key + 2, mark(key as u16, 1, Value::Whole(key as i64)))
        }),
    );
    calls.push(annotate(30, 31, mark(u16::MAX, 1, Value::Bool(true))));
    calls.push(strip(0, 1));
    calls.extend([legend(0, 7, b'A'), strip(0, 1), legend(7, 0, b'H'), strip(0, 1)]);
    // Keys 7 and 1 stand twice now: the first one's letter counts, in cells of several too.
    calls.extend([legend(3, 1, b'D'), strip(0, 1), strip(0, 5), legend(1, 1, b'.')]);
    calls.extend([strip(0, 1), strip(0, 5), legend(4, u16::MAX, b'~'), strip(0, 1)]);
    for (place, letter) in (0..8).zip(*b"= .-aZ0\\") {
        calls.extend([legend(place, place as u16, letter), strip(0, 1)]);
    }
    calls.push(Call::Open { settings: [(2, 1); 8] });
    calls.push(Call::OpenSet { number: 0 });
    calls.push(Call::Open { settings: ROOMY });
    calls.extend([annotate(1, 9, mark(5, 1, Value::Bool(true))), strip(0, 3)]);
    calls.push(strip(2, 2));
    // The first legend again, for what follows.
    calls.extend((0..8).map(|place| legend(place, place as u16, b'0' + place as u8)));
    calls
}

/// The fixed calls that stand among the refusals.
pub fn refused() -> Vec<Call> {
    [orders(), keys(), ends(), far(), legends()].concat()
}

/// Every letter that there is, a newline being none, at each place in turn.
pub fn letters() -> Vec<Call> {
    let mut calls = vec![Call::Open { settings: ROOMY }];
    calls.extend((0..8).map(|key| annotate(key, key + 1, mark(key as u16, 1, Value::Bool(true)))));
    for letter in (0..=255).filter(|letter| *letter != b'\n') {
        let place = letter as u64 % 8;
        calls.extend([legend(place, place as u16, letter), strip(0, 1)]);
    }
    calls
}

/// One more thing: edits, a legend, marks that are taken off, or a strip.
pub fn go_on(author: &mut Author) {
    let tank = author.random.below(author.habit.tanks);
    match author.random.below(16) {
        0..=2 => author.go_on(5),
        3 => take_off(author, tank),
        4..=6 => say(author),
        7 if author.random.one_in(8) => {
            let settings = author.random.pick(&[[(20, 60); 8], [(20, 60); 8], [(2, 1); 8]]);
            author.open(settings);
        }
        _ => {
            let strip = author.strip(tank);
            author.say(strip);
        }
    }
}

/// Some positions get a null that wins.
fn take_off(author: &mut Author, tank: u64) {
    let key = author.random.below(4) as u16;
    let start = author.random.below(12);
    let end = start + 1 + author.random.below(4);
    let mark = mark(key, u32::MAX - 1, Value::Null);
    author.say(Call::Annotate { tank, start, end, mark });
}

/// A key, mostly one that the marks have, and a letter; in a wild script any that is no newline.
fn say(author: &mut Author) {
    let place = author.random.below(8);
    let key = author.random.pick(&[0, 1, 1, 2, 2, 3, 3, 4, u16::MAX, u16::MAX - 1]);
    let any = author.random.bits() as u8;
    let any = author.random.pick(&[0, b'\r', 127, 128, 255, any]);
    let wild = author.habit.wild > 0 && any != b'\n' && author.random.one_in(2);
    let usual = author.random.pick(&[b'A' + place as u8, b'A' + place as u8, b'.', b'=']);
    let letter = if wild { any } else { usual };
    author.say(legend(place, key, letter));
}

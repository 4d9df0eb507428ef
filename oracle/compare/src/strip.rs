//! The strip for the tanker bay: change request 8 as a model.

use crate::tank::Tank;

pub const CELLS: usize = 96;

/// Eight keys with a letter each, first key first.
pub type Legend = [(u16, u8); 8];

/// The legend before another is said.
pub const FIRST: Legend =
    [(0, b'0'), (1, b'1'), (2, b'2'), (3, b'3'), (4, b'4'), (5, b'5'), (6, b'6'), (7, b'7')];

/// Where a cell begins; as wide as any sum of these can be.
fn begin(start: u64, k: u64, cell: usize) -> u128 {
    start as u128 + cell as u128 * k as u128
}

/// Where the last cell ends.
pub fn end(start: u64, k: u64) -> u128 {
    begin(start, k, CELLS)
}

/// A cell has the letter of the first key that shows a value at some position of it.
pub fn cells(tank: &Tank, legend: &Legend, start: u64, k: u64) -> [u8; CELLS] {
    let below = |place: u128| place.min(tank.length as u128) as u64;
    std::array::from_fn(|cell| {
        let (from, to) = (begin(start, k, cell), begin(start, k, cell + 1));
        let stretches = tank.stretches(below(from), below(to));
        // A stretch shows everywhere what it shows at its first position.
        let shown = |key: u16| stretches.iter().any(|s| tank.value(s.from, key).is_some());
        legend.iter().find(|(key, _)| shown(*key)).map_or(b'.', |(_, letter)| *letter)
    })
}

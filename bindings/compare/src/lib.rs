//! The comparison of `oracle/compare` through the Rust crate: the same scripts, call by call or in
//! batches, and every answer held against the model of document 01 and, inside the oracle domain,
//! the Rust.
//!
//! - `words`: the comparison's types and the crate's, one into the other.
//! - `driver`: a script's calls made on a `mavelino::Map`.
//! - `round`: the scripts of a round, and what was compared.
//! - `spoil`: answers changed on purpose, to see that the comparison notices them.

pub mod driver;
pub mod round;
pub mod spoil;
pub mod words;

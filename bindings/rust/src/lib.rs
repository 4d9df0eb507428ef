//! The proved tank map, for Rust.
//!
//! Eight tanks of readings, and the marks that creameries and laboratory put on ranges of them. The
//! map itself is written in Rattle and proved; this crate links it as a static library and gives
//! each of its calls a Rust type. Any call with any numbers ends with an answer: what the old module
//! did not take, or panicked on, is a [`Refusal`] with its number and its words.
//!
//! ```
//! use mavelino::{Map, Mark, Refusal, Value};
//!
//! let mut map = Map::open(Map::EVEN)?;
//! let hold = Mark { key: 7, lamport: 3, peer: 1, cnt: 0, flags: 0x80, value: Value::Bool(true) };
//! map.annotate(0, 100..200, &hold)?;
//! assert_eq!(map.value_at(0, 150, 7)?, Some(Value::Bool(true)));
//!
//! let error = map.annotate(0, 200..200, &hold).unwrap_err();
//! assert_eq!(error.refusal(), Some(Refusal::Empty));
//! # Ok::<(), mavelino::Error>(())
//! ```
//!
//! - [`Map`]: the tanks, with a method for each call. [`Batch`]: several calls at once.
//! - [`Mark`], [`Value`], [`Identity`], [`Party`]: what is put on positions.
//! - [`Stretch`], [`Anchor`], [`Extent`], [`Aged`], [`Answer`]: what is answered.
//! - [`Refusal`], [`Error`]: what is not.
//! - [`Log`], [`Report`]: the boxes' log.
//! - [`ExpandType`], [`TextStyleInfoFlag`]: flag bytes, as in the old module.
//!
//! docs/MOVING.md has the old module's calls beside these.
//!
//! What is proved is the library behind [`Map`], not this crate: it writes scripts and reads answers
//! (docs/CONSOLE.md), each line of which it tests, and an answer that it does not know is
//! [`Error::Surprise`], never a panic.

#![deny(missing_docs)]
#![deny(unsafe_code)]

mod answer;
mod batch;
#[allow(unsafe_code)]
mod ffi;
mod flags;
mod log;
mod map;
mod mark;
mod reader;
mod refusal;

pub use answer::{Aged, Anchor, Answer, CELLS, Extent, Reading, Report, Stretch};
pub use batch::{Batch, Legend};
pub use flags::{AnchorType, ExpandType, TextStyleInfoFlag};
pub use log::Log;
pub use map::Map;
pub use mark::{Identity, Mark, Party, Setting, Value};
pub use refusal::{Error, Refusal, Surprise};

/// The Rust of docs/MOVING.md is run with the examples.
#[cfg(doctest)]
#[doc = include_str!("../../../docs/MOVING.md")]
struct Moving;

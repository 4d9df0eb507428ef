//! Comparing a console with the rules of document 01 and, inside the oracle domain, with the Rust.
//!
//! - `mark`, `call`, `answer`, `reader`: the console's protocol, lines in and lines out.
//! - `tank`, `tanks`: the rules, as a model of positions.
//! - `settings`: settings texts and the sets that are kept.
//! - `log`: the edge boxes' log.
//! - `strip`: the strip for the tanker bay.
//! - `saved`: settings and tanks as a text.
//! - `mirror`: the Rust beside the model, and the oracle domain.
//! - `random`, `author`, `classes`, `exhaust`, `sets`, `logs`, `plans`, `strips`,
//!   `counters`, `parties`, `draft`, `saves`, `text`: scripts.
//! - `console`, `check`, `shrink`, `tally`: running a console, comparing, making a finding small.
//! - `faults`: wrong answers on purpose, to see that the comparison notices them.
//! - `cases`: document 01's checked examples as calls.
//! - `page`: a program's printed lines beside the Rust's.

pub mod answer;
pub mod author;
pub mod call;
pub mod cases;
pub mod check;
pub mod classes;
pub mod console;
pub mod counters;
pub mod draft;
pub mod exhaust;
pub mod faults;
pub mod log;
pub mod logs;
pub mod mark;
pub mod mirror;
pub mod page;
pub mod parties;
pub mod plans;
pub mod random;
pub mod reader;
pub mod refusals;
pub mod saved;
pub mod saves;
pub mod script;
pub mod sets;
pub mod settings;
pub mod shrink;
pub mod strip;
pub mod strips;
pub mod tally;
pub mod tank;
pub mod tanks;
pub mod text;

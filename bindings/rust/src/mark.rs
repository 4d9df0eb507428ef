//! Marks: what a position carries.

/// Whose marks they are. The plant and the laboratory are each shown their own.
#[derive(Clone, Copy, Debug, Default, PartialEq, Eq, Hash, PartialOrd, Ord)]
pub enum Party {
    /// The plant, as which a map is called at first.
    #[default]
    Plant,
    /// The laboratory, which neither inserts nor deletes.
    Lab,
}

/// What a mark says.
///
/// Two values are `==` as a question compares them: decimals as `f64`s, so that 0.0 is -0.0.
/// Where the map compares contents (refusal 7) it goes by the bits.
///
/// ```
/// use mavelino::Value;
/// assert_eq!(Value::from(true), Value::Bool(true));
/// assert_ne!(Value::from(0), Value::from(0.0));
/// ```
#[derive(Clone, Copy, Debug, Default, PartialEq)]
pub enum Value {
    /// A mark taken off: where it wins, its key shows nothing.
    #[default]
    Null,
    /// Yes or no.
    Bool(bool),
    /// A whole number.
    Whole(i64),
    /// A decimal. A NaN is refused by 6.
    Decimal(f64),
}

impl From<bool> for Value {
    fn from(yes: bool) -> Self {
        Value::Bool(yes)
    }
}

impl From<i64> for Value {
    fn from(whole: i64) -> Self {
        Value::Whole(whole)
    }
}

impl From<f64> for Value {
    fn from(decimal: f64) -> Self {
        Value::Decimal(decimal)
    }
}

/// What tells one mark of a party's from another in a tank.
///
/// Of the marks of one key that a position carries the greatest lamport wins, then the greatest
/// peer. The order here is that of every answer: by key, lamport and peer.
#[derive(Clone, Copy, Debug, Default, PartialEq, Eq, Hash, PartialOrd, Ord)]
pub struct Identity {
    /// The number that the caller gave a style's name.
    pub key: u16,
    /// A count that rises as the boxes hear of each other.
    pub lamport: u32,
    /// The box.
    pub peer: u64,
}

/// A mark: an identity and its content.
///
/// The old module's `StyleOp`, with a number for its key and a byte for its `info`.
///
/// ```
/// use mavelino::{Mark, TextStyleInfoFlag, Value};
/// let cleaning = Mark {
///     key: 1,
///     lamport: 5,
///     peer: 1,
///     cnt: 31,
///     flags: TextStyleInfoFlag::BOLD.to_byte(),
///     value: Value::Bool(true),
/// };
/// assert_eq!(cleaning.flags, 0x84);
/// assert_eq!(cleaning.identity().lamport, 5);
/// ```
#[derive(Clone, Copy, Debug, Default, PartialEq)]
pub struct Mark {
    /// The number that the caller gave a style's name.
    pub key: u16,
    /// A count that rises as the boxes hear of each other.
    pub lamport: u32,
    /// The box.
    pub peer: u64,
    /// The box's own counter, which is content and has no part in any order.
    pub cnt: i32,
    /// The flag byte: 0x80, 0x84 or 0x86 in a mark that is new
    /// ([`TextStyleInfoFlag`](crate::TextStyleInfoFlag) makes them). A mark that came with a saved
    /// text may have any.
    pub flags: u8,
    /// What it says.
    pub value: Value,
}

impl Mark {
    /// What tells it from another mark.
    pub fn identity(&self) -> Identity {
        Identity { key: self.key, lamport: self.lamport, peer: self.peer }
    }
}

/// How many runs a tank can always have, and how many it never passes. Eight tanks share 512.
#[derive(Clone, Copy, Debug, PartialEq, Eq)]
pub struct Setting {
    /// Runs that nobody else takes.
    pub share: u64,
    /// Runs at most.
    pub limit: u64,
}

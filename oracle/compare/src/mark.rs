//! Marks and sets of marks.

use std::collections::BTreeMap;

/// Key, lamport, peer: what calls and answers tell of an identity.
pub type Id = (u16, u32, u64);

/// Whose mark it is.
#[derive(Clone, Copy, Debug, Default, PartialEq, Eq, PartialOrd, Ord)]
pub enum Party {
    #[default]
    Plant,
    Lab,
}

pub const PARTIES: [Party; 2] = [Party::Plant, Party::Lab];

impl Party {
    pub fn name(self) -> &'static str {
        match self {
            Party::Plant => "plant",
            Party::Lab => "lab",
        }
    }
}

/// An identity, the plant's first: the order of tuples is the order of every answer.
pub type Owned = (Party, Id);

/// A decimal is kept by its bits, so that equality here is equality of contents.
#[derive(Clone, Copy, Debug, PartialEq, Eq)]
pub enum Value {
    Null,
    Bool(bool),
    Whole(i64),
    Decimal(u64),
}

impl Value {
    pub fn is_nan(self) -> bool {
        matches!(self, Value::Decimal(bits) if f64::from_bits(bits).is_nan())
    }

    /// Equality in a question: decimals compare as f64 does.
    pub fn shows(self, other: Value) -> bool {
        match (self, other) {
            (Value::Decimal(a), Value::Decimal(b)) => f64::from_bits(a) == f64::from_bits(b),
            _ => self == other,
        }
    }

    pub fn kind(self) -> &'static str {
        match self {
            Value::Null => "null",
            Value::Bool(_) => "bool",
            Value::Whole(_) => "whole",
            Value::Decimal(_) => "decimal",
        }
    }

    pub fn text(self) -> String {
        match self {
            Value::Null => String::new(),
            Value::Bool(yes) => (yes as u8).to_string(),
            Value::Whole(whole) => whole.to_string(),
            Value::Decimal(bits) => format!("{bits:016x}"),
        }
    }
}

/// What a mark holds beside its identity; the box's own counter has no part in any order.
#[derive(Clone, Copy, Debug, PartialEq, Eq)]
pub struct Content {
    pub cnt: i32,
    pub flags: u8,
    pub value: Value,
}

#[derive(Clone, Copy, Debug, PartialEq, Eq)]
pub struct Mark {
    pub id: Id,
    pub content: Content,
}

/// The marks that a position carries.
pub type Set = BTreeMap<Owned, Content>;

pub fn listed(set: &Set) -> Vec<Mark> {
    set.iter().map(|(&(_, id), &content)| Mark { id, content }).collect()
}

/// The marks of one party.
pub fn only(who: Party, set: &Set) -> Set {
    set.iter().filter(|(id, _)| id.0 == who).map(|(&id, &content)| (id, content)).collect()
}

//! Stands in for loro_common: the names that the three files use. `LoroValue` has the four kinds
//! of value that the tank map takes.

use std::collections::HashSet;
use std::fmt;
use std::hash::{Hash, Hasher};
use std::ops::Deref;
use std::sync::Mutex;

pub type PeerID = u64;
pub type Counter = i32;
pub type Lamport = u32;

#[derive(Debug, Clone, Copy, PartialEq, Eq, Hash)]
pub struct ID {
    pub peer: PeerID,
    pub counter: Counter,
}

impl ID {
    pub const fn new(peer: PeerID, counter: Counter) -> Self {
        Self { peer, counter }
    }
}

#[derive(Debug, Clone, Copy, PartialEq, Eq, Hash)]
pub struct IdLp {
    pub peer: PeerID,
    pub lamport: Lamport,
}

impl IdLp {
    pub const fn new(peer: PeerID, lamport: Lamport) -> Self {
        Self { peer, lamport }
    }
}

#[derive(Debug, Clone, Copy, PartialEq, Eq, Hash)]
pub struct IdFull {
    pub peer: PeerID,
    pub counter: Counter,
    pub lamport: Lamport,
}

impl IdFull {
    pub const fn new(peer: PeerID, counter: Counter, lamport: Lamport) -> Self {
        Self { peer, counter, lamport }
    }
}

/// A string kept once: copies are cheap and equality is that of places. Nothing is given back.
#[derive(Clone, Copy)]
pub struct InternalString(&'static str);

static KEPT: Mutex<Option<HashSet<&'static str>>> = Mutex::new(None);

impl From<&str> for InternalString {
    fn from(text: &str) -> Self {
        let mut kept = KEPT.lock().unwrap_or_else(|e| e.into_inner());
        let kept = kept.get_or_insert_with(HashSet::new);
        if let Some(known) = kept.get(text) {
            return Self(known);
        }
        let fresh: &'static str = Box::leak(text.to_owned().into_boxed_str());
        kept.insert(fresh);
        Self(fresh)
    }
}

impl From<String> for InternalString {
    fn from(text: String) -> Self {
        text.as_str().into()
    }
}

impl Default for InternalString {
    fn default() -> Self {
        "".into()
    }
}

impl Deref for InternalString {
    type Target = str;

    fn deref(&self) -> &str {
        self.0
    }
}

impl PartialEq for InternalString {
    #[inline]
    fn eq(&self, other: &Self) -> bool {
        std::ptr::eq(self.0, other.0)
    }
}

impl Eq for InternalString {}

impl Hash for InternalString {
    #[inline]
    fn hash<H: Hasher>(&self, hasher: &mut H) {
        hasher.write_usize(self.0.as_ptr() as usize)
    }
}

impl fmt::Debug for InternalString {
    fn fmt(&self, f: &mut fmt::Formatter<'_>) -> fmt::Result {
        fmt::Debug::fmt(self.0, f)
    }
}

impl fmt::Display for InternalString {
    fn fmt(&self, f: &mut fmt::Formatter<'_>) -> fmt::Result {
        f.write_str(self.0)
    }
}

/// Two kinds differ, and decimals compare as f64 does.
#[derive(Debug, Clone, PartialEq)]
pub enum LoroValue {
    Null,
    Bool(bool),
    Double(f64),
    I64(i64),
}

impl Eq for LoroValue {}

impl Hash for LoroValue {
    fn hash<H: Hasher>(&self, hasher: &mut H) {
        std::mem::discriminant(self).hash(hasher);
        match self {
            Self::Null => {}
            Self::Bool(yes) => yes.hash(hasher),
            Self::Double(decimal) => decimal.to_bits().hash(hasher),
            Self::I64(whole) => whole.hash(hasher),
        }
    }
}

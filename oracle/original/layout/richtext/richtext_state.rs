//! Stands in for richtext_state.rs. A child of richtext.rs sees the `pub(super)` items of
//! style_range_map.rs, so the door through which the comparison asks the original stands here.

use std::collections::BTreeMap;
use std::ops::Range;
use std::sync::Arc;

use loro_common::LoroValue;

use super::config::{StyleConfig, StyleConfigMap};
use super::style_range_map::{StyleRangeMap, StyleValue, Styles};
use super::{AnchorType, StyleKey, StyleOp, TextStyleInfoFlag};

#[derive(Debug)]
pub(crate) struct RichtextState;

/// Key, lamport, peer. The key's number, written out, is its name in the original.
pub type Id = (u16, u32, u64);

#[derive(Debug, Clone, PartialEq)]
pub struct Mark {
    pub id: Id,
    pub cnt: i32,
    pub flags: u8,
    pub value: LoroValue,
}

#[derive(Debug, Clone, PartialEq)]
pub struct Stretch {
    pub range: Range<usize>,
    pub marks: Vec<Mark>,
}

#[derive(Debug, Clone, Copy, PartialEq, Eq)]
pub struct Anchor {
    pub at: usize,
    pub start: bool,
    pub id: Id,
}

pub fn op(mark: &Mark) -> Arc<StyleOp> {
    Arc::new(StyleOp {
        lamport: mark.id.1,
        peer: mark.id.2,
        cnt: mark.cnt,
        key: mark.id.0.to_string().into(),
        value: mark.value.clone(),
        info: TextStyleInfoFlag::from_byte(mark.flags),
    })
}

fn style_key(key: u16) -> StyleKey {
    StyleKey::Key(key.to_string().into())
}

fn id_of(op: &StyleOp) -> Id {
    (op.key.parse().unwrap(), op.lamport, op.peer)
}

fn mark_of(op: &StyleOp) -> Mark {
    Mark { id: id_of(op), cnt: op.cnt, flags: op.info.to_byte(), value: op.value.clone() }
}

/// The original's map, and every mark that was ever handed to it.
#[derive(Debug, Clone, Default)]
pub struct Tank {
    map: StyleRangeMap,
    known: BTreeMap<Id, Arc<StyleOp>>,
}

impl Tank {
    pub fn new() -> Self {
        Self::default()
    }

    /// The marks of a set, by key, lamport, peer. The original shows only the last one of a key
    /// (`get`), so each known mark is put into a copy, which stays equal exactly where one of its
    /// identity was there. The set made anew of them has to be equal too: that looks at every
    /// field of an op, its counter among them.
    fn marks(&self, styles: &Styles) -> Vec<Mark> {
        let carried = |op: &&Arc<StyleOp>| match styles.get(&op.get_style_key()) {
            Some(set) => {
                let mut more = set.clone();
                more.insert((*op).clone());
                more == *set
            }
            None => false,
        };
        let ops: Vec<&Arc<StyleOp>> = self.known.values().filter(carried).collect();
        for (key, set) in styles.iter() {
            let mut anew = StyleValue::default();
            let of_key = ops.iter().filter(|op| op.get_style_key() == *key);
            of_key.for_each(|op| anew.insert((*op).clone()));
            assert!(anew == *set, "{set:?} holds another mark than was handed to it");
        }
        ops.into_iter().map(|op| mark_of(op)).collect()
    }

    pub fn annotate(&mut self, range: Range<usize>, mark: &Mark) {
        let op = op(mark);
        self.map.annotate(range, op.clone(), None);
        self.known.entry(mark.id).or_insert(op);
    }

    pub fn insert(&mut self, pos: usize, len: usize) -> Vec<Mark> {
        let styles = self.map.insert(pos, len).clone();
        self.marks(&styles)
    }

    pub fn delete(&mut self, range: Range<usize>) {
        self.map.delete(range)
    }

    /// The original looks for an equal lamport and peer under the key, so any content will do.
    pub fn remove(&mut self, id: Id, last: usize) -> usize {
        let op = op(&Mark { id, cnt: 0, flags: 0, value: LoroValue::Null });
        self.map.remove_style_scanning_backward(&op, last)
    }

    pub fn has_key(&self, range: Range<usize>, key: u16) -> bool {
        self.map.range_contains_key(range, &style_key(key))
    }

    pub fn has_key_value(&self, range: Range<usize>, key: u16, value: &LoroValue) -> bool {
        self.map.range_has_key_value(range, &key.to_string(), value)
    }

    pub fn styles_of_range(&self, range: Range<usize>) -> Option<Vec<Mark>> {
        self.map.get_styles_of_range(range).map(|styles| self.marks(styles))
    }

    /// Read before `StyleMeta` picks winners: the stand-in for it keeps the whole set.
    pub fn styles_for_insert(&self, pos: usize) -> Vec<Mark> {
        self.marks(&self.map.get_styles_for_insert(pos).styles)
    }

    pub fn winner(&self, pos: usize, key: u16) -> Option<Mark> {
        let styles = self.map.get_styles_of_range(pos..pos + 1)?;
        styles.get(&style_key(key))?.get().map(|op| mark_of(op))
    }

    pub fn iter(&self) -> Vec<Stretch> {
        let stretch = |(range, styles)| Stretch { range, marks: self.marks(styles) };
        self.map.iter().map(stretch).collect()
    }

    pub fn iter_range(&self, range: Range<usize>) -> Vec<Stretch> {
        let mut at = range.start;
        let stretch = |slice: generic_btree::ElemSlice<'_, super::style_range_map::Elem>| {
            let from = at;
            at += slice.end.unwrap_or(slice.elem.len) - slice.start.unwrap_or(0);
            Stretch { range: from..at, marks: self.marks(&slice.elem.styles) }
        };
        self.map.iter_range(range).map(stretch).collect()
    }

    /// All elements, unmarked ones too, equal neighbours perhaps apart.
    pub fn elements(&self) -> Vec<Stretch> {
        let mut at = 0;
        let stretch = |elem: &super::style_range_map::Elem| {
            let from = at;
            at += elem.len;
            Stretch { range: from..at, marks: self.marks(&elem.styles) }
        };
        self.map.tree.iter().map(stretch).collect()
    }

    pub fn anchors(&self) -> Vec<Anchor> {
        let anchor = |item: super::style_range_map::IterAnchorItem| Anchor {
            at: item.index,
            start: item.anchor_type == AnchorType::Start,
            id: id_of(&item.op),
        };
        self.map.iter_anchors().map(anchor).collect()
    }

    pub fn has_style(&self) -> bool {
        self.map.has_style()
    }

    pub fn length(&self) -> usize {
        *self.map.tree.root_cache() as usize
    }
}

/// The map with nothing around it, for timing.
#[derive(Debug, Clone, Default)]
pub struct Bare(StyleRangeMap);

#[derive(Debug, Clone)]
pub struct Key(StyleKey);

impl Key {
    pub fn new(key: u16) -> Self {
        Key(style_key(key))
    }
}

impl Bare {
    pub fn new() -> Self {
        Self::default()
    }

    #[inline]
    pub fn annotate(&mut self, range: Range<usize>, op: &Arc<StyleOp>) {
        self.0.annotate(range, op.clone(), None)
    }

    /// Answers how many keys the new positions carry.
    #[inline]
    pub fn insert(&mut self, pos: usize, len: usize) -> usize {
        self.0.insert(pos, len).len()
    }

    #[inline]
    pub fn delete(&mut self, range: Range<usize>) {
        self.0.delete(range)
    }

    #[inline]
    pub fn remove(&mut self, op: &Arc<StyleOp>, last: usize) -> usize {
        self.0.remove_style_scanning_backward(op, last)
    }

    #[inline]
    pub fn has_key(&self, range: Range<usize>, key: &Key) -> bool {
        self.0.range_contains_key(range, &key.0)
    }

    /// The winning mark's value where it is a whole number, or 0.
    #[inline]
    pub fn value(&self, pos: usize, key: &Key) -> u64 {
        let styles = self.0.get_styles_of_range(pos..pos + 1);
        let winner = styles.and_then(|styles| styles.get(&key.0)).and_then(|value| value.get());
        match winner.map(|op| &op.value) {
            Some(LoroValue::I64(whole)) => *whole as u64,
            _ => 0,
        }
    }

    /// How many keys a position carries.
    #[inline]
    pub fn keys(&self, pos: usize) -> usize {
        self.0.get_styles_of_range(pos..pos + 1).map_or(0, |styles| styles.len())
    }

    #[inline]
    pub fn length(&self) -> usize {
        *self.0.tree.root_cache() as usize
    }

    /// How many elements the list has, equal neighbours perhaps apart.
    pub fn elements(&self) -> usize {
        self.0.tree.iter().count()
    }
}

pub fn set_default(config: &mut StyleConfigMap, default: Option<StyleConfig>) {
    config.default_style = default;
}

pub fn entries(config: &StyleConfigMap) -> usize {
    config.map.len()
}

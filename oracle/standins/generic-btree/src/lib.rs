//! Stands in for generic_btree: a plain list of elements, with the part of the interface that
//! style_range_map.rs uses. A leaf's index is its place in the list, so a cursor is good until the
//! next edit that adds or drops an element; style_range_map.rs keeps none longer.
//!
//! Where elements split and join:
//! - `push`, `prepend` and `insert_by_path` first ask the neighbour that the cursor stands at
//!   (`can_merge`), then `try_insert` inside an element, then split.
//! - `update` and `drain` split at both ends.
//! - `update_leaf` drops an element whose `can_remove` says so.
//! - Equal neighbours that this leaves are joined in a tree made after `join_neighbours(true)`,
//!   and stay apart in one made after `join_neighbours(false)`. Which of the two the real tree
//!   does isn't known here, so both are compared.

use std::fmt::{self, Debug};
use std::marker::PhantomData;
use std::ops::{Bound, Range, RangeBounds};
use std::sync::atomic::{AtomicBool, Ordering};

static JOIN: AtomicBool = AtomicBool::new(false);

/// Whether trees made from now on join equal neighbours.
pub fn join_neighbours(join: bool) {
    JOIN.store(join, Ordering::Relaxed);
}

pub mod rle {
    pub trait HasLength {
        fn rle_len(&self) -> usize;
    }

    pub trait Mergeable {
        fn can_merge(&self, rhs: &Self) -> bool;
        fn merge_right(&mut self, rhs: &Self);
        fn merge_left(&mut self, left: &Self);
    }

    pub trait Sliceable: HasLength + Sized {
        fn _slice(&self, range: std::ops::Range<usize>) -> Self;

        fn split(&mut self, pos: usize) -> Self {
            let right = self._slice(pos..self.rle_len());
            *self = self._slice(0..pos);
            right
        }
    }

    pub trait TryInsert {
        fn try_insert(&mut self, pos: usize, elem: Self) -> Result<(), Self>
        where
            Self: Sized;
    }

    pub trait CanRemove {
        fn can_remove(&self) -> bool;
    }
}

use rle::*;

pub trait BTreeTrait: Sized {
    type Elem: Debug + HasLength + Sliceable + Mergeable + TryInsert + CanRemove;
    type Cache: Debug + Default + Clone + Eq;
    type CacheDiff: Debug + Default;
    const USE_DIFF: bool = true;
    fn calc_cache_internal(cache: &mut Self::Cache, caches: &[Child<Self>]) -> Self::CacheDiff;
    fn apply_cache_diff(cache: &mut Self::Cache, diff: &Self::CacheDiff);
    fn merge_cache_diff(diff1: &mut Self::CacheDiff, diff2: &Self::CacheDiff);
    fn get_elem_cache(elem: &Self::Elem) -> Self::Cache;
    fn new_cache_to_diff(cache: &Self::Cache) -> Self::CacheDiff;
    fn sub_cache(cache_lhs: &Self::Cache, cache_rhs: &Self::Cache) -> Self::CacheDiff;
}

pub struct Child<B: BTreeTrait> {
    pub cache: B::Cache,
}

#[derive(Debug, Clone, Copy, PartialEq, Eq, Hash)]
pub struct LeafIndex(pub usize);

#[derive(Debug, Clone, Copy, PartialEq, Eq, Hash)]
pub struct Cursor {
    pub leaf: LeafIndex,
    pub offset: usize,
}

impl Cursor {
    fn at(leaf: usize, offset: usize) -> Self {
        Self { leaf: LeafIndex(leaf), offset }
    }
}

#[derive(Debug, Clone, Copy, PartialEq, Eq)]
pub struct QueryResult {
    pub cursor: Cursor,
    pub found: bool,
}

#[derive(Debug)]
pub struct ElemSlice<'a, E> {
    pub cursor: Cursor,
    pub elem: &'a E,
    pub start: Option<usize>,
    pub end: Option<usize>,
}

pub trait UseLengthFinder<B: BTreeTrait> {
    fn get_len(cache: &B::Cache) -> usize;
}

pub trait Query<B: BTreeTrait> {
    type QueryArg;
    fn find(elems: &[B::Elem], arg: &Self::QueryArg) -> Option<QueryResult>;
}

#[derive(Debug, Clone, Copy, Default)]
pub struct LengthFinder;

impl<B: BTreeTrait + UseLengthFinder<B>> Query<B> for LengthFinder {
    type QueryArg = usize;

    /// The element that holds the position. Past them all: the last one, with what is left over
    /// as the offset (at the length: the element's own length).
    #[inline]
    fn find(elems: &[B::Elem], arg: &usize) -> Option<QueryResult> {
        let mut left = *arg;
        let last = elems.len().checked_sub(1)?;
        for (place, elem) in elems.iter().enumerate() {
            let len = B::get_len(&B::get_elem_cache(elem));
            if left < len {
                return Some(QueryResult { cursor: Cursor::at(place, left), found: true });
            }
            if place < last {
                left -= len;
            }
        }
        Some(QueryResult { cursor: Cursor::at(last, left), found: false })
    }
}

pub struct BTree<B: BTreeTrait> {
    elems: Vec<B::Elem>,
    root_cache: B::Cache,
    join: bool,
    _trait: PhantomData<B>,
}

impl<B: BTreeTrait> Debug for BTree<B> {
    fn fmt(&self, f: &mut fmt::Formatter<'_>) -> fmt::Result {
        self.elems.fmt(f)
    }
}

impl<B: BTreeTrait> Clone for BTree<B>
where
    B::Elem: Clone,
{
    fn clone(&self) -> Self {
        Self {
            elems: self.elems.clone(),
            root_cache: self.root_cache.clone(),
            join: self.join,
            _trait: PhantomData,
        }
    }
}

impl<B: BTreeTrait> Default for BTree<B> {
    fn default() -> Self {
        Self::new()
    }
}

/// What can be asked.
impl<B: BTreeTrait> BTree<B> {
    pub fn new() -> Self {
        Self {
            elems: Vec::new(),
            root_cache: B::Cache::default(),
            join: JOIN.load(Ordering::Relaxed),
            _trait: PhantomData,
        }
    }

    pub fn root_cache(&self) -> &B::Cache {
        &self.root_cache
    }

    pub fn is_empty(&self) -> bool {
        self.elems.is_empty()
    }

    pub fn iter(&self) -> impl Iterator<Item = &B::Elem> + '_ {
        self.elems.iter()
    }

    pub fn get_elem(&self, leaf: LeafIndex) -> Option<&B::Elem> {
        self.elems.get(leaf.0)
    }

    pub fn get_elem_mut(&mut self, leaf: LeafIndex) -> Option<&mut B::Elem> {
        self.elems.get_mut(leaf.0)
    }

    pub fn query<Q: Query<B>>(&self, arg: &Q::QueryArg) -> Option<QueryResult> {
        Q::find(&self.elems, arg)
    }

    pub fn range<Q: Query<B>>(&self, range: Range<Q::QueryArg>) -> Option<Range<QueryResult>> {
        Some(self.query::<Q>(&range.start)?..self.query::<Q>(&range.end)?)
    }

    pub fn next_elem(&self, cursor: Cursor) -> Option<Cursor> {
        let next = cursor.leaf.0 + 1;
        (next < self.elems.len()).then(|| Cursor::at(next, 0))
    }

    pub fn prev_elem(&self, cursor: Cursor) -> Option<Cursor> {
        cursor.leaf.0.checked_sub(1).map(|before| Cursor::at(before, 0))
    }

    pub fn shift_path_by_one_offset(&self, cursor: Cursor) -> Option<Cursor> {
        let Cursor { leaf: LeafIndex(mut leaf), mut offset } = cursor;
        offset += 1;
        loop {
            let len = self.elems.get(leaf)?.rle_len();
            if offset < len {
                return Some(Cursor::at(leaf, offset));
            }
            offset -= len;
            leaf += 1;
        }
    }

    /// The elements between two cursors, clipped to them; empty ones are left out.
    pub fn iter_range(
        &self,
        range: impl RangeBounds<Cursor>,
    ) -> impl Iterator<Item = ElemSlice<'_, B::Elem>> + '_ {
        let from = match range.start_bound() {
            Bound::Included(cursor) => *cursor,
            _ => Cursor::at(0, 0),
        };
        let to = match range.end_bound() {
            Bound::Excluded(cursor) | Bound::Included(cursor) => *cursor,
            _ => Cursor::at(self.elems.len(), 0),
        };
        let known = self.elems.iter().enumerate();
        known.skip(from.leaf.0).take_while(move |(place, _)| *place <= to.leaf.0).filter_map(
            move |(place, elem)| {
                let start = (place == from.leaf.0).then_some(from.offset);
                let end = (place == to.leaf.0).then_some(to.offset);
                let cursor = Cursor::at(place, start.unwrap_or(0));
                let filled = cursor.offset < end.unwrap_or(elem.rle_len());
                filled.then_some(ElemSlice { cursor, elem, start, end })
            },
        )
    }
}

/// What edits.
impl<B: BTreeTrait> BTree<B> {
    pub fn push(&mut self, elem: B::Elem) -> Cursor {
        match self.elems.last() {
            Some(last) => {
                let end = Cursor::at(self.elems.len() - 1, last.rle_len());
                self.insert_by_path(end, elem).0
            }
            None => {
                self.grow(&B::get_elem_cache(&elem));
                self.elems.push(elem);
                Cursor::at(0, 0)
            }
        }
    }

    pub fn prepend(&mut self, elem: B::Elem) -> Cursor {
        if self.elems.is_empty() {
            return self.push(elem);
        }
        self.insert_by_path(Cursor::at(0, 0), elem).0
    }

    pub fn insert_by_path(&mut self, cursor: Cursor, elem: B::Elem) -> (Cursor, ()) {
        self.grow(&B::get_elem_cache(&elem));
        let leaf = &mut self.elems[cursor.leaf.0];
        if cursor.offset == 0 && elem.can_merge(leaf) {
            leaf.merge_left(&elem);
            return (cursor, ());
        }
        if cursor.offset == leaf.rle_len() && leaf.can_merge(&elem) {
            leaf.merge_right(&elem);
            return (cursor, ());
        }
        let inside = 0 < cursor.offset && cursor.offset < leaf.rle_len();
        let tried = if inside { leaf.try_insert(cursor.offset, elem) } else { Err(elem) };
        let Err(elem) = tried else { return (cursor, ()) };
        let place = self.split_at(cursor);
        self.elems.insert(place, elem);
        (Cursor::at(self.join_left(place), 0), ())
    }

    pub fn update_leaf(
        &mut self,
        leaf: LeafIndex,
        change: impl FnOnce(&mut B::Elem) -> (bool, Option<B::Elem>, Option<B::Elem>),
    ) {
        let elem = &mut self.elems[leaf.0];
        let before = B::get_elem_cache(elem);
        let (_, one, two) = change(elem);
        assert!(one.is_none() && two.is_none(), "style_range_map.rs adds no leaves here");
        let after = B::get_elem_cache(elem);
        let gone = elem.can_remove();
        B::apply_cache_diff(&mut self.root_cache, &B::sub_cache(&after, &before));
        if gone {
            self.elems.remove(leaf.0);
        }
    }

    pub fn update(
        &mut self,
        range: Range<Cursor>,
        change: &mut impl FnMut(&mut B::Elem) -> Option<B::CacheDiff>,
    ) {
        let places = self.split_range(range);
        for elem in &mut self.elems[places] {
            if let Some(diff) = change(elem) {
                B::apply_cache_diff(&mut self.root_cache, &diff);
            }
        }
        self.join_all();
    }

    pub fn drain(&mut self, range: Range<QueryResult>) -> std::vec::IntoIter<B::Elem> {
        let places = self.split_range(range.start.cursor..range.end.cursor);
        let out: Vec<_> = self.elems.drain(places).collect();
        for elem in &out {
            let less = B::sub_cache(&B::Cache::default(), &B::get_elem_cache(elem));
            B::apply_cache_diff(&mut self.root_cache, &less);
        }
        self.join_all();
        out.into_iter()
    }

    fn grow(&mut self, by: &B::Cache) {
        B::apply_cache_diff(&mut self.root_cache, &B::new_cache_to_diff(by));
    }

    /// The first element at or after the cursor, split off there if need be.
    fn split_at(&mut self, cursor: Cursor) -> usize {
        let place = cursor.leaf.0;
        if cursor.offset == 0 {
            return place;
        }
        if cursor.offset < self.elems[place].rle_len() {
            let right = self.elems[place].split(cursor.offset);
            self.elems.insert(place + 1, right);
        }
        place + 1
    }

    fn split_range(&mut self, range: Range<Cursor>) -> Range<usize> {
        let end = self.split_at(range.end);
        let before = self.elems.len();
        let start = self.split_at(range.start);
        start..end + (self.elems.len() - before)
    }

    /// Joins an element with its left neighbour; answers where it stands then.
    fn join_left(&mut self, place: usize) -> usize {
        let joins = self.join && place > 0 && self.elems[place - 1].can_merge(&self.elems[place]);
        if joins {
            let elem = self.elems.remove(place);
            self.elems[place - 1].merge_right(&elem);
            return place - 1;
        }
        place
    }

    fn join_all(&mut self) {
        if self.join {
            for place in (1..self.elems.len()).rev() {
                self.join_left(place);
            }
        }
    }
}

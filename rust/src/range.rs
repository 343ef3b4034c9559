//! Iterators over the entries of a map and the keys of a set, which ask the list calls for a few at a time.

use crate::map::{ends, written};
use crate::sys::{self, Answer};
use crate::Refusal;
use core::fmt;
use core::iter::FusedIterator;
use core::ops::{Bound, RangeBounds};

/// How many entries are asked for at a time.
const BATCH: usize = 16;

/// A bound as the calls take it: its kind and its key.
type End = (u64, u64);

/// A list call of either kind of pool, which fills the keys and, of a map, the values.
type List = fn(&[u64], End, End, &mut [u64; BATCH], &mut [u64; BATCH]) -> Answer;

/// The entries of a map in a range, in key order: see [`Map::range`](crate::Map::range).
///
/// It yields `Ok` entries whose keys strictly rise. If a call is refused it yields that one `Err` and then ends. Words that
/// would list keys out of order are damaged: that is [`Refusal::Unsound`].
#[derive(Clone)]
pub struct MapRange<'m>(Batches<'m>);

/// The keys of a set in a range, in order: see [`Set::range`](crate::Set::range). Errors are as with [`MapRange`].
#[derive(Clone)]
pub struct SetRange<'s>(Batches<'s>);

#[derive(Clone)]
struct Batches<'p> {
    words: &'p [u64],
    list: List,
    /// Where the next batch begins and where the range ends.
    lower: End,
    upper: End,
    keys: [u64; BATCH],
    values: [u64; BATCH],
    /// Of the batch, the entries from `at` up to `held` are still to come.
    at: usize,
    held: usize,
    /// Whether the pool may hold entries past the batch.
    more: bool,
    last: Option<u64>,
}

impl<'p> Batches<'p> {
    fn new(words: &'p [u64], range: &impl RangeBounds<u64>, list: List) -> Self {
        let (lower, upper) = ends(range);
        let (keys, values) = ([0; BATCH], [0; BATCH]);
        Batches { words, list, lower, upper, keys, values, at: 0, held: 0, more: true, last: None }
    }

    fn step(&mut self) -> Result<Option<(u64, u64)>, Refusal> {
        if self.at == self.held {
            if !self.more {
                return Ok(None);
            }
            let out = (self.list)(self.words, self.lower, self.upper, &mut self.keys, &mut self.values)?;
            self.held = written(out, BATCH);
            self.at = 0;
            self.more = self.held == BATCH;
            if self.held == 0 {
                return Ok(None);
            }
        }
        let (key, value) = (self.keys[self.at], self.values[self.at]);
        // Only in damaged words do keys not rise; there the same batch could come again and again.
        if self.last.is_some_and(|last| key <= last) {
            return Err(Refusal::Unsound);
        }
        self.at += 1;
        self.last = Some(key);
        self.lower = sys::bound(Bound::Excluded(&key));
        Ok(Some((key, value)))
    }
}

impl Iterator for Batches<'_> {
    type Item = Result<(u64, u64), Refusal>;

    fn next(&mut self) -> Option<Self::Item> {
        let entry = self.step().transpose();
        if let Some(Err(_)) = entry {
            (self.at, self.held, self.more) = (0, 0, false);
        }
        entry
    }
}

impl<'m> MapRange<'m> {
    pub(crate) fn new(words: &'m [u64], range: &impl RangeBounds<u64>) -> Self {
        MapRange(Batches::new(words, range, |words, lower, upper, keys, values| {
            sys::map_list_entries(words, lower.0, lower.1, upper.0, upper.1, keys, values)
        }))
    }
}

impl<'s> SetRange<'s> {
    pub(crate) fn new(words: &'s [u64], range: &impl RangeBounds<u64>) -> Self {
        SetRange(Batches::new(words, range, |words, lower, upper, keys, _| {
            sys::set_list(words, lower.0, lower.1, upper.0, upper.1, keys)
        }))
    }
}

impl Iterator for MapRange<'_> {
    type Item = Result<(u64, u64), Refusal>;

    fn next(&mut self) -> Option<Self::Item> {
        self.0.next()
    }
}

impl Iterator for SetRange<'_> {
    type Item = Result<u64, Refusal>;

    fn next(&mut self) -> Option<Self::Item> {
        Some(self.0.next()?.map(|(key, _)| key))
    }
}

impl FusedIterator for MapRange<'_> {}
impl FusedIterator for SetRange<'_> {}

impl fmt::Debug for MapRange<'_> {
    fn fmt(&self, f: &mut fmt::Formatter<'_>) -> fmt::Result {
        f.debug_list().entries(self.clone()).finish()
    }
}

impl fmt::Debug for SetRange<'_> {
    fn fmt(&self, f: &mut fmt::Formatter<'_>) -> fmt::Result {
        f.debug_list().entries(self.clone()).finish()
    }
}

//! The view of a pool as a set.

use crate::map::{ends, value_of, written};
use crate::range::SetRange;
use crate::{pool, sys, Refusal};
use core::fmt;
use core::ops::RangeBounds;

/// A pool seen as an ordered set, as `BTreeSet<u64>` is one: see [`Pool::set`](crate::Pool::set).
///
/// Calls on a pool that is a map are refused with [`Refusal::OtherKind`]; only `len`, `is_empty` and `clear` work on both.
///
/// ```
/// use moorpontoon::{Kind, Pool};
/// # fn main() -> Result<(), moorpontoon::Refusal> {
/// let mut words = [0; 128];
/// let mut pool = Pool::make(&mut words, Kind::Set)?;
/// let mut set = pool.set();
/// assert!(set.insert(20)?);
/// assert!(!set.insert(20)?); // it was present
/// assert!(set.insert(10)?);
/// assert!(set.contains(&10)?);
/// assert_eq!(format!("{set:?}"), "{10, 20}");
/// # Ok(()) }
/// ```
pub struct Set<'p> {
    pub(crate) words: &'p mut [u64],
}

impl Set<'_> {
    /// Puts the key in, and tells whether it is new.
    pub fn insert(&mut self, key: u64) -> Result<bool, Refusal> {
        sys::set_insert(self.words, key).map(|[new, ..]| new == 1)
    }

    /// The key, if it is present.
    pub fn get(&self, key: &u64) -> Result<Option<u64>, Refusal> {
        self.get_with_pages(key).map(|(key, _)| key)
    }

    /// The key, if it is present, and how many pages were read for it: those from the root to the page that holds the key,
    /// or all levels if there is no such key.
    pub fn get_with_pages(&self, key: &u64) -> Result<(Option<u64>, usize), Refusal> {
        sys::set_get(self.words, *key).map(|out| (value_of(out), out[2] as usize))
    }

    /// Whether the key is present.
    pub fn contains(&self, key: &u64) -> Result<bool, Refusal> {
        self.contains_with_pages(key).map(|(present, _)| present)
    }

    /// Whether the key is present, and how many pages were read for it, as [`get_with_pages`](Set::get_with_pages) counts.
    pub fn contains_with_pages(&self, key: &u64) -> Result<(bool, usize), Refusal> {
        sys::set_contains(self.words, *key).map(|[present, pages, ..]| (present == 1, pages as usize))
    }

    /// Takes the key away, and tells whether it was present.
    pub fn remove(&mut self, key: &u64) -> Result<bool, Refusal> {
        sys::set_remove(self.words, *key).map(|[present, ..]| present == 1)
    }

    /// How many keys there are.
    pub fn len(&self) -> Result<usize, Refusal> {
        pool::len(self.words)
    }

    /// Whether there are no keys.
    pub fn is_empty(&self) -> Result<bool, Refusal> {
        pool::is_empty(self.words)
    }

    /// Takes every key away.
    pub fn clear(&mut self) -> Result<(), Refusal> {
        sys::clear(self.words).map(drop)
    }

    /// Writes the range's keys to the front of the slice, in order, and tells how many. It stops at the slice's end and
    /// changes nothing past what it wrote. Unlike std's `range`, a range whose ends cross is empty.
    ///
    /// ```
    /// use moorpontoon::{Kind, Pool};
    /// # fn main() -> Result<(), moorpontoon::Refusal> {
    /// # let mut words = [0; 128];
    /// # let mut pool = Pool::make(&mut words, Kind::Set)?;
    /// # let mut set = pool.set();
    /// for key in [30, 10, 20] {
    ///     set.insert(key)?;
    /// }
    /// let mut keys = [0; 8];
    /// let n = set.keys_into(..30, &mut keys)?;
    /// assert_eq!(keys[..n], [10, 20]);
    /// # Ok(()) }
    /// ```
    pub fn keys_into(&self, range: impl RangeBounds<u64>, keys: &mut [u64]) -> Result<usize, Refusal> {
        let ((lo_kind, lo_key), (hi_kind, hi_key)) = ends(&range);
        sys::set_list(self.words, lo_kind, lo_key, hi_kind, hi_key, keys).map(|out| written(out, keys.len()))
    }

    /// The range's keys one by one, in order.
    pub fn range(&self, range: impl RangeBounds<u64>) -> SetRange<'_> {
        SetRange::new(self.words, &range)
    }

    /// Every key, in order.
    pub fn iter(&self) -> SetRange<'_> {
        self.range(..)
    }
}

impl fmt::Debug for Set<'_> {
    fn fmt(&self, f: &mut fmt::Formatter<'_>) -> fmt::Result {
        let mut set = f.debug_set();
        for key in self.iter() {
            match key {
                Ok(key) => set.entry(&key),
                Err(refusal) => set.entry(&refusal),
            };
        }
        set.finish()
    }
}

//! The view of a pool as a map.

use crate::cursor::CursorMut;
use crate::range::MapRange;
use crate::{pool, sys, Refusal};
use core::fmt;
use core::ops::{Bound, RangeBounds};

/// A pool seen as an ordered map, as `BTreeMap<u64, u64>` is one: see [`Pool::map`](crate::Pool::map).
///
/// Calls on a pool that is a set are refused with [`Refusal::OtherKind`]; only `len`, `is_empty` and `clear` work on both.
/// While a cursor is [left open](CursorMut::leave_open), reads work and changes are refused with [`Refusal::Opened`].
///
/// ```
/// use moorpontoon::{Kind, Pool};
/// # fn main() -> Result<(), moorpontoon::Refusal> {
/// let mut words = [0; 128];
/// let mut pool = Pool::make(&mut words, Kind::Map)?;
/// let mut map = pool.map();
/// assert_eq!(map.insert(20, 2)?, None);
/// assert_eq!(map.insert(20, 3)?, Some(2));
/// assert_eq!(map.insert(10, 1)?, None);
/// assert_eq!(map.remove(&20)?, Some(3));
/// assert_eq!(format!("{map:?}"), "{10: 1}");
/// # Ok(()) }
/// ```
pub struct Map<'p> {
    pub(crate) words: &'p mut [u64],
}

impl Map<'_> {
    /// Files a value under a key, and gives the value that it had. Overwriting never needs room.
    pub fn insert(&mut self, key: u64, value: u64) -> Result<Option<u64>, Refusal> {
        sys::map_insert(self.words, key, value).map(value_of)
    }

    /// The key's value.
    pub fn get(&self, key: &u64) -> Result<Option<u64>, Refusal> {
        self.get_with_pages(key).map(|(value, _)| value)
    }

    /// The key's value, and how many pages were read for it: those from the root to the page that holds the key, or all
    /// levels if there is no such key.
    ///
    /// ```
    /// use moorpontoon::{Kind, Pool};
    /// # fn main() -> Result<(), moorpontoon::Refusal> {
    /// let mut words = [0; 96 + 32 * 3];
    /// let mut pool = Pool::make(&mut words, Kind::Map)?;
    /// let mut map = pool.map();
    /// for key in 1..=10 {
    ///     map.insert(key, key * 100)?;
    /// }
    /// assert_eq!(map.get_with_pages(&6)?, (Some(600), 1)); // in the root
    /// assert_eq!(map.get_with_pages(&7)?, (Some(700), 2));
    /// assert_eq!(map.get_with_pages(&11)?, (None, 2));
    /// # Ok(()) }
    /// ```
    pub fn get_with_pages(&self, key: &u64) -> Result<(Option<u64>, usize), Refusal> {
        sys::map_get(self.words, *key).map(|out| (value_of(out), out[2] as usize))
    }

    /// Whether the key is present.
    pub fn contains_key(&self, key: &u64) -> Result<bool, Refusal> {
        self.contains_key_with_pages(key).map(|(present, _)| present)
    }

    /// Whether the key is present, and how many pages were read for it, as [`get_with_pages`](Map::get_with_pages) counts.
    pub fn contains_key_with_pages(&self, key: &u64) -> Result<(bool, usize), Refusal> {
        sys::map_contains(self.words, *key).map(|[present, pages, ..]| (present == 1, pages as usize))
    }

    /// Files a value under a key that is present, and gives the value that it had. An absent key stays absent.
    ///
    /// ```
    /// use moorpontoon::{Kind, Pool};
    /// # fn main() -> Result<(), moorpontoon::Refusal> {
    /// # let mut words = [0; 128];
    /// # let mut pool = Pool::make(&mut words, Kind::Map)?;
    /// # let mut map = pool.map();
    /// map.insert(10, 1)?;
    /// assert_eq!(map.replace(10, 5)?, Some(1));
    /// assert_eq!(map.replace(11, 5)?, None);
    /// assert_eq!(map.len()?, 1);
    /// # Ok(()) }
    /// ```
    pub fn replace(&mut self, key: u64, value: u64) -> Result<Option<u64>, Refusal> {
        sys::map_replace(self.words, key, value).map(value_of)
    }

    /// Takes the key away, and gives the value that it had.
    pub fn remove(&mut self, key: &u64) -> Result<Option<u64>, Refusal> {
        sys::map_remove(self.words, *key).map(value_of)
    }

    /// How many entries there are.
    pub fn len(&self) -> Result<usize, Refusal> {
        pool::len(self.words)
    }

    /// Whether there are no entries.
    pub fn is_empty(&self) -> Result<bool, Refusal> {
        pool::is_empty(self.words)
    }

    /// Takes every entry away.
    pub fn clear(&mut self) -> Result<(), Refusal> {
        sys::clear(self.words).map(drop)
    }

    /// Writes the range's entries to the front of the two slices, in key order, and tells how many. It stops at the
    /// shorter slice's end and changes nothing past what it wrote. Unlike std's `range`, a range whose ends cross is empty.
    ///
    /// ```
    /// use moorpontoon::{Kind, Pool};
    /// # fn main() -> Result<(), moorpontoon::Refusal> {
    /// # let mut words = [0; 128];
    /// # let mut pool = Pool::make(&mut words, Kind::Map)?;
    /// # let mut map = pool.map();
    /// for (tick, place) in [(10, 1), (20, 2), (30, 3)] {
    ///     map.insert(tick, place)?;
    /// }
    /// let (mut ticks, mut places) = ([0; 8], [0; 8]);
    /// let n = map.range_into(20.., &mut ticks, &mut places)?;
    /// assert_eq!((&ticks[..n], &places[..n]), (&[20, 30][..], &[2, 3][..]));
    /// # Ok(()) }
    /// ```
    pub fn range_into(
        &self,
        range: impl RangeBounds<u64>,
        keys: &mut [u64],
        values: &mut [u64],
    ) -> Result<usize, Refusal> {
        let ((lo_kind, lo_key), (hi_kind, hi_key)) = ends(&range);
        sys::map_list_entries(self.words, lo_kind, lo_key, hi_kind, hi_key, keys, values)
            .map(|out| written(out, keys.len().min(values.len())))
    }

    /// Writes the range's keys, as [`range_into`](Map::range_into) does.
    pub fn keys_into(&self, range: impl RangeBounds<u64>, keys: &mut [u64]) -> Result<usize, Refusal> {
        let ((lo_kind, lo_key), (hi_kind, hi_key)) = ends(&range);
        sys::map_list_keys(self.words, lo_kind, lo_key, hi_kind, hi_key, keys).map(|out| written(out, keys.len()))
    }

    /// Writes the range's values, in the order of their keys, as [`range_into`](Map::range_into) does.
    pub fn values_into(&self, range: impl RangeBounds<u64>, values: &mut [u64]) -> Result<usize, Refusal> {
        let ((lo_kind, lo_key), (hi_kind, hi_key)) = ends(&range);
        sys::map_list_values(self.words, lo_kind, lo_key, hi_kind, hi_key, values).map(|out| written(out, values.len()))
    }

    /// The range's entries one by one, in key order.
    ///
    /// ```
    /// use moorpontoon::{Kind, Pool};
    /// # fn main() -> Result<(), moorpontoon::Refusal> {
    /// # let mut words = [0; 128];
    /// # let mut pool = Pool::make(&mut words, Kind::Map)?;
    /// # let mut map = pool.map();
    /// for (tick, place) in [(10, 1), (20, 2), (30, 3)] {
    ///     map.insert(tick, place)?;
    /// }
    /// for entry in map.range(..=20) {
    ///     let (tick, place) = entry?;
    ///     println!("tick {tick}, place {place}");
    /// }
    /// assert_eq!(map.range(..=20).collect::<Result<Vec<_>, _>>()?, [(10, 1), (20, 2)]);
    /// # Ok(()) }
    /// ```
    pub fn range(&self, range: impl RangeBounds<u64>) -> MapRange<'_> {
        MapRange::new(self.words, &range)
    }

    /// Every entry, in key order.
    pub fn iter(&self) -> MapRange<'_> {
        self.range(..)
    }

    /// Opens the cursor in the gap before the first entry that the lower bound lets in.
    ///
    /// ```
    /// use moorpontoon::{Kind, Pool};
    /// use std::ops::Bound;
    /// # fn main() -> Result<(), moorpontoon::Refusal> {
    /// # let mut words = [0; 128];
    /// # let mut pool = Pool::make(&mut words, Kind::Map)?;
    /// # let mut map = pool.map();
    /// for (tick, place) in [(10, 1), (20, 2), (30, 3)] {
    ///     map.insert(tick, place)?;
    /// }
    /// assert_eq!(map.lower_bound_mut(Bound::Included(&20))?.peek_next()?, Some((20, 2)));
    /// assert_eq!(map.lower_bound_mut(Bound::Excluded(&20))?.peek_next()?, Some((30, 3)));
    /// assert_eq!(map.upper_bound_mut(Bound::Included(&20))?.peek_prev()?, Some((20, 2)));
    /// assert_eq!(map.upper_bound_mut(Bound::Excluded(&20))?.peek_prev()?, Some((10, 1)));
    /// # Ok(()) }
    /// ```
    pub fn lower_bound_mut(&mut self, bound: Bound<&u64>) -> Result<CursorMut<'_>, Refusal> {
        self.lower_bound_mut_with_pages(bound).map(|(cursor, _)| cursor)
    }

    /// Opens the cursor as [`lower_bound_mut`](Map::lower_bound_mut) does, and tells how many pages were read for it.
    pub fn lower_bound_mut_with_pages(&mut self, bound: Bound<&u64>) -> Result<(CursorMut<'_>, usize), Refusal> {
        let (kind, key) = sys::bound(bound);
        let [pages, ..] = sys::cursor_open_lower(self.words, kind, key)?;
        Ok((CursorMut { words: self.words }, pages as usize))
    }

    /// Opens the cursor in the gap after the last entry that the upper bound lets in.
    pub fn upper_bound_mut(&mut self, bound: Bound<&u64>) -> Result<CursorMut<'_>, Refusal> {
        self.upper_bound_mut_with_pages(bound).map(|(cursor, _)| cursor)
    }

    /// Opens the cursor as [`upper_bound_mut`](Map::upper_bound_mut) does, and tells how many pages were read for it.
    pub fn upper_bound_mut_with_pages(&mut self, bound: Bound<&u64>) -> Result<(CursorMut<'_>, usize), Refusal> {
        let (kind, key) = sys::bound(bound);
        let [pages, ..] = sys::cursor_open_upper(self.words, kind, key)?;
        Ok((CursorMut { words: self.words }, pages as usize))
    }

    /// Takes up the cursor that was [left open](CursorMut::leave_open) in the pool, or refuses with [`Refusal::Closed`].
    pub fn cursor(&mut self) -> Result<CursorMut<'_>, Refusal> {
        // A peek moves nothing, and is refused where no cursor is open.
        sys::cursor_peek_next(self.words)?;
        Ok(CursorMut { words: self.words })
    }
}

impl fmt::Debug for Map<'_> {
    fn fmt(&self, f: &mut fmt::Formatter<'_>) -> fmt::Result {
        let mut map = f.debug_map();
        for entry in self.iter() {
            match entry {
                Ok((key, value)) => map.entry(&key, &value),
                Err(refusal) => map.entry(&"refused", &refusal),
            };
        }
        map.finish()
    }
}

/// The value, where the first word says that there is one.
pub(crate) fn value_of([present, value, ..]: [u64; 4]) -> Option<u64> {
    (present == 1).then_some(value)
}

/// How many a list wrote. Over damaged words an answer may be any number, so one above the room is not believed.
pub(crate) fn written([count, ..]: [u64; 4], room: usize) -> usize {
    room.min(count as usize)
}

/// A range's two bounds as the calls take them.
pub(crate) fn ends(range: &impl RangeBounds<u64>) -> ((u64, u64), (u64, u64)) {
    (sys::bound(range.start_bound()), sys::bound(range.end_bound()))
}

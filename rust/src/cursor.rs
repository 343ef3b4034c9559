//! The cursor of a map.

use crate::map::value_of;
use crate::{sys, Refusal};
use core::{fmt, mem};

/// A cursor over a map, with which it can be changed, as std's `CursorMut` is one. It stands in a gap: before the first
/// entry, between two, or after the last. [`Map::lower_bound_mut`] and [`Map::upper_bound_mut`] open it.
///
/// Dropping it closes it. [`leave_open`](CursorMut::leave_open) ends the borrow but keeps it open in the pool's head, where
/// [`Map::cursor`] takes it up again.
///
/// Both ends of the map are answers: `None`. On a sound pool only [`insert_after`](CursorMut::insert_after) is refused.
///
/// ```
/// use moorpontoon::{Kind, Pool};
/// use std::ops::Bound;
/// # fn main() -> Result<(), moorpontoon::Refusal> {
/// let mut words = [0; 128];
/// let mut pool = Pool::make(&mut words, Kind::Map)?;
/// let mut map = pool.map();
/// for (tick, place) in [(10, 1), (20, 2), (30, 3)] {
///     map.insert(tick, place)?;
/// }
/// let mut cursor = map.lower_bound_mut(Bound::Included(&20))?;
/// cursor.insert_after(15, 9)?;
/// assert_eq!(cursor.next()?, Some((15, 9)));
/// assert_eq!(cursor.write_prev(8)?, Some(9));
/// assert_eq!(cursor.remove_next()?, Some((20, 2)));
/// cursor.close()?;
/// assert_eq!(format!("{map:?}"), "{10: 1, 15: 8, 30: 3}");
/// # Ok(()) }
/// ```
///
/// [`Map::lower_bound_mut`]: crate::Map::lower_bound_mut
/// [`Map::upper_bound_mut`]: crate::Map::upper_bound_mut
/// [`Map::cursor`]: crate::Map::cursor
#[must_use = "a cursor that is dropped is closed: keep it, or leave it open"]
pub struct CursorMut<'m> {
    pub(crate) words: &'m mut [u64],
}

impl CursorMut<'_> {
    /// Moves over the next entry and gives it; `None`, with no move, at the end.
    #[allow(clippy::should_implement_trait)] // as std's: a cursor goes both ways and is no iterator
    pub fn next(&mut self) -> Result<Option<(u64, u64)>, Refusal> {
        sys::cursor_next(self.words).map(entry_of)
    }

    /// Moves back over the entry before and gives it; `None`, with no move, at the start.
    pub fn prev(&mut self) -> Result<Option<(u64, u64)>, Refusal> {
        sys::cursor_prev(self.words).map(entry_of)
    }

    /// The entry after the gap; `None` at the end.
    pub fn peek_next(&self) -> Result<Option<(u64, u64)>, Refusal> {
        sys::cursor_peek_next(self.words).map(entry_of)
    }

    /// The entry before the gap; `None` at the start.
    pub fn peek_prev(&self) -> Result<Option<(u64, u64)>, Refusal> {
        sys::cursor_peek_prev(self.words).map(entry_of)
    }

    /// Stores a value in the entry after the gap, and gives the value that it had; `None` at the end.
    pub fn write_next(&mut self, value: u64) -> Result<Option<u64>, Refusal> {
        sys::cursor_write_next(self.words, value).map(value_of)
    }

    /// Stores a value in the entry before the gap, and gives the value that it had; `None` at the start.
    pub fn write_prev(&mut self, value: u64) -> Result<Option<u64>, Refusal> {
        sys::cursor_write_prev(self.words, value).map(value_of)
    }

    /// Puts a new entry just after the gap, which stays where it is, so that [`next`](CursorMut::next) gives the new entry.
    ///
    /// The key must be strictly between its neighbours, or it is refused with [`Refusal::Misplaced`]; then with
    /// [`Refusal::NoRoom`] where too few pages are free.
    pub fn insert_after(&mut self, key: u64, value: u64) -> Result<(), Refusal> {
        sys::cursor_insert_after(self.words, key, value).map(drop)
    }

    /// Takes away the entry after the gap, and gives it; `None` at the end.
    pub fn remove_next(&mut self) -> Result<Option<(u64, u64)>, Refusal> {
        sys::cursor_remove_next(self.words).map(entry_of)
    }

    /// Closes the cursor, as dropping it does, and tells whether that was refused.
    pub fn close(self) -> Result<(), Refusal> {
        let closed = sys::cursor_close(self.words).map(drop);
        mem::forget(self); // it has no other cleaning up to do
        closed
    }

    /// Ends the borrow and leaves the cursor open in the pool's head, with its gap.
    ///
    /// Until it is taken up by [`Map::cursor`](crate::Map::cursor) and closed, the map can be read, but changes are refused
    /// with [`Refusal::Opened`].
    ///
    /// ```
    /// use moorpontoon::{Kind, Pool, Refusal};
    /// use std::ops::Bound;
    /// # fn main() -> Result<(), moorpontoon::Refusal> {
    /// # let mut words = [0; 128];
    /// # let mut pool = Pool::make(&mut words, Kind::Map)?;
    /// # let mut map = pool.map();
    /// map.insert(10, 1)?;
    /// map.lower_bound_mut(Bound::Unbounded)?.leave_open();
    /// assert_eq!(map.get(&10)?, Some(1));
    /// assert_eq!(map.insert(20, 2), Err(Refusal::Opened));
    /// assert_eq!(map.cursor()?.next()?, Some((10, 1))); // taken up, moved, and closed at the end of this line
    /// assert_eq!(map.insert(20, 2), Ok(None));
    /// # Ok(()) }
    /// ```
    pub fn leave_open(self) {
        mem::forget(self);
    }
}

impl Drop for CursorMut<'_> {
    fn drop(&mut self) {
        // A refusal means that the pool holds no open cursor of a map any more: there is nothing left to close.
        let _ = sys::cursor_close(self.words);
    }
}

impl fmt::Debug for CursorMut<'_> {
    fn fmt(&self, f: &mut fmt::Formatter<'_>) -> fmt::Result {
        f.debug_struct("CursorMut").field("prev", &self.peek_prev()).field("next", &self.peek_next()).finish()
    }
}

/// The entry, where the first word says that there is one.
fn entry_of([present, key, value, _]: [u64; 4]) -> Option<(u64, u64)> {
    (present == 1).then_some((key, value))
}

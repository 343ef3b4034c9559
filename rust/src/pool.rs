//! The pool: lent words that hold a map or a set.

use crate::{sys, Map, Refusal, Set};
use core::fmt;

/// The most pages that a pool has.
pub const MAX_PAGES: usize = 4096;

/// How many words a pool of so many pages has: `96 + 32 * pages`. Pools have 1 to [`MAX_PAGES`] pages.
///
/// ```
/// let words = [0u64; moorpontoon::words_for(253)];
/// assert_eq!(words.len(), 8192);
/// ```
pub const fn words_for(pages: usize) -> usize {
    pages.saturating_mul(32).saturating_add(96)
}

/// What a pool is made to hold.
#[derive(Clone, Copy, Debug, Eq, Hash, PartialEq)]
pub enum Kind {
    /// Keys with values: see [`Map`].
    Map = 0,
    /// Keys alone: see [`Set`].
    Set = 1,
}

/// A pool over words that you lend. [`map`](Pool::map) and [`set`](Pool::set) are its views.
///
/// ```
/// use moorpontoon::{words_for, Kind, Pool};
/// # fn main() -> Result<(), moorpontoon::Refusal> {
/// let mut words = vec![0; words_for(8)];
/// let mut pool = Pool::make(&mut words, Kind::Set)?;
/// pool.set().insert(7)?;
/// assert_eq!(pool.len()?, 1);
///
/// // The words are the pool: taken up again, they hold what they held.
/// let mut pool = Pool::over(&mut words);
/// assert!(pool.check());
/// assert!(pool.set().contains(&7)?);
/// # Ok(()) }
/// ```
pub struct Pool<'a> {
    words: &'a mut [u64],
}

impl<'a> Pool<'a> {
    /// Takes words as a pool, without a look at them: any words are allowed, and calls on words that are no pool are refused.
    pub fn over(words: &'a mut [u64]) -> Self {
        Pool { words }
    }

    /// Makes an empty pool in the words, whatever they hold. Only the length can be refused.
    ///
    /// ```
    /// use moorpontoon::{Kind, Pool, Refusal};
    /// assert!(Pool::make(&mut [0; 128], Kind::Map).is_ok());
    /// assert_eq!(Pool::make(&mut [0; 129], Kind::Map).unwrap_err(), Refusal::Unfit);
    /// ```
    pub fn make(words: &'a mut [u64], kind: Kind) -> Result<Self, Refusal> {
        let mut pool = Pool::over(words);
        pool.remake(kind)?;
        Ok(pool)
    }

    /// Makes the pool anew, empty and of this kind, whatever it holds; a cursor open in it is closed.
    pub fn remake(&mut self, kind: Kind) -> Result<(), Refusal> {
        sys::make(self.words, kind as u64).map(drop)
    }

    /// Takes every entry away. The kind stays.
    pub fn clear(&mut self) -> Result<(), Refusal> {
        sys::clear(self.words).map(drop)
    }

    /// How many entries there are.
    pub fn len(&self) -> Result<usize, Refusal> {
        len(self.words)
    }

    /// Whether there are no entries.
    pub fn is_empty(&self) -> Result<bool, Refusal> {
        is_empty(self.words)
    }

    /// Whether the pool is sound: its head, its page map and all its pages agree. It reads every page in use.
    pub fn check(&self) -> bool {
        sys::check(self.words).is_ok_and(|[sound, ..]| sound == 1)
    }

    /// Copies this pool over another of the same length, which may hold anything but an open cursor.
    /// The copy's cursor is closed; this one's stays as it is.
    ///
    /// ```
    /// use moorpontoon::{Kind, Pool};
    /// # fn main() -> Result<(), moorpontoon::Refusal> {
    /// let (mut words, mut spare) = ([0; 128], [0; 128]);
    /// let mut pool = Pool::make(&mut words, Kind::Map)?;
    /// pool.map().insert(1000, 0)?;
    /// let mut copy = Pool::over(&mut spare);
    /// pool.copy_to(&mut copy)?;
    /// assert_eq!(copy.map().get(&1000)?, Some(0));
    /// # Ok(()) }
    /// ```
    pub fn copy_to(&self, other: &mut Pool<'_>) -> Result<(), Refusal> {
        sys::copy(self.words, other.words).map(drop)
    }

    /// The view of a map. It asks nothing: calls on a pool that is a set are refused one by one.
    pub fn map(&mut self) -> Map<'_> {
        Map { words: self.words }
    }

    /// The view of a set. It asks nothing: calls on a pool that is a map are refused one by one.
    pub fn set(&mut self) -> Set<'_> {
        Set { words: self.words }
    }

    /// The view of a map, for as long as the words are lent.
    ///
    /// ```
    /// use moorpontoon::{Kind, Map, Pool, Refusal};
    /// struct Index<'a> {
    ///     frames: Map<'a>,
    /// }
    /// impl<'a> Index<'a> {
    ///     fn new(words: &'a mut [u64]) -> Result<Self, Refusal> {
    ///         Ok(Index { frames: Pool::make(words, Kind::Map)?.into_map() })
    ///     }
    /// }
    /// # assert!(Index::new(&mut [0; 128]).unwrap().frames.is_empty().unwrap());
    /// ```
    pub fn into_map(self) -> Map<'a> {
        Map { words: self.words }
    }

    /// The view of a set, for as long as the words are lent.
    pub fn into_set(self) -> Set<'a> {
        Set { words: self.words }
    }

    /// The pool's words.
    pub fn words(&self) -> &[u64] {
        self.words
    }

    /// The pool's words, to be changed by hand: [`check`](Pool::check) tells whether they are still a sound pool.
    pub fn words_mut(&mut self) -> &mut [u64] {
        self.words
    }

    /// Gives the lent words back.
    pub fn into_words(self) -> &'a mut [u64] {
        self.words
    }
}

impl fmt::Debug for Pool<'_> {
    fn fmt(&self, f: &mut fmt::Formatter<'_>) -> fmt::Result {
        f.debug_struct("Pool").field("words", &self.words.len()).field("len", &self.len()).finish()
    }
}

/// How many entries the pool in these words has: at most nine to a page.
pub(crate) fn len(words: &[u64]) -> Result<usize, Refusal> {
    sys::count(words).map(|[count, ..]| count as usize)
}

/// Whether the pool in these words has no entries.
pub(crate) fn is_empty(words: &[u64]) -> Result<bool, Refusal> {
    sys::is_empty(words).map(|[empty, ..]| empty == 1)
}

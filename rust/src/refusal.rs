//! Why a call was refused.

use core::fmt;

/// Why a call was refused. A refused call has changed no word of any slice.
///
/// Where several are due, the first is given in the order [`Unfit`](Refusal::Unfit), [`OtherKind`](Refusal::OtherKind),
/// [`BadBound`](Refusal::BadBound), [`Lengths`](Refusal::Lengths), [`Opened`](Refusal::Opened),
/// [`Closed`](Refusal::Closed), [`Unsound`](Refusal::Unsound), [`Misplaced`](Refusal::Misplaced),
/// [`NoRoom`](Refusal::NoRoom).
///
/// ```
/// use moorpontoon::{Kind, Pool, Refusal};
///
/// let mut words = [0; 127];
/// let refusal = Pool::make(&mut words, Kind::Map).unwrap_err();
/// assert_eq!(refusal, Refusal::Unfit);
/// assert_eq!(refusal.number(), 1);
/// println!("{refusal}"); // says what to do about it
/// ```
#[derive(Clone, Copy, Debug, Eq, Hash, PartialEq)]
#[non_exhaustive]
pub enum Refusal {
    /// The slice's length is not that of a pool, or the head does not fit: no pool was made in these words.
    Unfit = 1,
    /// A map or cursor call on a set, or a set call on a map.
    OtherKind = 2,
    /// A bound of no known kind. It cannot come up here, where bounds are [`Bound`](core::ops::Bound)s.
    BadBound = 3,
    /// A cursor is open in the pool, and this call would change the pool behind it.
    Opened = 4,
    /// No cursor is open in the pool.
    Closed = 5,
    /// The key to insert is not strictly between the entries on both sides of the cursor's gap.
    Misplaced = 6,
    /// A new key needs more pages than are free. Never while a pool of `P` pages has at most `4 * P` entries.
    NoRoom = 7,
    /// The two pools of a copy differ in length.
    Lengths = 8,
    /// The pool's words are damaged. Never on a pool that calls alone have changed since it was made.
    Unsound = 9,
}

impl Refusal {
    /// The refusal's number, 1 to 9, as the C functions return it.
    pub const fn number(self) -> u64 {
        self as u64
    }

    /// What a C function answered: its number is 0 for an answer.
    pub(crate) fn or_answer<T>(number: u64, answer: T) -> Result<T, Refusal> {
        Err(match number {
            0 => return Ok(answer),
            1 => Refusal::Unfit,
            2 => Refusal::OtherKind,
            3 => Refusal::BadBound,
            4 => Refusal::Opened,
            5 => Refusal::Closed,
            6 => Refusal::Misplaced,
            7 => Refusal::NoRoom,
            8 => Refusal::Lengths,
            9 => Refusal::Unsound,
            // 255 is for an `out` that is too short, which this crate never lends.
            other => unreachable!("libmoorpontoon.a is of another version: a call returned {other}"),
        })
    }
}

impl fmt::Display for Refusal {
    fn fmt(&self, f: &mut fmt::Formatter<'_>) -> fmt::Result {
        f.write_str(match self {
            Refusal::Unfit => {
                "these words are no pool: lend 96 + 32 * P words (P from 1 to 4096), and make a pool in them first"
            }
            Refusal::OtherKind => "the pool is of the other kind: use the view of the kind that it was made with",
            Refusal::BadBound => "no such bound: a bound is included, excluded or unbounded",
            Refusal::Opened => "a cursor is open in the pool: close it first",
            Refusal::Closed => "no cursor is open in the pool: open one first",
            Refusal::Misplaced => {
                "the key does not belong in the cursor's gap: move the cursor, or close it and insert"
            }
            Refusal::NoRoom => "too few pages are free: remove entries, or fill a longer pool",
            Refusal::Lengths => "the two pools differ in length: copy into one of the same length",
            Refusal::Unsound => "the pool's words are damaged: copy a sound pool over them, or make it anew",
        })
    }
}

impl core::error::Error for Refusal {}

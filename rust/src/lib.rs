//! An ordered map, a set and a cursor from `u64` to `u64`, in a pool of words that you lend: for the frame index of a
//! high-speed camera, clock tick to frame place. There is no heap. Whatever the words and the arguments, a call answers or
//! is [refused](Refusal), and a refusal changes nothing.
//!
//! This crate is a thin safe layer over the library `moorpontoon`, which is written and proved in Rattle. The names are
//! those of [`BTreeMap`], [`BTreeSet`] and std's `CursorMut`; as every call can be refused, each returns a [`Result`].
//!
//! # A first program
//!
//! ```
//! use moorpontoon::{words_for, Kind, Pool, Refusal};
//! use std::ops::Bound;
//!
//! fn main() -> Result<(), Refusal> {
//!     let mut words = [0; words_for(16)];
//!     let mut pool = Pool::make(&mut words, Kind::Map)?;
//!     let mut frames = pool.map();
//!     for (tick, place) in [(3000, 2), (1000, 0), (2000, 1), (4000, 3)] {
//!         frames.insert(tick, place)?;
//!     }
//!     assert_eq!(frames.get(&3000)?, Some(2));
//!     assert_eq!(frames.get(&3500)?, None);
//!
//!     let mut cursor = frames.lower_bound_mut(Bound::Included(&2000))?;
//!     while let Some((tick, place)) = cursor.next()? {
//!         println!("tick {tick}, place {place}");
//!     }
//!     cursor.insert_after(5000, 4)?;
//!     assert_eq!(cursor.insert_after(3500, 5), Err(Refusal::Misplaced));
//!     cursor.close()?;
//!
//!     assert_eq!(frames.len()?, 5);
//!     Ok(())
//! }
//! ```
//!
//! # How long a pool
//!
//! A pool of `P` pages is [`words_for`]`(P)` words long, `P` from 1 to [`MAX_PAGES`]. It takes any new key while it has at
//! most `4 * P` entries, whatever was called before. Beyond that a new key is refused with [`Refusal::NoRoom`] when too
//! few pages are free; a page holds at most 9 entries.
//!
//! # What is lent
//!
//! All there is of a pool stands in its words: write them to a file, read them back, and [`Pool::over`] them. Words that
//! come from elsewhere are no danger to memory. [`Pool::check`] tells whether they are a sound pool; on one that is not, a
//! call may be refused with [`Refusal::Unsound`], or answer and leave anything inside the words.
//!
//! # Linking
//!
//! Set `MOORPONTOON_LIB` to the path of the archive `libmoorpontoon.a`, absolute or from this crate's folder. Without
//! it the build runs `rt lib` in the repository's crates/moorpontoon, which proves the library and makes the archive for
//! x86-64 Linux, on processors of level x86-64-v2 and above. This crate needs `core` alone.
//!
//! [`BTreeMap`]: https://doc.rust-lang.org/std/collections/struct.BTreeMap.html
//! [`BTreeSet`]: https://doc.rust-lang.org/std/collections/struct.BTreeSet.html

#![no_std]
#![deny(unsafe_code)]
#![warn(missing_docs, missing_debug_implementations)]

mod cursor;
mod map;
mod pool;
mod range;
mod refusal;
mod set;
#[allow(unsafe_code)]
mod sys;

pub use cursor::CursorMut;
pub use map::Map;
pub use pool::{words_for, Kind, Pool, MAX_PAGES};
pub use range::{MapRange, SetRange};
pub use refusal::Refusal;
pub use set::Set;

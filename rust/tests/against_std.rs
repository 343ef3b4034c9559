//! Many thousands of random calls on maps and their cursors, beside std's `BTreeMap`: every answer is compared, every
//! refusal comes exactly when it is due, and a refused call leaves every word as it was.

mod common;

use common::{free_pages, path, seasons, some_key, Rng, UNTOUCHED};
use moorpontoon::{words_for, CursorMut, Kind, Map, Pool, Refusal};
use std::collections::BTreeMap;
use std::fmt::Debug;
use std::ops::Bound::{Excluded, Included, Unbounded};
use std::ops::RangeBounds;

type Entry = (u64, u64);

/// A map under trial, and what it must answer.
struct Trial {
    pages: usize,
    words: Vec<u64>,
    rng: Rng,
    map: BTreeMap<u64, u64>,
    /// While the cursor is open: the entries in a row, and how many of them are before the gap.
    gap: Option<(Vec<Entry>, usize)>,
    /// How often each refusal came.
    seen: [usize; 10],
}

impl Trial {
    fn new(pages: usize, seed: u64) -> Self {
        let mut words = vec![seed; words_for(pages)];
        Pool::make(&mut words, Kind::Map).unwrap();
        Trial { pages, words, rng: Rng(seed), map: BTreeMap::new(), gap: None, seen: [0; 10] }
    }

    fn key(&mut self) -> u64 {
        let key = some_key(&mut self.rng, self.pages);
        let present = self.map.range(key..).next().map(|(&key, _)| key);
        if self.rng.once_in(2) {
            key
        } else {
            present.unwrap_or(key)
        }
    }

    /// Runs a call that must give `due`. A refusal, and a call that `changes` nothing, must leave every word.
    fn expect<T: Debug + PartialEq>(
        &mut self,
        due: Result<T, Refusal>,
        changes: bool,
        call: impl FnOnce(&mut Map<'_>) -> Result<T, Refusal>,
    ) {
        // Long pools are compared only after refusals, to save time.
        let before = (due.is_err() || !changes && self.pages <= 64).then(|| self.words.clone());
        let answer = call(&mut Pool::over(&mut self.words).map());
        assert_eq!(answer, due, "{} pages, {} entries", self.pages, self.map.len());
        if let Err(refusal) = answer {
            self.seen[refusal.number() as usize] += 1;
        }
        if let Some(before) = before {
            assert!(self.words == before, "words have changed in a call that gave {due:?}");
        }
    }

    /// Runs a call of the cursor, which is taken up for it and left open.
    fn expect_cursor<T: Debug + PartialEq>(
        &mut self,
        due: Result<T, Refusal>,
        changes: bool,
        call: impl FnOnce(&mut CursorMut<'_>) -> Result<T, Refusal>,
    ) {
        self.expect(due, changes, |map| {
            let mut cursor = map.cursor()?;
            let answer = call(&mut cursor);
            cursor.leave_open();
            answer
        });
    }

    fn step(&mut self, inserts: u64) {
        match (self.rng.below(40), self.gap.is_some()) {
            (0..=4, _) => self.read(),
            (5, _) => self.list(),
            (6, false) => self.open(),
            (6 | 7, true) => self.close(),
            (8..=11, true) => self.change(inserts),
            (_, true) => self.move_or_edit(inserts),
            (_, false) => self.change(inserts),
        }
    }

    fn read(&mut self) {
        let key = self.key();
        let value = self.map.get(&key).copied();
        let (n, pages) = (self.map.len(), path(&self.words, key).pages);
        match self.rng.below(6) {
            0 | 1 => self.expect(Ok((value, pages)), false, |map| map.get_with_pages(&key)),
            2 => self.expect(Ok((value.is_some(), pages)), false, |map| map.contains_key_with_pages(&key)),
            3 => self.expect(Ok((value, value.is_some())), false, |map| Ok((map.get(&key)?, map.contains_key(&key)?))),
            4 => self.expect(Ok((n, n == 0)), false, |map| Ok((map.len()?, map.is_empty()?))),
            _ if self.gap.is_none() => self.expect(Err(Refusal::Closed), false, |map| map.cursor().map(drop)),
            _ => {}
        }
        let every = self.pages as u64;
        if self.rng.once_in(every) {
            assert!(Pool::over(&mut self.words).check(), "unsound after {} entries", self.map.len());
        }
    }

    fn list(&mut self) {
        let (lower, upper) = (self.key(), self.key());
        let range = (self.rng.bound(lower), self.rng.bound(upper));
        // Ends that cross give none, where std's range would panic: so only the lower end is asked of std's range.
        let upper = (Unbounded, range.1);
        let due = self.map.range((range.0, Unbounded)).take_while(|&(key, _)| upper.contains(key));
        let due: Vec<Entry> = due.map(|(&key, &value)| (key, value)).take(200).collect();

        let (ks, vs) = (self.rng.below(60) as usize, self.rng.below(60) as usize);
        let n = due.len().min(ks).min(vs);
        let (mut keys, mut values) = (vec![UNTOUCHED; ks], vec![UNTOUCHED; vs]);
        self.expect(Ok(n), false, |map| map.range_into(range, &mut keys, &mut values));
        assert!(due.iter().copied().take(n).eq(keys[..n].iter().copied().zip(values[..n].iter().copied())));
        assert!(keys[n..].iter().chain(&values[n..]).all(|&word| word == UNTOUCHED));

        let (k, v) = (due.len().min(ks), due.len().min(vs));
        let (mut keys, mut values) = (vec![UNTOUCHED; ks], vec![UNTOUCHED; vs]);
        self.expect(Ok(k), false, |map| map.keys_into(range, &mut keys));
        self.expect(Ok(v), false, |map| map.values_into(range, &mut values));
        assert!(due.iter().map(|entry| &entry.0).take(k).eq(&keys[..k]));
        assert!(due.iter().map(|entry| &entry.1).take(v).eq(&values[..v]));
        assert!(keys[k..].iter().chain(&values[v..]).all(|&word| word == UNTOUCHED));

        self.expect(Ok(due), false, |map| map.range(range).take(200).collect());
    }

    /// What a new key must answer for room: all there is to say of it once its place is right.
    fn room(&self, key: u64) -> Result<(), Refusal> {
        if path(&self.words, key).needed <= free_pages(&self.words) {
            return Ok(());
        }
        assert!(self.map.len() > 4 * self.pages, "room is owed while there are at most four entries to a page");
        Err(Refusal::NoRoom)
    }

    /// A change through the map, which is refused while the cursor is open.
    fn change(&mut self, inserts: u64) {
        let insert = self.rng.below(10) < inserts;
        let key = if insert { some_key(&mut self.rng, self.pages) } else { self.key() };
        let value = self.rng.number();
        let old = self.map.get(&key).copied();
        let closed = if self.gap.is_some() { Err(Refusal::Opened) } else { Ok(()) };
        if self.rng.once_in(10) {
            self.expect(closed.map(|()| old), old.is_some(), |map| map.replace(key, value));
            if closed.is_ok() && old.is_some() {
                self.map.insert(key, value);
            }
        } else if insert {
            let room = if old.is_some() { Ok(()) } else { self.room(key) };
            let due = closed.and(room);
            self.expect(due.map(|()| old), true, |map| map.insert(key, value));
            if due.is_ok() {
                self.map.insert(key, value);
            }
        } else {
            self.expect(closed.map(|()| old), old.is_some(), |map| map.remove(&key));
            if closed.is_ok() {
                self.map.remove(&key);
            }
        }
        if self.rng.once_in(200 * self.pages as u64) {
            self.expect(closed, true, |map| map.clear());
            if closed.is_ok() {
                self.map.clear();
            }
        }
    }

    fn open(&mut self) {
        let key = self.key();
        let bound = self.rng.bound(key);
        let lower = self.rng.once_in(2);
        let levels = self.words[4] as usize;
        let pages = if lower && bound == Unbounded { 0 } else { levels };
        self.expect(Ok(pages), true, |map| {
            let opened = if lower {
                map.lower_bound_mut_with_pages(bound.as_ref())
            } else {
                map.upper_bound_mut_with_pages(bound.as_ref())
            };
            opened.map(|(cursor, pages)| {
                cursor.leave_open();
                pages
            })
        });
        let row: Vec<Entry> = self.map.iter().map(|(&key, &value)| (key, value)).collect();
        let place = match (lower, bound) {
            (true, Included(b)) | (false, Excluded(b)) => row.partition_point(|&(key, _)| key < b),
            (true, Excluded(b)) | (false, Included(b)) => row.partition_point(|&(key, _)| key <= b),
            (true, Unbounded) => 0,
            (false, Unbounded) => row.len(),
        };
        self.gap = Some((row, place));
        self.expect(Err(Refusal::Opened), false, |map| map.lower_bound_mut(Unbounded).map(drop));
        self.expect(Err(Refusal::Opened), false, |map| map.upper_bound_mut(Included(&key)).map(drop));
    }

    fn close(&mut self) {
        let (row, _) = self.gap.take().unwrap();
        assert!(row.into_iter().eq(self.map.iter().map(|(&key, &value)| (key, value))));
        if self.rng.once_in(2) {
            self.expect(Ok(()), true, |map| map.cursor()?.close());
        } else {
            self.expect(Ok(()), true, |map| map.cursor().map(drop));
        }
        assert_eq!(self.words[5..8], [0, 0, 0]);
    }

    fn move_or_edit(&mut self, inserts: u64) {
        let value = self.rng.number();
        let (mut row, mut place) = self.gap.take().unwrap();
        let after = row.get(place).copied();
        let before = place.checked_sub(1).map(|place| row[place]);
        let shown = |entry: Option<Entry>| entry.map(|(_, value)| value);
        match self.rng.below(20) {
            0..=3 => {
                self.expect_cursor(Ok(after), after.is_some(), |cursor| cursor.next());
                place += after.iter().len();
            }
            4..=7 => {
                self.expect_cursor(Ok(before), before.is_some(), |cursor| cursor.prev());
                place -= before.iter().len();
            }
            8 => self.expect_cursor(Ok(after), false, |cursor| cursor.peek_next()),
            9 => self.expect_cursor(Ok(before), false, |cursor| cursor.peek_prev()),
            10 | 11 => {
                self.expect_cursor(Ok(shown(after)), after.is_some(), |cursor| cursor.write_next(value));
                if let Some((key, _)) = after {
                    row[place].1 = value;
                    self.map.insert(key, value);
                }
            }
            12 | 13 => {
                self.expect_cursor(Ok(shown(before)), before.is_some(), |cursor| cursor.write_prev(value));
                if let Some((key, _)) = before {
                    row[place - 1].1 = value;
                    self.map.insert(key, value);
                }
            }
            _ if self.rng.below(10) < inserts => {
                let key = self.key_near_gap(before, after);
                let fits = before.is_none_or(|(low, _)| low < key) && after.is_none_or(|(high, _)| key < high);
                let due = if fits { self.room(key) } else { Err(Refusal::Misplaced) };
                self.expect_cursor(due, true, |cursor| cursor.insert_after(key, value));
                if due.is_ok() {
                    row.insert(place, (key, value));
                    self.map.insert(key, value);
                }
            }
            _ => {
                self.expect_cursor(Ok(after), after.is_some(), |cursor| cursor.remove_next());
                if let Some((key, _)) = after {
                    row.remove(place);
                    self.map.remove(&key);
                }
            }
        }
        self.gap = Some((row, place));
    }

    /// Mostly a key that fits between the two entries; also their own keys, and any.
    fn key_near_gap(&mut self, before: Option<Entry>, after: Option<Entry>) -> u64 {
        let low = before.map_or(0, |(key, _)| key);
        let high = after.map_or(u64::MAX, |(key, _)| key);
        match self.rng.below(8) {
            0 => low,
            1 => high,
            2 => self.key(),
            _ => low + self.rng.number() % (high - low).max(1),
        }
    }

    /// A copy holds the same entries, with no cursor; copying in is refused while the cursor is open.
    fn copy(&mut self) {
        let mut words = vec![self.rng.number(); self.words.len()];
        let mut copy = Pool::over(&mut words);
        let mut source = Pool::over(&mut self.words);
        source.copy_to(&mut copy).unwrap();
        assert!(copy.check());
        let map = copy.map();
        assert!(map.iter().map(Result::unwrap).eq(self.map.iter().map(|(&key, &value)| (key, value))));
        let back = if self.gap.is_some() { Err(Refusal::Opened) } else { Ok(()) };
        let before = source.words().to_vec();
        assert_eq!(copy.copy_to(&mut source), back);
        assert!(self.words == before, "a copy copied back, or a refusal, has changed words");
    }
}

/// Seasons of calls on a map of so many pages.
fn trial(pages: usize) {
    let mut trial = Trial::new(pages, 0x5eed_0000 + pages as u64);
    for (calls, inserts) in seasons(pages) {
        for _ in 0..calls {
            trial.step(inserts);
        }
        assert!(Pool::over(&mut trial.words).check());
        trial.copy();
    }
    assert!(trial.map.is_empty(), "the last season did not empty the map");
    let seen = trial.seen;
    assert!([4, 5, 6, 7].iter().all(|&number| seen[number] > 0), "a refusal never came up: {seen:?}");
}

#[test]
fn map_of_1_page() {
    trial(1);
}

#[test]
fn map_of_2_pages() {
    trial(2);
}

#[test]
fn map_of_3_pages() {
    trial(3);
}

#[test]
fn map_of_64_pages() {
    trial(64);
}

#[test]
fn map_of_253_pages() {
    trial(253);
}

#[test]
fn map_of_4096_pages() {
    trial(4096);
}

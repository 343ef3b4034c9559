//! What the tests share: random numbers and keys, the way to a key read from a pool's words, and words between guards.
#![allow(dead_code)] // each test file uses its part

use std::ops::Bound;

/// A small generator (splitmix64): the same numbers in every run.
pub struct Rng(pub u64);

impl Rng {
    pub fn number(&mut self) -> u64 {
        self.0 = self.0.wrapping_add(0x9e37_79b9_7f4a_7c15);
        let mut x = self.0;
        x = (x ^ (x >> 30)).wrapping_mul(0xbf58_476d_1ce4_e5b9);
        x = (x ^ (x >> 27)).wrapping_mul(0x94d0_49bb_1331_11eb);
        x ^ (x >> 31)
    }

    /// A number from 0 up to `end`, itself not included.
    pub fn below(&mut self, end: u64) -> u64 {
        self.number() % end
    }

    /// True once in `times`.
    pub fn once_in(&mut self, times: u64) -> bool {
        self.below(times) == 0
    }

    pub fn bound(&mut self, key: u64) -> Bound<u64> {
        match self.below(5) {
            0 | 1 => Bound::Included(key),
            2 | 3 => Bound::Excluded(key),
            _ => Bound::Unbounded,
        }
    }
}

/// How many calls, and how many changes of ten are insertions, by turns: enough to fill the pool twice and empty it.
pub fn seasons(pages: usize) -> [(usize, u64); 6] {
    let calls = |each: usize| (pages * each).max(3_000);
    [(calls(24), 9), (calls(12), 2), (calls(6), 6), (calls(20), 9), (calls(6), 5), (calls(30), 0)]
}

/// A key that is often near others, at times one of the first or the last there are.
pub fn some_key(rng: &mut Rng, pages: usize) -> u64 {
    let span = 14 * pages as u64;
    match rng.below(40) {
        0 => u64::MAX - rng.below(3),
        1 => rng.below(3),
        _ => rng.below(span) * (u64::MAX / span),
    }
}

/// The places of a list that no call may change, past those it wrote.
pub const UNTOUCHED: u64 = 0xfeed;

/// The way from the root to a key, read from the words by the layout of the pool.
pub struct Path {
    /// Pages from the root to the one that holds the key, or all levels.
    pub pages: usize,
    /// Pages that the key needs if it is new.
    pub needed: usize,
}

pub fn path(words: &[u64], key: u64) -> Path {
    if words[3] == 0 {
        return Path { pages: 0, needed: 1 };
    }
    let (mut at, mut pages, mut full) = (words[3] - 1, 0, 0);
    loop {
        let page = &words[96 + 32 * at as usize..][..32];
        let keys = &page[2..2 + page[0] as usize];
        pages += 1;
        full = if keys.len() == 9 { full + 1 } else { 0 };
        let slot = keys.partition_point(|&k| k < key);
        if page[1] == 0 || keys.get(slot) == Some(&key) {
            let needed = if full == pages { full + 1 } else { full };
            return Path { pages, needed };
        }
        at = page[20 + slot];
    }
}

pub fn free_pages(words: &[u64]) -> usize {
    let taken: u32 = words[32..96].iter().map(|word| word.count_ones()).sum();
    words[1] as usize - taken as usize
}

/// Words with guard words on both sides, which nothing may change.
pub struct Guarded {
    all: Vec<u64>,
}

const GUARDS: usize = 64;
const GUARD: u64 = 0x6a6a_5b5b_4c4c_3d3d;

impl Guarded {
    pub fn new(words: &[u64]) -> Self {
        let mut all = vec![GUARD; words.len() + 2 * GUARDS];
        all[GUARDS..][..words.len()].copy_from_slice(words);
        Guarded { all }
    }

    pub fn words(&mut self) -> &mut [u64] {
        let end = self.all.len() - GUARDS;
        &mut self.all[GUARDS..end]
    }

    pub fn assert_guards(&self) {
        let (front, back) = (&self.all[..GUARDS], &self.all[self.all.len() - GUARDS..]);
        assert!(front.iter().chain(back).all(|&word| word == GUARD), "a word outside the slice has changed");
    }
}

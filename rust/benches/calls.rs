//! Nanoseconds a call, beside std's `BTreeMap` in the same run: `cargo bench`. Prints the table of docs/PERFORMANCE.md.
//!
//! Each turn draws new random keys, so that no branch can be learned by heart, and runs every call on both maps, one after
//! the other; the order of the two changes from turn to turn. A figure is the median over the turns.
//! `cargo bench -- once 1000` runs one turn of the library alone, for a tool that counts instructions.

use moorpontoon::{words_for, Kind, Map, Pool, MAX_PAGES};
use std::collections::BTreeMap;
use std::hint::black_box;
use std::ops::Bound;
use std::time::Instant;

const CALLS: [&str; 4] = ["insert", "get", "next", "remove"];

/// What a turn of one map took, a call: in the order of `CALLS`.
type Turn = [f64; 4];

fn main() {
    let mut words = vec![0; words_for(MAX_PAGES)];
    let mut random = Random(0x9E37_79B9_7F4A_7C15);
    let mut asked = std::env::args().skip_while(|word| word != "once").skip(1);
    if let Some(number) = asked.next().and_then(|word| word.parse().ok()) {
        black_box(ours(&mut words, &Keys::new(number, &mut random)));
        return;
    }
    println!("{}\n", machine());
    println!("| entries | call | moorpontoon, ns | std, ns | ratio |");
    println!("|---|---|---|---|---|");
    for (number, turns) in [(1_000, 1_001), (24_000, 101)] {
        let (mut here, mut there) = (Vec::new(), Vec::new());
        for turn in 0..turns {
            let keys = Keys::new(number, &mut random);
            if turn % 2 == 0 {
                here.push(ours(&mut words, &keys));
                there.push(theirs(&keys));
            } else {
                there.push(theirs(&keys));
                here.push(ours(&mut words, &keys));
            }
        }
        for (call, name) in CALLS.iter().enumerate() {
            let (a, b) = (median(&here, call), median(&there, call));
            println!("| {number} | {name} | {a:.1} | {b:.1} | {:.2} |", a / b);
        }
    }
}

/// The keys of a turn, and the same in another order.
struct Keys {
    filed: Vec<u64>,
    asked: Vec<u64>,
}

impl Keys {
    fn new(number: usize, random: &mut Random) -> Keys {
        let filed: Vec<u64> = (0..number).map(|_| random.next()).collect();
        let mut asked = filed.clone();
        for i in (1..number).rev() {
            asked.swap(i, (random.next() % (i as u64 + 1)) as usize);
        }
        Keys { filed, asked }
    }
}

fn ours(words: &mut [u64], keys: &Keys) -> Turn {
    let mut pool = Pool::make(words, Kind::Map).expect("the length is allowed");
    let mut map = pool.map();
    [
        each(&keys.filed, |&key| map.insert(key, !key).expect("there is room")),
        each(&keys.asked, |key| map.get(key).expect("the pool is sound").expect("the key is there")),
        nexts(&mut map, keys.filed.len()),
        each(&keys.asked, |key| map.remove(key).expect("the pool is sound").expect("the key is there")),
    ]
}

/// From the first entry to the last, one next after the other.
fn nexts(map: &mut Map, number: usize) -> f64 {
    let mut cursor = map.lower_bound_mut(Bound::Unbounded).expect("no cursor is open");
    let turns = vec![(); number];
    each(&turns, |()| cursor.next().expect("the pool is sound").expect("there is another entry"))
}

/// The same on std's map. It has no stable cursor: as our next does, it looks for the next key from the root.
fn theirs(keys: &Keys) -> Turn {
    let mut map = BTreeMap::new();
    let insert = each(&keys.filed, |&key| map.insert(key, !key));
    let get = each(&keys.asked, |key| *map.get(key).expect("the key is there"));
    let mut from = 0;
    let turns = vec![(); keys.filed.len()];
    let next = each(&turns, |()| {
        let (&key, &value) = map.range(from..).next().expect("there is another entry");
        from = key.wrapping_add(1);
        (key, value)
    });
    let remove = each(&keys.asked, |key| map.remove(key).expect("the key is there"));
    [insert, get, next, remove]
}

/// Nanoseconds for each of the items.
fn each<T, R>(items: &[T], mut call: impl FnMut(&T) -> R) -> f64 {
    let start = Instant::now();
    for item in items {
        black_box(call(item));
    }
    start.elapsed().as_nanos() as f64 / items.len() as f64
}

fn median(turns: &[Turn], call: usize) -> f64 {
    let mut taken: Vec<f64> = turns.iter().map(|turn| turn[call]).collect();
    taken.sort_by(f64::total_cmp);
    taken[taken.len() / 2]
}

/// The processor, as Linux names it.
fn machine() -> String {
    let told = std::fs::read_to_string("/proc/cpuinfo").unwrap_or_default();
    let name = told.lines().find_map(|line| line.strip_prefix("model name")).unwrap_or(": not told");
    name.trim_start_matches([' ', '\t', ':']).to_string()
}

/// Marsaglia's xorshift64, spread by a multiplication.
struct Random(u64);

impl Random {
    fn next(&mut self) -> u64 {
        self.0 ^= self.0 << 13;
        self.0 ^= self.0 >> 7;
        self.0 ^= self.0 << 17;
        self.0.wrapping_mul(0x2545_F491_4F6C_DD1D)
    }
}

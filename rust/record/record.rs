// A fixed list of calls on Rust's own BTreeMap, BTreeSet and CursorMut, with the answers that std gives to them. The program `replay` makes the same calls on a pool and compares every
// answer. The list is crates/replay/stdin, and the table that `replay` then has to print is crates/replay/stdout. This program writes both, the same in every run, byte for byte:
//
//     RUSTC_BOOTSTRAP=1 rustc -O -o record rust/record/record.rs
//     ./record list > crates/replay/stdin
//     ./record table > crates/replay/stdout
//
// They were made with rustc 1.95.0. Std's cursors are unstable (`btree_cursors`), hence the variable, and hence the place of this file, outside the package's examples. It needs std alone.
//
// A line is a call, what it is given, a colon and std's answer; `-` is None. A bound is `i` and a key (Included), `e` and a key (Excluded) or `u` (Unbounded). A list's answer is the
// number of its entries and then each: a key and its value, or the one of them that is asked for. `write-next` and `write-prev` store another value through std's `peek_next` and
// `peek_prev` and tell the one before; so does `replace` through `get_mut`. `insert-after` answers `ok`, or `no` for UnorderedKeyError. `map ..` and `set ..` begin a new one.
// Left out: bounds that cross. Std's `range` panics where the lower bound is above the upper one, and where both exclude the same key.
#![feature(btree_cursors)]
use std::collections::btree_map::CursorMut;
use std::collections::{BTreeMap, BTreeSet};
use std::mem::replace;
use std::ops::Bound::{self, Excluded, Included, Unbounded};

type Map = BTreeMap<u64, u64>;
type Set = BTreeSet<u64>;
type Cursor<'a> = CursorMut<'a, u64, u64>;

/// The list so far; for the table, each section's calls in the order in which they come up, and how many; the section's keys, 0 to `last`; and a number at random.
struct Recorder {
    lines: String,
    sections: Vec<(String, Vec<(String, usize)>)>,
    last: u64,
    seed: u64,
}

impl Recorder {
    fn section(&mut self, name: &str, last: u64) {
        self.lines += &format!("{name}\n");
        self.sections.push((name.to_string(), Vec::new()));
        self.last = last;
    }

    /// A line, whose first word is the call.
    fn say(&mut self, line: String) {
        let call = line.split(' ').next().unwrap();
        let rows = &mut self.sections.last_mut().unwrap().1;
        match rows.iter_mut().find(|row| row.0 == call) {
            Some(row) => row.1 += 1,
            None => rows.push((call.to_string(), 1)),
        }
        self.lines += &format!("{line}\n");
    }

    /// What `replay` prints where all its answers are std's. It checks its pool after every 64th call.
    fn table(&self) {
        let mut calls = 0;
        for (name, rows) in &self.sections {
            println!("{name}");
            for (call, n) in rows {
                println!("  {call} {n}, differ 0");
                calls += n;
            }
        }
        let checks = calls / 64;
        println!("all calls {calls}, differ 0; checks {checks}, unsound 0");
    }
}

// ---- answers and bounds in the list's words

fn number(answer: Option<u64>) -> String {
    answer.map_or("-".to_string(), |n| n.to_string())
}

fn entry(answer: Option<(u64, u64)>) -> String {
    answer.map_or("-".to_string(), |(key, value)| format!("{key} {value}"))
}

fn listed(entries: impl Iterator<Item = String>) -> String {
    let words: Vec<String> = entries.collect();
    format!("{} {}", words.len(), words.join(" "))
        .trim_end()
        .to_string()
}

fn bound(bound: Bound<u64>) -> String {
    match bound {
        Included(key) => format!("i {key}"),
        Excluded(key) => format!("e {key}"),
        Unbounded => "u".to_string(),
    }
}

/// Whether std's `range` panics.
fn cross(lower: Bound<u64>, upper: Bound<u64>) -> bool {
    match (lower, upper) {
        (Unbounded, _) | (_, Unbounded) => false,
        (Excluded(a), Excluded(b)) => b <= a,
        (Included(a) | Excluded(a), Included(b) | Excluded(b)) => b < a,
    }
}

// ---- at random

impl Recorder {
    fn any(&mut self) -> u64 {
        self.seed ^= self.seed << 13;
        self.seed ^= self.seed >> 7;
        self.seed ^= self.seed << 17;
        self.seed.wrapping_mul(2685821657736338717)
    }

    fn below(&mut self, n: u64) -> u64 {
        (self.any() >> 11) % n
    }

    fn between(&mut self, low: u64, high: u64) -> u64 {
        match (high - low).checked_add(1) {
            Some(wide) => low + self.below(wide),
            None => self.any(),
        }
    }

    /// Seldom a long one.
    fn value(&mut self) -> u64 {
        match self.below(64) {
            0 => self.any(),
            _ => self.below(1000),
        }
    }

    /// The first and the last come up more often than others.
    fn key(&mut self) -> u64 {
        match self.below(24) {
            0 => 0,
            1 => self.last,
            _ => self.between(0, self.last),
        }
    }

    /// One that is held; seldom any.
    fn present(&mut self, held: &Set) -> u64 {
        let key = self.key();
        match self.below(12) {
            0 => key,
            _ => *held.range(key..).next().or(held.first()).unwrap_or(&key),
        }
    }

    /// One that is not held; seldom any.
    fn absent(&mut self, held: &Set) -> u64 {
        let mut key = self.key();
        if self.below(12) != 0 {
            while held.contains(&key) {
                key = self.key();
            }
        }
        key
    }

    fn either(&mut self, held: &Set) -> u64 {
        match self.below(2) {
            0 => self.present(held),
            _ => self.absent(held),
        }
    }

    fn bound(&mut self, held: &Set) -> Bound<u64> {
        let key = self.either(held);
        match self.below(5) {
            0 | 1 => Included(key),
            2 | 3 => Excluded(key),
            _ => Unbounded,
        }
    }

    /// Two bounds that do not cross, with at most 8 keys between them.
    fn bounds(&mut self, held: &Set) -> (Bound<u64>, Bound<u64>) {
        loop {
            let lower = self.bound(held);
            let mut upper = self.bound(held);
            if let (Included(from) | Excluded(from), 1..) = (lower, self.below(4)) {
                let far = self.below(9) as usize;
                let to = *held.range(from..).nth(far).unwrap_or(&self.last);
                upper = upper.map(|_| to);
            }
            if !cross(lower, upper) && held.range((lower, upper)).count() <= 8 {
                return (lower, upper);
            }
        }
    }
}

// ---- a map

impl Recorder {
    fn list(&mut self, call: &str, map: &Map, lower: Bound<u64>, upper: Bound<u64>) {
        let range = map.range((lower, upper));
        let answer = match call {
            "range" => listed(range.map(|(key, value)| format!("{key} {value}"))),
            "keys" => listed(range.map(|(key, _)| key.to_string())),
            _ => listed(range.map(|(_, value)| value.to_string())),
        };
        let (lower, upper) = (bound(lower), bound(upper));
        self.say(format!("{call} {lower} {upper} : {answer}"));
    }

    fn insert(&mut self, map: &mut Map, key: u64) {
        let value = self.value();
        let was = number(map.insert(key, value));
        self.say(format!("insert {key} {value} : {was}"));
    }

    fn remove(&mut self, map: &mut Map, key: u64) {
        let was = number(map.remove(&key));
        self.say(format!("remove {key} : {was}"));
    }

    fn read(&mut self, map: &mut Map, held: &Set) {
        let (key, value) = (self.either(held), self.value());
        let (lower, upper) = self.bounds(held);
        match self.below(9) {
            0 | 1 => self.say(format!("get {key} : {}", number(map.get(&key).copied()))),
            2 => self.say(format!(
                "contains {key} : {}",
                map.contains_key(&key) as u64
            )),
            3 => {
                let was = number(map.get_mut(&key).map(|v| replace(v, value)));
                self.say(format!("replace {key} {value} : {was}"));
            }
            4 => self.list("range", map, lower, upper),
            5 => self.list("keys", map, lower, upper),
            6 => self.list("values", map, lower, upper),
            7 => self.say(format!("len : {}", map.len())),
            _ => self.say(format!("is-empty : {}", map.is_empty() as u64)),
        }
    }

    /// Mostly an insertion, or mostly a removal.
    fn map_call(&mut self, map: &mut Map, filling: bool) {
        let held: Set = map.keys().copied().collect();
        match self.below(32) {
            0..=6 => self.read(map, &held),
            what if filling == (what > 7) => {
                let key = self.absent(&held);
                self.insert(map, key);
            }
            _ => {
                let key = self.present(&held);
                self.remove(map, key);
            }
        }
    }

    /// From none to so many entries and back; then a few, and none by a clear.
    fn map(&mut self, name: &str, last: u64, most: usize) {
        let mut map = Map::new();
        self.section(name, last);
        while map.len() < most {
            self.map_call(&mut map, true);
        }
        self.list("keys", &map, Unbounded, Unbounded);
        while !map.is_empty() {
            self.map_call(&mut map, false);
        }
        for _ in 0..40 {
            self.map_call(&mut map, true);
        }
        map.clear();
        self.say("clear".to_string());
        self.say(format!("len : {}", map.len()));
    }

    /// Rising keys, of which the newest 60 are kept, and then none.
    fn rising(&mut self, name: &str) {
        let mut map = Map::new();
        self.section(name, 139000);
        for i in 0..140 {
            self.insert(&mut map, 1000 * i);
            if i >= 60 {
                self.remove(&mut map, 1000 * (i - 60));
            }
        }
        self.list("values", &map, Unbounded, Unbounded);
        while let Some(key) = map.keys().next().copied() {
            self.remove(&mut map, key);
        }
    }
}

// ---- a set

impl Recorder {
    fn set_read(&mut self, set: &Set) {
        let key = self.either(set);
        let (lower, upper) = self.bounds(set);
        match self.below(7) {
            0 | 1 => self.say(format!("get {key} : {}", number(set.get(&key).copied()))),
            2 => self.say(format!("contains {key} : {}", set.contains(&key) as u64)),
            3 | 4 => {
                let answer = listed(set.range((lower, upper)).map(|key| key.to_string()));
                let (lower, upper) = (bound(lower), bound(upper));
                self.say(format!("range {lower} {upper} : {answer}"));
            }
            5 => self.say(format!("len : {}", set.len())),
            _ => self.say(format!("is-empty : {}", set.is_empty() as u64)),
        }
    }

    fn set_call(&mut self, set: &mut Set, filling: bool) {
        match self.below(32) {
            0..=6 => self.set_read(set),
            what if filling == (what > 7) => {
                let key = self.absent(set);
                self.say(format!("insert {key} : {}", set.insert(key) as u64));
            }
            _ => {
                let key = self.present(set);
                self.say(format!("remove {key} : {}", set.remove(&key) as u64));
            }
        }
    }

    fn set(&mut self, name: &str, last: u64, most: usize) {
        let mut set = Set::new();
        self.section(name, last);
        while set.len() < most {
            self.set_call(&mut set, true);
        }
        while !set.is_empty() {
            self.set_call(&mut set, false);
        }
        for _ in 0..40 {
            self.set_call(&mut set, true);
        }
        set.clear();
        self.say("clear".to_string());
        self.say(format!("len : {}", set.len()));
    }
}

// ---- a cursor

fn copied(step: Option<(&u64, &mut u64)>) -> Option<(u64, u64)> {
    step.map(|(key, value)| (*key, *value))
}

impl Recorder {
    fn peeks(&mut self, cursor: &mut Cursor) {
        self.say(format!("peek-prev : {}", entry(copied(cursor.peek_prev()))));
        self.say(format!("peek-next : {}", entry(copied(cursor.peek_next()))));
    }

    /// Mostly a key that lies strictly between the gap's neighbours, where there is one; else one of them, or any.
    fn key_after(&mut self, cursor: &mut Cursor) -> u64 {
        let before = cursor.peek_prev().map(|(key, _)| *key);
        let after = cursor.peek_next().map(|(key, _)| *key);
        let low = before.map_or(Some(0), |key| key.checked_add(1));
        let high = after.map_or(Some(self.last), |key| key.checked_sub(1));
        match (self.below(16), low, high) {
            (3.., Some(low), Some(high)) if low <= high => self.between(low, high),
            (0 | 3..=7, ..) => before.unwrap_or(0),
            (1 | 8..=12, ..) => after.unwrap_or(self.last),
            _ => self.key(),
        }
    }

    fn insert_after(&mut self, cursor: &mut Cursor) {
        let (key, value) = (self.key_after(cursor), self.value());
        let answer = match cursor.insert_after(key, value) {
            Ok(()) => "ok",
            Err(_) => "no",
        };
        self.say(format!("insert-after {key} {value} : {answer}"));
    }

    /// A call at random; most edits insert, or most of them remove.
    fn cursor_call(&mut self, cursor: &mut Cursor, filling: bool) {
        let value = self.value();
        match self.below(24) {
            0..=4 => self.say(format!("next : {}", entry(copied(cursor.next())))),
            5..=7 => self.say(format!("prev : {}", entry(copied(cursor.prev())))),
            8 => self.peeks(cursor),
            9 => {
                let was = number(cursor.peek_next().map(|(_, v)| replace(v, value)));
                self.say(format!("write-next {value} : {was}"));
            }
            10 => {
                let was = number(cursor.peek_prev().map(|(_, v)| replace(v, value)));
                self.say(format!("write-prev {value} : {was}"));
            }
            what if filling == (what > 12) => self.insert_after(cursor),
            _ => self.say(format!("remove-next : {}", entry(cursor.remove_next()))),
        }
    }

    /// A cursor opened at a bound, some calls, and closed.
    fn visit(&mut self, map: &mut Map, filling: bool) {
        let at = self.bound(&map.keys().copied().collect());
        let lower = self.below(2) == 0;
        let name = if lower { "lower" } else { "upper" };
        self.say(format!("{name} {}", bound(at)));
        let mut cursor = match lower {
            true => map.lower_bound_mut(at.as_ref()),
            false => map.upper_bound_mut(at.as_ref()),
        };
        self.peeks(&mut cursor);
        for _ in 0..self.below(24) {
            self.cursor_call(&mut cursor, filling);
        }
        self.say("close".to_string());
    }

    /// From none to so many entries and back, by a cursor that is opened again and again, with a call of the map's own in between.
    fn cursors(&mut self, name: &str, last: u64, most: usize) {
        let mut map = Map::new();
        self.section(name, last);
        while map.len() < most {
            self.visit(&mut map, true);
            self.map_call(&mut map, true);
        }
        while !map.is_empty() {
            self.visit(&mut map, false);
            self.map_call(&mut map, false);
        }
        self.visit(&mut map, true);
    }
}

fn main() {
    let mut to = Recorder {
        lines: String::new(),
        sections: Vec::new(),
        last: 0,
        seed: 88172645463325252,
    };
    to.map("map of keys under 1300", 1299, 1000);
    to.map("map of any keys", u64::MAX, 120);
    to.rising("map of rising keys");
    to.set("set of keys under 300", 299, 120);
    to.set("set of any keys", u64::MAX, 120);
    to.cursors("map of keys under 1000, by cursor", 999, 100);
    to.cursors("map of any keys, by cursor", u64::MAX, 60);
    match std::env::args().nth(1).as_deref() {
        Some("list") => print!("{}", to.lines),
        Some("table") => to.table(),
        _ => eprintln!("record list | record table"),
    }
}

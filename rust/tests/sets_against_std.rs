//! Many thousands of random calls on sets, beside std's `BTreeSet`, as the map's trials are beside `BTreeMap`.

mod common;

use common::{free_pages, path, seasons, some_key, Rng, UNTOUCHED};
use moorpontoon::{words_for, Kind, Pool, Refusal, Set};
use std::collections::BTreeSet;
use std::ops::Bound::{self, Unbounded};
use std::ops::RangeBounds;

/// Seasons of calls on a set of so many pages, beside std's.
fn set_trial(pages: usize) {
    let mut rng = Rng(0x5e7 + pages as u64);
    let mut words = vec![7; words_for(pages)];
    let mut pool = Pool::make(&mut words, Kind::Set).unwrap();
    let mut std = BTreeSet::new();
    let mut refused = 0;
    for (calls, inserts) in seasons(pages) {
        for _ in 0..calls {
            let insert = rng.below(10) < inserts;
            let mut key = some_key(&mut rng, pages);
            if !insert && rng.once_in(2) {
                key = std.range(key..).next().copied().unwrap_or(key);
            }
            let present = std.contains(&key);
            let at = path(pool.words(), key);
            let room = present || at.needed <= free_pages(pool.words());
            let before = (!room).then(|| pool.words().to_vec());
            let mut set = pool.set();
            match rng.below(8) {
                0 => assert_eq!(set.get_with_pages(&key), Ok((present.then_some(key), at.pages))),
                1 => assert_eq!(set.contains_with_pages(&key), Ok((present, at.pages))),
                2 => set_lists(&set, &std, &mut rng, pages),
                _ if insert && room => assert_eq!(set.insert(key), Ok(std.insert(key))),
                _ if insert => {
                    assert_eq!(set.insert(key), Err(Refusal::NoRoom));
                    assert!(std.len() > 4 * pages);
                    refused += 1;
                    assert!(before.is_some_and(|before| before == pool.words()));
                }
                _ => assert_eq!(set.remove(&key), Ok(std.remove(&key))),
            }
        }
        assert!(pool.check());
        assert_eq!((pool.len(), pool.is_empty()), (Ok(std.len()), Ok(std.is_empty())));
        assert!(pool.set().iter().map(Result::unwrap).eq(std.iter().copied()));
    }
    assert!(refused > 0 && std.is_empty(), "{refused} refused, {} left", std.len());
}

fn set_lists(set: &Set<'_>, std: &BTreeSet<u64>, rng: &mut Rng, pages: usize) {
    let (lower, upper) = (some_key(rng, pages), some_key(rng, pages));
    let range: (Bound<u64>, Bound<u64>) = (rng.bound(lower), rng.bound(upper));
    let upper = (Unbounded, range.1);
    let due: Vec<u64> =
        std.range((range.0, Unbounded)).take_while(|key| upper.contains(key)).copied().take(100).collect();
    let mut keys = vec![UNTOUCHED; rng.below(60) as usize];
    let n = due.len().min(keys.len());
    assert_eq!(set.keys_into(range, &mut keys), Ok(n));
    assert_eq!(keys[..n], due[..n]);
    assert!(keys[n..].iter().all(|&word| word == UNTOUCHED));
    assert_eq!(set.range(range).take(100).collect::<Result<Vec<_>, _>>(), Ok(due));
}

#[test]
fn sets() {
    for pages in [1, 2, 3, 64, 253, 4096] {
        set_trial(pages);
    }
}

//! The ends of what is allowed: lengths, the last key, one entry, full pools, wrong kinds, open cursors, copies.

mod common;

use common::Guarded;
use moorpontoon::{words_for, Kind, Map, Pool, Refusal, MAX_PAGES};
use std::ops::Bound::{Excluded, Included, Unbounded};

/// Words in which a map of so many pages was made.
fn map_words(pages: usize) -> Vec<u64> {
    let mut words = vec![0; words_for(pages)];
    Pool::make(&mut words, Kind::Map).unwrap();
    words
}

fn entries(map: &Map<'_>) -> Vec<(u64, u64)> {
    map.iter().collect::<Result<_, _>>().unwrap()
}

#[test]
fn lengths() {
    assert_eq!((words_for(1), words_for(253), words_for(MAX_PAGES)), (128, 8192, 96 + 32 * 4096));
    for len in [0, 1, 31, 32, 95, 96, 97, 127, 129, 159, words_for(4096) - 1, words_for(4096) + 1, words_for(4097)] {
        let mut words = vec![5; len];
        assert_eq!(Pool::make(&mut words, Kind::Map).map(drop), Err(Refusal::Unfit), "{len} words");
        assert_eq!(Pool::make(&mut words, Kind::Set).map(drop), Err(Refusal::Unfit), "{len} words");
        assert!(words.iter().all(|&word| word == 5));
    }
    for len in [128, 160, 8192, words_for(4096)] {
        let mut words = vec![u64::MAX; len];
        for kind in [Kind::Set, Kind::Map] {
            let pool = Pool::make(&mut words, kind).unwrap();
            assert!(pool.check());
            assert_eq!((pool.len(), pool.is_empty()), (Ok(0), Ok(true)));
            assert_eq!(pool.into_words()[..9], [1, (len as u64 - 96) / 32, 0, 0, 0, 0, 0, 0, kind as u64]);
        }
    }
    assert_eq!(words_for(usize::MAX), usize::MAX);
}

#[test]
fn words_that_are_no_pool() {
    for len in [0, 96, 127, 128, 129, words_for(4097)] {
        let mut words = Guarded::new(&vec![0; len]);
        let mut pool = Pool::over(words.words());
        assert!(!pool.check());
        assert_eq!(pool.len(), Err(Refusal::Unfit));
        assert_eq!(pool.clear(), Err(Refusal::Unfit));
        assert_eq!(pool.map().insert(1, 2), Err(Refusal::Unfit));
        assert_eq!(pool.map().cursor().map(drop), Err(Refusal::Unfit));
        assert_eq!(pool.map().range(..).collect::<Vec<_>>(), [Err(Refusal::Unfit)]);
        assert_eq!(pool.set().get(&1), Err(Refusal::Unfit));
        assert_eq!(pool.set().iter().collect::<Vec<_>>(), [Err(Refusal::Unfit)]);
        assert_eq!(format!("{:?}", pool.map()), r#"{"refused": Unfit}"#);
        assert!(pool.words().iter().all(|&word| word == 0));
        words.assert_guards();
    }
}

#[test]
fn last_key() {
    let mut words = map_words(1);
    let mut pool = Pool::over(&mut words);
    let mut map = pool.map();
    for key in [u64::MAX, 0, u64::MAX - 1] {
        assert_eq!(map.insert(key, !key), Ok(None));
    }
    assert_eq!(map.get_with_pages(&u64::MAX), Ok((Some(0), 1)));
    assert_eq!(entries(&map), [(0, u64::MAX), (u64::MAX - 1, 1), (u64::MAX, 0)]);
    assert_eq!(map.range(u64::MAX..).collect::<Vec<_>>(), [Ok((u64::MAX, 0))]);
    assert_eq!(map.range(..u64::MAX).count(), 2);
    assert_eq!(map.range((Excluded(u64::MAX), Unbounded)).count(), 0);
    assert_eq!(map.range(0..=0).count(), 1);

    let mut cursor = map.lower_bound_mut(Included(&u64::MAX)).unwrap();
    assert_eq!(cursor.insert_after(u64::MAX, 7), Err(Refusal::Misplaced));
    assert_eq!(cursor.remove_next(), Ok(Some((u64::MAX, 0))));
    assert_eq!(cursor.insert_after(u64::MAX, 7), Ok(()));
    assert_eq!(cursor.next(), Ok(Some((u64::MAX, 7))));
    assert_eq!((cursor.next(), cursor.peek_next()), (Ok(None), Ok(None)));
    drop(cursor);
    assert_eq!(map.remove(&u64::MAX), Ok(Some(7)));

    // A gap after key 0 is not the gap at the start.
    let mut cursor = map.upper_bound_mut(Included(&0)).unwrap();
    assert_eq!(cursor.peek_prev(), Ok(Some((0, u64::MAX))));
    assert_eq!(cursor.prev(), Ok(Some((0, u64::MAX))));
    assert_eq!((cursor.prev(), cursor.peek_prev()), (Ok(None), Ok(None)));
    assert_eq!(cursor.insert_after(0, 1), Err(Refusal::Misplaced));
    drop(cursor);
    assert!(pool.check());
}

#[test]
fn one_entry() {
    let mut words = map_words(1);
    let mut pool = Pool::over(&mut words);
    let mut map = pool.map();
    assert_eq!((map.get(&20), map.replace(20, 1), map.remove(&20)), (Ok(None), Ok(None), Ok(None)));
    assert_eq!(map.insert(20, 2), Ok(None));
    assert_eq!((map.len(), map.is_empty()), (Ok(1), Ok(false)));
    for (bound, lower, upper) in [
        (Included(&20), None, Some((20, 2))),
        (Excluded(&20), Some((20, 2)), None),
        (Unbounded, None, Some((20, 2))),
        (Included(&19), None, None),
        (Included(&21), Some((20, 2)), Some((20, 2))),
    ] {
        assert_eq!(map.lower_bound_mut(bound).unwrap().peek_prev(), Ok(lower), "lower {bound:?}");
        assert_eq!(map.upper_bound_mut(bound).unwrap().peek_prev(), Ok(upper), "upper {bound:?}");
    }
    assert_eq!(map.lower_bound_mut(Unbounded).unwrap().remove_next(), Ok(Some((20, 2))));
    assert_eq!((map.len(), map.is_empty()), (Ok(0), Ok(true)));
    let mut cursor = map.upper_bound_mut(Unbounded).unwrap();
    assert_eq!((cursor.next(), cursor.prev(), cursor.remove_next()), (Ok(None), Ok(None), Ok(None)));
    assert_eq!((cursor.write_next(1), cursor.write_prev(1)), (Ok(None), Ok(None)));
    assert_eq!(cursor.insert_after(9, 9), Ok(()));
    assert_eq!(cursor.close(), Ok(()));
    assert_eq!(entries(&map), [(9, 9)]);
    assert!(pool.check());
}

/// The rules' own cases: rising keys in pools of three pages and of two, and two removals that join pages.
#[test]
fn three_pages_and_two() {
    let mut words = map_words(3);
    let mut pool = Pool::over(&mut words);
    let mut map = pool.map();
    for key in 1..=10 {
        map.insert(key, 0).unwrap();
    }
    let page = |words: &[u64], number: usize| words[98 + 32 * number..][..words[96 + 32 * number] as usize].to_vec();
    assert_eq!(pool.words()[..5], [1, 3, 10, 3, 2]);
    assert_eq!(page(pool.words(), 0), [1, 2, 3, 4, 5]);
    assert_eq!(page(pool.words(), 1), [7, 8, 9, 10]);
    assert_eq!(page(pool.words(), 2), [6]);
    pool.map().remove(&8).unwrap();
    assert_eq!([0, 2, 1].map(|number| page(pool.words(), number)), [vec![1, 2, 3, 4], vec![5], vec![6, 7, 9, 10]]);
    pool.map().remove(&1).unwrap();
    assert_eq!(page(pool.words(), 0), [2, 3, 4, 5, 6, 7, 9, 10]);
    assert_eq!((pool.words()[3], pool.words()[32]), (1, 1));

    let mut words = map_words(2);
    let mut pool = Pool::over(&mut words);
    for key in 1..=9 {
        pool.map().insert(key, 0).unwrap();
    }
    assert_eq!(pool.map().insert(10, 0), Err(Refusal::NoRoom));
    assert_eq!(pool.map().insert(9, 1), Ok(Some(0)));
    assert_eq!(pool.len(), Ok(9));
}

/// Filled until a key is refused: the same key is refused again, overwriting works, and after clear there is room.
#[test]
fn full_pools() {
    for pages in [1, 2, 3, 64, 253, 4096] {
        let mut words = map_words(pages);
        let mut pool = Pool::over(&mut words);
        let mut n = 0;
        while pool.map().insert(n, n).is_ok() {
            n += 1;
        }
        assert!(n as usize > 4 * pages && n as usize <= 9 * pages, "{pages} pages took {n}");
        assert!(pool.check());
        let before = pool.words().to_vec();
        assert_eq!(pool.map().insert(n, n), Err(Refusal::NoRoom));
        assert_eq!(pool.map().upper_bound_mut(Unbounded).unwrap().insert_after(n, n), Err(Refusal::NoRoom));
        assert!(pool.words() == before);
        assert_eq!(pool.map().insert(n - 1, 1), Ok(Some(n - 1)));
        assert_eq!(pool.map().remove(&0), Ok(Some(0)));
        assert_eq!(pool.len(), Ok(n as usize - 1));
        assert_eq!(pool.clear(), Ok(()));
        assert!(pool.check());
        assert_eq!(pool.map().insert(n, n), Ok(None));
    }
}

#[test]
fn wrong_kinds() {
    let mut words = map_words(2);
    let mut pool = Pool::over(&mut words);
    pool.map().insert(10, 1).unwrap();
    let before = pool.words().to_vec();
    let mut set = pool.set();
    assert_eq!(set.insert(10), Err(Refusal::OtherKind));
    assert_eq!(set.get(&10), Err(Refusal::OtherKind));
    assert_eq!(set.contains(&10), Err(Refusal::OtherKind));
    assert_eq!(set.remove(&10), Err(Refusal::OtherKind));
    assert_eq!(set.keys_into(.., &mut []), Err(Refusal::OtherKind));
    assert_eq!(set.range(..).collect::<Vec<_>>(), [Err(Refusal::OtherKind)]);
    assert!(pool.words() == before);

    pool.remake(Kind::Set).unwrap();
    pool.set().insert(10).unwrap();
    let before = pool.words().to_vec();
    let mut map = pool.map();
    assert_eq!(map.insert(10, 1), Err(Refusal::OtherKind));
    assert_eq!(map.get(&10), Err(Refusal::OtherKind));
    assert_eq!(map.contains_key(&10), Err(Refusal::OtherKind));
    assert_eq!(map.replace(10, 1), Err(Refusal::OtherKind));
    assert_eq!(map.remove(&10), Err(Refusal::OtherKind));
    assert_eq!(map.range_into(.., &mut [], &mut []), Err(Refusal::OtherKind));
    assert_eq!(map.keys_into(.., &mut []), Err(Refusal::OtherKind));
    assert_eq!(map.values_into(.., &mut []), Err(Refusal::OtherKind));
    assert_eq!(map.lower_bound_mut(Unbounded).map(drop), Err(Refusal::OtherKind));
    assert_eq!(map.upper_bound_mut(Unbounded).map(drop), Err(Refusal::OtherKind));
    assert_eq!(map.cursor().map(drop), Err(Refusal::OtherKind));
    assert!(pool.words() == before);
    assert_eq!((pool.map().len(), pool.map().clear(), pool.set().is_empty()), (Ok(1), Ok(()), Ok(true)));
}

#[test]
fn make_while_a_cursor_is_open() {
    let mut words = map_words(2);
    let mut pool = Pool::over(&mut words);
    pool.map().insert(10, 1).unwrap();
    pool.map().upper_bound_mut(Unbounded).unwrap().leave_open();
    assert_eq!(pool.words()[5..8], [1, 1, 10]);
    assert_eq!(pool.clear(), Err(Refusal::Opened));
    assert_eq!(pool.remake(Kind::Map), Ok(()));
    assert_eq!(pool.map().cursor().map(drop), Err(Refusal::Closed));
    assert_eq!((pool.words()[5..8].to_vec(), pool.is_empty()), (vec![0, 0, 0], Ok(true)));
    assert_eq!(pool.map().insert(10, 1), Ok(None));
}

#[test]
fn copies() {
    let mut words = map_words(2);
    let mut source = Pool::over(&mut words);
    source.map().insert(10, 1).unwrap();
    source.map().upper_bound_mut(Unbounded).unwrap().leave_open();

    // Out of an open pool, over anything: the copy is closed.
    let mut other = vec![u64::MAX; words_for(2)];
    assert_eq!(source.copy_to(&mut Pool::over(&mut other)), Ok(()));
    assert_eq!(other[5..8], [0, 0, 0]);
    assert!(other[..5] == source.words()[..5] && other[8..] == source.words()[8..]);
    assert_eq!(source.words()[5..8], [1, 1, 10]);

    // Over a set, and refused over an open cursor.
    let mut set = Pool::make(&mut other, Kind::Set).unwrap();
    assert_eq!(source.copy_to(&mut set), Ok(()));
    assert_eq!(set.map().get(&10), Ok(Some(1)));
    assert_eq!(set.copy_to(&mut source), Err(Refusal::Opened));

    // Lengths: not allowed, then different.
    for (len, due) in [(0, Refusal::Unfit), (127, Refusal::Unfit), (128, Refusal::Lengths), (8192, Refusal::Lengths)] {
        let mut other = vec![3; len];
        assert_eq!(source.copy_to(&mut Pool::over(&mut other)), Err(due), "{len} words");
        assert!(other.iter().all(|&word| word == 3));
    }
    let mut unfit = vec![0; words_for(2)];
    assert_eq!(Pool::over(&mut unfit).copy_to(&mut source), Err(Refusal::Unfit));
}

#[test]
fn empty_slices_and_ends_that_cross() {
    let mut words = map_words(2);
    let mut pool = Pool::over(&mut words);
    let mut map = pool.map();
    for key in [10, 20, 30] {
        map.insert(key, key / 10).unwrap();
    }
    assert_eq!(map.range_into(.., &mut [], &mut []), Ok(0));
    assert_eq!(map.range_into(.., &mut [9], &mut []), Ok(0));
    assert_eq!(map.keys_into(.., &mut []), Ok(0));
    let (mut keys, mut values) = ([9; 5], [9; 2]);
    assert_eq!(map.range_into(.., &mut keys, &mut values), Ok(2));
    assert_eq!((keys, values), ([10, 20, 9, 9, 9], [1, 2]));
    for range in [(Included(30), Included(10)), (Excluded(20), Excluded(20)), (Included(20), Excluded(20))] {
        assert_eq!(map.keys_into(range, &mut keys), Ok(0), "{range:?}");
        assert_eq!(map.range(range).count(), 0, "{range:?}");
    }
}

#[test]
fn refusals_in_words() {
    use Refusal::*;
    let refusals = [Unfit, OtherKind, BadBound, Opened, Closed, Misplaced, NoRoom, Lengths, Unsound];
    for (refusal, number) in refusals.iter().zip(1..) {
        let error: &dyn std::error::Error = refusal;
        assert_eq!(refusal.number(), number);
        assert!(error.to_string().contains(": "), "{refusal:?} does not say what to do");
    }
}

//! Damaged pools and random words: every call returns with an answer or a refusal, a refusal leaves every word as it was,
//! and no word outside the lent slices changes.

mod common;

use common::{Guarded, Rng};
use moorpontoon::{words_for, CursorMut, Kind, Pool, Refusal};

/// A number that is likely to matter somewhere in a pool.
fn some_number(rng: &mut Rng, pages: usize) -> u64 {
    match rng.below(8) {
        0 => rng.number(),
        1 => u64::MAX - rng.below(3),
        2 => pages as u64 + rng.below(3),
        3 => 1 << rng.below(64),
        4 | 5 => rng.below(12),
        _ => rng.below(pages as u64 + 1),
    }
}

/// A real pool: filled and thinned out, at times with an open cursor.
fn real_pool(rng: &mut Rng, pages: usize) -> Vec<u64> {
    let mut words = vec![0; words_for(pages)];
    let kind = if rng.once_in(4) { Kind::Set } else { Kind::Map };
    let mut pool = Pool::make(&mut words, kind).unwrap();
    let fill = rng.below(10 * pages as u64 + 1);
    for _ in 0..fill {
        let (key, value) = (rng.below(100 * pages as u64), rng.number());
        let _full = match kind {
            Kind::Map => pool.map().insert(key, value).map(drop),
            Kind::Set => pool.set().insert(key).map(drop),
        };
    }
    if kind == Kind::Map && rng.once_in(2) {
        let key = rng.below(100 * pages as u64);
        pool.map().lower_bound_mut(rng.bound(key).as_ref()).unwrap().leave_open();
    }
    words
}

/// Damage to some words, most of them such as a call reads: the head, the page map, and counts, keys and children of pages.
fn damage(rng: &mut Rng, words: &mut [u64], pages: usize) {
    for _ in 0..1 + rng.below(6) {
        let page = 96 + 32 * rng.below(pages as u64) as usize;
        let at = match rng.below(8) {
            0 => rng.below(9) as usize,
            1 => 32 + rng.below(1 + pages as u64 / 64) as usize,
            2 => page,
            3 => page + 1,
            4 => page + 2 + rng.below(9) as usize,
            5 | 6 => page + 20 + rng.below(10) as usize,
            _ => rng.below(words.len() as u64) as usize,
        };
        words[at] = some_number(rng, pages);
    }
}

/// Random words under a head that fits, so that calls go on to the pages: children form circles and counts are wrong.
fn random_pool(rng: &mut Rng, pages: usize) -> Vec<u64> {
    let p = pages as u64;
    let mut words: Vec<u64> = (0..words_for(pages)).map(|_| some_number(rng, pages)).collect();
    let root = [1 + rng.below(9 * p), 1 + rng.below(p), 1 + rng.below(6)];
    let open = rng.below(2);
    words[..9].copy_from_slice(&[1, p, root[0], root[1], root[2], open, rng.below(2), rng.number(), 0]);
    words[9..32].fill(0);
    if open == 0 {
        words[8] = rng.below(2);
    }
    for page in words[96..].chunks_mut(32) {
        page[0] = rng.below(11);
        page[1] = rng.below(6);
        if rng.once_in(2) {
            page[2..11].sort();
        }
        page[20..30].fill_with(|| rng.below(p + 1));
    }
    words
}

/// One random call on the pool. Answers are as good as refusals: only that it returns matters, and what it leaves.
fn call(rng: &mut Rng, pool: &mut Pool<'_>, keys: &mut [u64], values: &mut [u64]) -> Result<(), Refusal> {
    let pages = pool.words().len() / 32 + 1;
    let (key, value) = (some_number(rng, pages), rng.number());
    let range = (rng.bound(key), rng.bound(some_number_from(value, pages)));
    match rng.below(19) {
        0 => pool.map().insert(key, value).map(drop),
        1 => pool.map().get(&key).map(drop),
        2 => pool.map().contains_key(&key).map(drop),
        3 => pool.map().replace(key, value).map(drop),
        4 => pool.map().remove(&key).map(drop),
        5 => pool.map().range_into(range, keys, values).map(|n| assert!(n <= keys.len().min(values.len()))),
        6 => pool.map().keys_into(range, keys).map(|n| assert!(n <= keys.len())),
        7 => pool.map().values_into(range, values).map(|n| assert!(n <= values.len())),
        8 => pool.set().insert(key).map(drop),
        9 => pool.set().remove(&key).map(drop),
        10 => pool.set().get(&key).and(pool.set().contains(&key)).map(drop),
        11 => pool.set().keys_into(range, keys).map(|n| assert!(n <= keys.len())),
        12 => match rng.below(30) {
            0 => pool.clear(),
            1 => pool.remake(if key % 2 == 0 { Kind::Map } else { Kind::Set }),
            _ => pool.len().and(pool.is_empty()).map(drop),
        },
        13 => {
            // Keys that rise are at most as many as the pool has slots.
            let slots = 9 * pages;
            assert!(pool.map().range(range).count() <= slots + 1 && pool.set().range(range).count() <= slots + 1);
            Ok(())
        }
        14 => copy_both_ways(pool),
        15 => {
            let (bound, lower) = (rng.bound(key), rng.once_in(2));
            let mut map = pool.map();
            let cursor = if lower { map.lower_bound_mut(bound.as_ref()) } else { map.upper_bound_mut(bound.as_ref()) };
            cursor.map(CursorMut::leave_open)
        }
        _ => {
            let mut map = pool.map();
            let mut cursor = map.cursor()?;
            let done = cursor_call(rng.below(12), &mut cursor, key, value);
            match done {
                Ok(true) => cursor.close(),
                other => {
                    cursor.leave_open();
                    other.map(drop)
                }
            }
        }
    }
}

/// A number that is at times small, made from one that is random.
fn some_number_from(number: u64, pages: usize) -> u64 {
    some_number(&mut Rng(number), pages)
}

/// One call of the cursor; true asks for the cursor to be closed.
fn cursor_call(which: u64, cursor: &mut CursorMut<'_>, key: u64, value: u64) -> Result<bool, Refusal> {
    match which {
        0 | 1 => cursor.next().map(drop),
        2 => cursor.prev().map(drop),
        3 => cursor.peek_next().map(drop),
        4 => cursor.peek_prev().map(drop),
        5 => cursor.write_next(value).map(drop),
        6 => cursor.write_prev(value).map(drop),
        7 => cursor.insert_after(key, value),
        8 => {
            let near = cursor.peek_prev()?.map_or(0, |(key, _)| key.wrapping_add(1));
            cursor.insert_after(near, value)
        }
        9 | 10 => cursor.remove_next().map(drop),
        _ => return Ok(true),
    }?;
    Ok(false)
}

/// A copy, between guards, and a copy back into the pool.
fn copy_both_ways(pool: &mut Pool<'_>) -> Result<(), Refusal> {
    let mut other = Guarded::new(&vec![8; pool.words().len()]);
    let out = pool.copy_to(&mut Pool::over(other.words()));
    if out.is_err() {
        assert!(other.words().iter().all(|&word| word == 8));
    }
    other.assert_guards();
    out?;
    Pool::over(other.words()).copy_to(pool)
}

/// Random calls on these words, one after the other, as each leaves them. Tells how many answered and how many were refused.
fn calls(rng: &mut Rng, words: &[u64], times: usize) -> [usize; 2] {
    let mut guarded = Guarded::new(words);
    let mut counts = [0, 0];
    for _ in 0..times {
        let (mut keys, mut values) = (Guarded::new(&[8; 13]), Guarded::new(&[8; 11]));
        let before = guarded.words().to_vec();
        let done = call(rng, &mut Pool::over(guarded.words()), keys.words(), values.words());
        if done.is_err() {
            assert!(guarded.words() == before, "a refused call has changed words");
            assert!(keys.words().iter().chain(values.words().iter()).all(|&word| word == 8));
        }
        counts[done.is_err() as usize] += 1;
        [&guarded, &keys, &values].into_iter().for_each(Guarded::assert_guards);
    }
    let before = guarded.words().to_vec();
    let _verdict = Pool::over(guarded.words()).check();
    assert!(guarded.words() == before, "check has changed words");
    guarded.assert_guards();
    counts
}

/// Many pools of each size, and calls on each; both answers and refusals must have come up.
fn trial(seed: u64, pools: usize, pool: fn(&mut Rng, usize) -> Vec<u64>) {
    let mut rng = Rng(seed);
    for (pages, share) in [(1, 1), (2, 1), (3, 1), (8, 1), (64, 4), (253, 16), (4096, 200)] {
        let mut counts = [0, 0];
        for _ in 0..pools / share {
            let words = pool(&mut rng, pages);
            let [answered, refused] = calls(&mut rng, &words, 40);
            counts = [counts[0] + answered, counts[1] + refused];
        }
        assert!(counts.iter().all(|&count| count > 0), "{pages} pages: {counts:?}");
    }
}

#[test]
fn damaged_pools() {
    trial(1, 2_000, |rng, pages| {
        let mut words = real_pool(rng, pages);
        damage(rng, &mut words, pages);
        words
    });
}

#[test]
fn random_pages_under_a_head_that_fits() {
    trial(2, 2_000, random_pool);
}

#[test]
fn random_words_of_any_length() {
    let mut rng = Rng(3);
    for _ in 0..2_000 {
        let len = rng.below(400) as usize;
        let words: Vec<u64> = (0..len).map(|_| some_number(&mut rng, 4)).collect();
        calls(&mut rng, &words, 20);
    }
}

/// An iterator over damaged words ends, and says once that it was refused.
#[test]
fn keys_that_do_not_rise_end_the_iterator() {
    let mut words = vec![0; 128];
    let mut pool = Pool::make(&mut words, Kind::Map).unwrap();
    for key in 1..=9 {
        pool.map().insert(key, key).unwrap();
    }
    pool.words_mut()[98..107].copy_from_slice(&[5, 4, 3, 2, 1, 6, 7, 8, 9]);
    assert!(!pool.check());
    let map = pool.map();
    let mut range = map.range(..);
    assert_eq!(range.by_ref().find(Result::is_err), Some(Err(Refusal::Unsound)));
    assert_eq!(range.next(), None);
}

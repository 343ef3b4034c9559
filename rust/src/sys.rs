//! The archive's functions, each as a safe function over slices. All unsafe code of this crate is in this file.

use crate::Refusal;
use core::ops::Bound;

/// How many words the calls ask of `out`.
const OUT_WORDS: usize = 4;

/// The words of `out` after an answer, or the refusal. Words that the call does not write are 0.
pub(crate) type Answer = Result<[u64; OUT_WORDS], Refusal>;

/// Makes a safe function of one exported function: the pool, then numbers, then slices that the call fills.
macro_rules! call {
    ($name:ident = $symbol:ident(&pool $(, $number:ident)* $(; $($lent:ident),+)?)) => {
        call!(@ $name, $symbol, &[u64], *const u64, as_ptr, ($($number)*), ($($($lent)+)?));
    };
    ($name:ident = $symbol:ident(&mut pool $(, $number:ident)*)) => {
        call!(@ $name, $symbol, &mut [u64], *mut u64, as_mut_ptr, ($($number)*), ());
    };
    (@ $name:ident, $symbol:ident, $pool:ty, $pointer:ty, $as_pointer:ident, ($($number:ident)*), ($($lent:ident)*)) => {
        pub(crate) fn $name(pool: $pool $(, $number: u64)* $(, $lent: &mut [u64])*) -> Answer {
            extern "C" {
                fn $symbol(
                    pool: $pointer, len: usize, $($number: u64,)* $($lent: *mut u64, _: usize,)*
                    out: *mut u64, out_len: usize,
                ) -> u64;
            }
            let mut out = [0; OUT_WORDS];
            // SAFETY: each pointer and length is those of one live slice, so it is aligned and not null, also where the
            // slice is empty. A slice that may be written is held by `&mut`, so that no two of them overlap, and a pool
            // that is only read is held by `&` and not written. Of each function it is proved that it ends and reads
            // and writes inside these slices alone, whatever words and numbers it is given.
            let number = unsafe {
                $symbol(
                    pool.$as_pointer(), pool.len(), $($number,)* $($lent.as_mut_ptr(), $lent.len(),)*
                    out.as_mut_ptr(), out.len(),
                )
            };
            Refusal::or_answer(number, out)
        }
    };
}

call!(make = mp_make(&mut pool, kind));
call!(clear = mp_clear(&mut pool));
call!(count = mp_count(&pool));
call!(is_empty = mp_is_empty(&pool));
call!(copy = mp_copy(&pool; dst));
call!(check = mp_check(&pool));

call!(map_insert = mp_map_insert(&mut pool, key, value));
call!(map_get = mp_map_get(&pool, key));
call!(map_contains = mp_map_contains(&pool, key));
call!(map_replace = mp_map_replace(&mut pool, key, value));
call!(map_remove = mp_map_remove(&mut pool, key));
call!(map_list_entries = mp_map_list_entries(&pool, lo_kind, lo_key, hi_kind, hi_key; keys, values));
call!(map_list_keys = mp_map_list_keys(&pool, lo_kind, lo_key, hi_kind, hi_key; keys));
call!(map_list_values = mp_map_list_values(&pool, lo_kind, lo_key, hi_kind, hi_key; values));

call!(set_insert = mp_set_insert(&mut pool, key));
call!(set_get = mp_set_get(&pool, key));
call!(set_contains = mp_set_contains(&pool, key));
call!(set_remove = mp_set_remove(&mut pool, key));
call!(set_list = mp_set_list(&pool, lo_kind, lo_key, hi_kind, hi_key; keys));

call!(cursor_open_lower = mp_cursor_open_lower(&mut pool, kind, key));
call!(cursor_open_upper = mp_cursor_open_upper(&mut pool, kind, key));
call!(cursor_next = mp_cursor_next(&mut pool));
call!(cursor_prev = mp_cursor_prev(&mut pool));
call!(cursor_peek_next = mp_cursor_peek_next(&pool));
call!(cursor_peek_prev = mp_cursor_peek_prev(&pool));
call!(cursor_write_next = mp_cursor_write_next(&mut pool, value));
call!(cursor_write_prev = mp_cursor_write_prev(&mut pool, value));
call!(cursor_insert_after = mp_cursor_insert_after(&mut pool, key, value));
call!(cursor_remove_next = mp_cursor_remove_next(&mut pool));
call!(cursor_close = mp_cursor_close(&mut pool));

/// A bound as the calls take it: its kind and its key.
pub(crate) fn bound(bound: Bound<&u64>) -> (u64, u64) {
    match bound {
        Bound::Included(&key) => (0, key),
        Bound::Excluded(&key) => (1, key),
        Bound::Unbounded => (2, 0),
    }
}

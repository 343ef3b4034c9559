/* Moorpontoon: an ordered map, a set and a cursor in a pool of 64-bit words that you lend. No heap, no global state.
 * The functions are in libmoorpontoon.a, which `rt lib` in crates/moorpontoon writes for x86-64 Linux, on processors
 * of level x86-64-v2 and above.
 *
 * Every call:    number = mp_NAME(pool, len, ARGUMENTS.., out, out_len);
 *   - `len` is the pool's length in words: MP_WORDS(pages), pages from 1 to 4096.
 *   - It returns MP_ANSWER, and the answer stands at the front of `out`; or a refusal's number, and no word has changed.
 *   - `out` has at least MP_OUT_WORDS words. Each call below says which of them it writes; it leaves the others.
 *     A key or value that there is not is written as 0.
 *   - Any words may stand in a pool, and any numbers may be passed. Slices (pointer and length) must not overlap, and
 *     a slice of length 0 still has a pointer that is aligned and not null.
 */
#ifndef MOORPONTOON_H
#define MOORPONTOON_H

#include <stddef.h>
#include <stdint.h>

#ifdef __cplusplus
extern "C" {
#endif

/* What a call returns. Where several refusals are due, the first is given in the order 1, 2, 3, 8, 4, 5, 9, 6, 7. */
enum mp_number {
    MP_ANSWER = 0,      /* the answer stands in out */
    MP_UNFIT = 1,       /* the length is not allowed, or the head does not fit */
    MP_OTHER_KIND = 2,  /* a map or cursor call on a set, a set call on a map, or make with a kind above 1 */
    MP_BAD_BOUND = 3,   /* a bound kind above 2 */
    MP_OPENED = 4,      /* not while the cursor is open */
    MP_CLOSED = 5,      /* a cursor call, and the cursor is closed */
    MP_MISPLACED = 6,   /* insert after: the key is not strictly between the gap's neighbours */
    MP_NO_ROOM = 7,     /* a new key needs more pages than are free; never while there are at most 4 entries per page */
    MP_LENGTHS = 8,     /* copy: the two pools differ in length */
    MP_UNSOUND = 9,     /* the pool's words are damaged */
    MP_SHORT_OUT = 255  /* out has fewer than MP_OUT_WORDS words; nothing was done */
};

enum mp_kind { MP_MAP = 0, MP_SET = 1 };
enum mp_bound { MP_INCLUDED = 0, MP_EXCLUDED = 1, MP_UNBOUNDED = 2 }; /* with MP_UNBOUNDED the key is ignored */

/* A pool: the head, the page map, then the pages. */
#define MP_OUT_WORDS 4
#define MP_HEAD_WORDS 32
#define MP_PAGE_MAP_WORDS 64
#define MP_PAGE_WORDS 32
#define MP_MOST_PAGES 4096
#define MP_WORDS(pages) (MP_HEAD_WORDS + MP_PAGE_MAP_WORDS + MP_PAGE_WORDS * (size_t)(pages))

/* The head's words, for one who reads a pool by hand. Words 9 to 31 are 0. */
enum mp_head {
    MP_HEAD_FORM = 0,   /* 1 */
    MP_HEAD_PAGES = 1,  /* how many pages */
    MP_HEAD_COUNT = 2,  /* how many entries */
    MP_HEAD_ROOT = 3,   /* 0 no root, else the root's page number plus 1 */
    MP_HEAD_LEVELS = 4, /* how many levels of pages */
    MP_HEAD_OPEN = 5,   /* 1 while the cursor is open */
    MP_HEAD_GAP = 6,    /* the cursor's gap: 0 at the start, 1 just after an entry */
    MP_HEAD_KEY = 7,    /* that entry's key */
    MP_HEAD_KIND = 8    /* MP_MAP or MP_SET */
};

/* ---- The pool, of either kind ---- */

/* An empty pool of the kind (MP_MAP or MP_SET), whatever the words hold; an open cursor is closed. Writes no out. */
uint64_t mp_make(uint64_t *pool, size_t len, uint64_t kind, uint64_t *out, size_t out_len);
/* Takes every entry away; the kind stays. Writes no out. */
uint64_t mp_clear(uint64_t *pool, size_t len, uint64_t *out, size_t out_len);
/* out[0]: how many entries. */
uint64_t mp_count(const uint64_t *pool, size_t len, uint64_t *out, size_t out_len);
/* out[0]: 1 empty, else 0. */
uint64_t mp_is_empty(const uint64_t *pool, size_t len, uint64_t *out, size_t out_len);
/* Copies the pool over dst, which may hold anything but an open cursor; the copy's cursor is closed. Writes no out. */
uint64_t mp_copy(const uint64_t *pool, size_t len, uint64_t *dst, size_t dst_len, uint64_t *out, size_t out_len);
/* out[0]: 1 the pool is sound, else 0. Never refused. */
uint64_t mp_check(const uint64_t *pool, size_t len, uint64_t *out, size_t out_len);

/* ---- The map ---- */

/* Files value under key. out[0]: 1 the key was present, else 0; out[1]: its value before. */
uint64_t mp_map_insert(uint64_t *pool, size_t len, uint64_t key, uint64_t value, uint64_t *out, size_t out_len);
/* out[0]: 1 present, else 0; out[1]: its value; out[2]: pages read. */
uint64_t mp_map_get(const uint64_t *pool, size_t len, uint64_t key, uint64_t *out, size_t out_len);
/* out[0]: 1 present, else 0; out[1]: pages read. */
uint64_t mp_map_contains(const uint64_t *pool, size_t len, uint64_t key, uint64_t *out, size_t out_len);
/* Files value under key only if the key is present. out[0]: 1 present, else 0; out[1]: its value before. */
uint64_t mp_map_replace(uint64_t *pool, size_t len, uint64_t key, uint64_t value, uint64_t *out, size_t out_len);
/* Takes the key away. out[0]: 1 it was present, else 0; out[1]: its value. */
uint64_t mp_map_remove(uint64_t *pool, size_t len, uint64_t key, uint64_t *out, size_t out_len);

/* The lists write what lies between a lower and an upper bound, in key order, as much as fits into the shortest slice,
 * and change nothing past it. Bounds that cross give none. */

/* out[0]: how many entries were written. */
uint64_t mp_map_list_entries(const uint64_t *pool, size_t len,
                             uint64_t lo_kind, uint64_t lo_key, uint64_t hi_kind, uint64_t hi_key,
                             uint64_t *keys, size_t keys_len, uint64_t *values, size_t values_len,
                             uint64_t *out, size_t out_len);
/* out[0]: how many keys were written. */
uint64_t mp_map_list_keys(const uint64_t *pool, size_t len,
                          uint64_t lo_kind, uint64_t lo_key, uint64_t hi_kind, uint64_t hi_key,
                          uint64_t *keys, size_t keys_len, uint64_t *out, size_t out_len);
/* out[0]: how many values were written. */
uint64_t mp_map_list_values(const uint64_t *pool, size_t len,
                            uint64_t lo_kind, uint64_t lo_key, uint64_t hi_kind, uint64_t hi_key,
                            uint64_t *values, size_t values_len, uint64_t *out, size_t out_len);

/* ---- The set ---- */

/* Puts the key in. out[0]: 1 the key is new, 0 it was present. */
uint64_t mp_set_insert(uint64_t *pool, size_t len, uint64_t key, uint64_t *out, size_t out_len);
/* out[0]: 1 present, else 0; out[1]: the key; out[2]: pages read. */
uint64_t mp_set_get(const uint64_t *pool, size_t len, uint64_t key, uint64_t *out, size_t out_len);
/* out[0]: 1 present, else 0; out[1]: pages read. */
uint64_t mp_set_contains(const uint64_t *pool, size_t len, uint64_t key, uint64_t *out, size_t out_len);
/* Takes the key away. out[0]: 1 it was present, else 0. */
uint64_t mp_set_remove(uint64_t *pool, size_t len, uint64_t key, uint64_t *out, size_t out_len);
/* Lists keys between two bounds, as the map's lists do. out[0]: how many keys were written. */
uint64_t mp_set_list(const uint64_t *pool, size_t len,
                     uint64_t lo_kind, uint64_t lo_key, uint64_t hi_kind, uint64_t hi_key,
                     uint64_t *keys, size_t keys_len, uint64_t *out, size_t out_len);

/* ---- The cursor, on a map ----
 * It stands in a gap: before the first entry, between two, or after the last. While it is open the pool can be read
 * but is changed through the cursor alone. It stays open in the pool's head until it is closed. */

/* Opens in the gap before the first entry that the lower bound lets in. out[0]: pages read. */
uint64_t mp_cursor_open_lower(uint64_t *pool, size_t len, uint64_t kind, uint64_t key, uint64_t *out, size_t out_len);
/* Opens in the gap after the last entry that the upper bound lets in. out[0]: pages read. */
uint64_t mp_cursor_open_upper(uint64_t *pool, size_t len, uint64_t kind, uint64_t key, uint64_t *out, size_t out_len);
/* Moves over the next entry. out[0]: 1, or 0 at the end; out[1]: its key; out[2]: its value. */
uint64_t mp_cursor_next(uint64_t *pool, size_t len, uint64_t *out, size_t out_len);
/* Moves back over the entry before. out[0]: 1, or 0 at the start; out[1]: its key; out[2]: its value. */
uint64_t mp_cursor_prev(uint64_t *pool, size_t len, uint64_t *out, size_t out_len);
/* The entry after the gap, without moving. out[0]: 1, or 0 at the end; out[1]: its key; out[2]: its value. */
uint64_t mp_cursor_peek_next(const uint64_t *pool, size_t len, uint64_t *out, size_t out_len);
/* The entry before the gap, without moving. out[0]: 1, or 0 at the start; out[1]: its key; out[2]: its value. */
uint64_t mp_cursor_peek_prev(const uint64_t *pool, size_t len, uint64_t *out, size_t out_len);
/* Stores a value in the entry after the gap. out[0]: 1, or 0 at the end; out[1]: its value before. */
uint64_t mp_cursor_write_next(uint64_t *pool, size_t len, uint64_t value, uint64_t *out, size_t out_len);
/* Stores a value in the entry before the gap. out[0]: 1, or 0 at the start; out[1]: its value before. */
uint64_t mp_cursor_write_prev(uint64_t *pool, size_t len, uint64_t value, uint64_t *out, size_t out_len);
/* Puts a new entry just after the gap, which stays where it is. Writes no out. */
uint64_t mp_cursor_insert_after(uint64_t *pool, size_t len, uint64_t key, uint64_t value, uint64_t *out, size_t out_len);
/* Takes away the entry after the gap. out[0]: 1, or 0 at the end; out[1]: its key; out[2]: its value. */
uint64_t mp_cursor_remove_next(uint64_t *pool, size_t len, uint64_t *out, size_t out_len);
/* Closes the cursor. Writes no out. */
uint64_t mp_cursor_close(uint64_t *pool, size_t len, uint64_t *out, size_t out_len);

/* A call's number in plain words, with what to do about it. */
static inline const char *mp_in_words(uint64_t number) {
    switch (number) {
    case MP_ANSWER: return "an answer";
    case MP_UNFIT: return "these words are no pool: lend MP_WORDS(pages) words, and make a pool in them first";
    case MP_OTHER_KIND: return "the pool is of the other kind: use the calls of the kind that it was made with";
    case MP_BAD_BOUND: return "no such bound: use MP_INCLUDED, MP_EXCLUDED or MP_UNBOUNDED";
    case MP_OPENED: return "a cursor is open in the pool: close it first";
    case MP_CLOSED: return "no cursor is open in the pool: open one first";
    case MP_MISPLACED: return "the key does not belong in the cursor's gap: move the cursor, or close it and insert";
    case MP_NO_ROOM: return "too few pages are free: remove entries, or fill a longer pool";
    case MP_LENGTHS: return "the two pools differ in length: copy into one of the same length";
    case MP_UNSOUND: return "the pool's words are damaged: copy a sound pool over them, or make it anew";
    case MP_SHORT_OUT: return "out is too short: lend MP_OUT_WORDS words";
    default: return "not a number that a call returns";
    }
}

#ifdef __cplusplus
}
#endif

#endif

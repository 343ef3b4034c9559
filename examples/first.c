/* A first program in C: frames filed by clock tick, one looked up, a walk with the cursor, a refusal in words.
 *     (cd crates/moorpontoon && rt lib)
 *     cc -std=c99 -Iinclude examples/first.c crates/moorpontoon/out/libmoorpontoon.a -o first && ./first */
#include "moorpontoon.h"

#include <inttypes.h>
#include <stdio.h>
#include <stdlib.h>

static uint64_t pool[MP_WORDS(3)];
static uint64_t out[MP_OUT_WORDS];

#define POOL pool, MP_WORDS(3)
#define OUT out, MP_OUT_WORDS

/* For the calls that this program has no other use for than an answer. */
static void must(uint64_t number) {
    if (number != MP_ANSWER) {
        fprintf(stderr, "refused with %" PRIu64 ": %s\n", number, mp_in_words(number));
        exit(1);
    }
}

int main(void) {
    must(mp_make(POOL, MP_MAP, OUT));
    must(mp_map_insert(POOL, 3000, 2, OUT));
    must(mp_map_insert(POOL, 1000, 0, OUT));
    must(mp_map_insert(POOL, 2000, 1, OUT));
    must(mp_map_insert(POOL, 4000, 3, OUT));

    must(mp_map_get(POOL, 3000, OUT));
    if (out[0]) printf("tick 3000 is at place %" PRIu64 "\n", out[1]);
    must(mp_map_get(POOL, 3500, OUT));
    if (!out[0]) printf("tick 3500 has no frame\n");

    must(mp_cursor_open_lower(POOL, MP_INCLUDED, 2000, OUT));
    for (must(mp_cursor_next(POOL, OUT)); out[0]; must(mp_cursor_next(POOL, OUT)))
        printf("next: tick %" PRIu64 ", place %" PRIu64 "\n", out[1], out[2]);
    printf("next: the end\n");

    uint64_t number = mp_map_insert(POOL, 3500, 4, OUT);
    if (number != MP_ANSWER) printf("insert is refused with %" PRIu64 ": %s\n", number, mp_in_words(number));
    must(mp_cursor_close(POOL, OUT));
    must(mp_map_insert(POOL, 3500, 4, OUT));
    must(mp_count(POOL, OUT));
    printf("%" PRIu64 " frames\n", out[0]);
    return 0;
}

#!/bin/sh
# Counts the places of each point of docs/DESIGN-PASS.md in src/, a line a count. Run at the repository's top.
count() {
    printf '%-34s %s\n' "$1" "$(grep -nE "$2" $3 2>/dev/null | wc -l)"
}
all='crates/*/src/*.rt'
programs='crates/table/src/*.rt crates/replay/src/*.rt crates/trials/src/*.rt crates/pontoon/src/*.rt'

# 1. enums of our own; numbers that stand for kinds, refusals, calls or lines of a text; what says how a call went
count '1 enums' '^ *(pub )?enum ' "$all"
count '1 numbers as kinds' '^ *(pub )?const [A-Z_]+: (u64|usize) = [0-9]+;' "crates/map/src/refusal.rt $programs"
count '1 true for done' 'fn (seek|store|store_new|is_kept|give_up|replace)\(.*-> bool|^\) -> bool' "$all"
# 2. functions that differ in a type or a constant, by the names that reading found
count '2 a word or 0 past the end' 'fn (value_at|byte|word|byte_at|word_at|put|put_word|store|put_byte)\(.*(\[u8\]|\[u64\])' "$programs crates/map/src/list.rt"
count '2 an answer taken apart' '(said|answer): [A-Za-z:]+(,|\))' "$all"
count '2 words to the front' 'fn put_(one|two|three)\(' "$all"
count '2 figures to a number' 'fn (longer|number|number_of|figure)\(' "$programs"
count '2 an array for a path' 'let mut pages = \[0usize; MOST_LEVELS\]|\[Spot::default\(\); MOST_LEVELS\]' "$all"
# 3. loops that count by hand
count '3 loops' '^ *(while|loop) ' "$all"
# 4. equality, order, copying, conversion and printing by hand
count '4 equality and order' 'fn (same|is|lesser|both_or_neither|rises)\(' "$all"
count '4 copying' 'fn (zero|copy_words|lay|moved|append)\(.*\[' "$all"
count '4 conversion' 'fn (number|number_of|longer|figure|word_at|byte_at|decode|encode|wide)\(' "$all"
count '4 printing' 'fn (print|say|put|fill|put_byte|write_byte|write|newline|tell|mark)\(' "$programs"
count '4 texts by number' '^ *(pub )?const [A-Z]+: \[u8; [0-9]+\]' "$programs"
# 5. facts that stand in many contracts; parameters that travel together
count '5 a head that fits' 'headed pool\.(now|old) ≡ true' "$all"
count '5 room for head and map' 'first_word today 0 ≤ length pool' "$all"
count '5 a page inside the pool' 'Inside [a-z]+ pool' "$all"
count '5 a path inside the pool' 'PathIn pool' "$all"
count '5 a page long enough' 'Long most page' "$all"
count '5 a place for each level' 'length pa(ges|th)\.(old|now) ≡ levels_word' "$all"
count '5 pages, slots' 'slots: &' "$all"
count '5 key, value' 'key: u64, *value: u64|^ *value: u64,$' "$all"
count '5 lower, from, upper, to' 'from: (u64|usize)' "$all"
# 6. parallel arrays and buffers with a length beside them
count '6 parallel arrays' 'slots: &|values: &' "$all"
count '6 a buffer and its length' '(words|line|name|space|script|bytes): &(mut )?\[(u8|u64)\], *n: usize|&(mut )?[a-z]+\[(0)?\.\.[a-z]+\]' "$programs"
# 7. switches on which step to run
count '7 switches' 'match (letter|verb|which\(|kind|mark|what|word|count) ?' "$all"
count '7 a flag beside the data' '(past|keys|pairs|star|first): bool' "$all"

#!/usr/bin/env python3
"""Respells this repository's own definitions and lemmas for the newer Rattle: words in snake case.

usage: python3 tools/respell.py [--say]
At the top of a checkout over which the kit's port.py has run. --say changes nothing.

Functions of src/, exported names, strings and what programs read and write have no such spelling, so they stay.
"""

import glob
import re
import sys

TOKEN = re.compile(r"(?<![\w'₀-₉])([a-z][A-Za-z0-9_'₀-₉]*)")
BYTE = re.compile(r"b'[A-Z]'")
CAMEL = re.compile(r"[a-z0-9'₀-₉][A-Z]")
# Lemmas that port.py spelled as the definition that they are about will be: a lemma's name gets `_lem` then.
LEMMAS = {"holds_at": "holds_at_lem", "full_at": "full_at_lem", "from_back": "from_back_lem", "lent_back": "lent_back_lem"}
# A word of the kit that our lemmas are named after has another name now.
KIT = {"getD": "get_or", "get_d_map": "get_or_map"}


def files():
    for pattern in ("crates/*/specs/**/*.antt", "crates/*/proofs/**/*.antt", "crates/*/src/**/*.rt", "crates/*/must-fail/*.edit"):
        yield from sorted(glob.glob(pattern, recursive=True))


def snake(name):
    return KIT.get(name) or re.sub(r"(?<=[a-z0-9'₀-₉])([A-Z])", lambda m: "_" + m.group(1).lower(), name)


def main():
    texts = {f: open(f, encoding="utf-8").read() for f in files()}
    for f in texts:
        if f.endswith(".antt"):
            texts[f] = TOKEN.sub(lambda m: LEMMAS.get(m.group(1), m.group(1)), texts[f])
    met, taken = {}, {}
    for f, text in texts.items():
        for m in TOKEN.finditer(text):
            name = m.group(1)
            if CAMEL.search(name) and not BYTE.match(name) or name in KIT:
                met.setdefault(name, set()).add(f)
            else:
                taken.setdefault(name, set()).add(f)
    for name in sorted(met):
        new = snake(name)
        both = taken.get(new, set())
        if both:
            print(f"look: {name} -> {new}: {len(met[name])} files; {new} stands already in {' '.join(sorted(both))[:300]}")
    if "--say" in sys.argv:
        print(len(met), "names:", " ".join(sorted(met)))
        return
    for f, text in texts.items():
        text = TOKEN.sub(lambda m: snake(m.group(1)) if m.group(1) in met else m.group(0), text)
        with open(f, "w", encoding="utf-8") as out:
            out.write(text)


main()

#!/usr/bin/env python3
"""Bytes of stack that each exported function of libmoorpontoon.a takes, its own return address included.

    bench/stack.py crates/moorpontoon/out/libmoorpontoon.a

Reads the machine code (objdump): a function's own bytes are its pushes and what it takes from the stack pointer, and
to them comes the deepest of the functions that it calls, with 8 bytes for the return address. A function that calls
itself is counted once for each of the 6 levels that a tree can have. Functions of the C library are left out."""
import re
import subprocess
import sys

LEVELS = 6


def read(archive):
    """Each function's own bytes, and the functions that it calls or jumps to."""
    text = subprocess.run(["objdump", "-dr", "--no-show-raw-insn", archive], check=True, stdout=subprocess.PIPE, text=True).stdout
    own, calls, name, branch = {}, {}, None, False
    for line in text.splitlines():
        start = re.match(r"[0-9a-f]+ <(.+)>:$", line)
        if start:
            name = start.group(1)
            own[name], calls[name] = 0, set()
            continue
        target = re.search(r"R_X86_64_(?:PLT|PC)32\s+(?:\.text\.)?(.+?)(?:[-+]0x[0-9a-f]+)?$", line)
        if target:
            if branch:
                calls[name].add(target.group(1))
            continue
        branch = re.search(r"\s(call|jmp)\s", line) is not None
        if re.search(rf"\scall\s+[0-9a-f]+ <{re.escape(name or '')}>$", line):
            calls[name].add(name)
        if re.search(r"\spush\s", line):
            own[name] += 8
        taken = re.search(r"\ssub\s+\$0x([0-9a-f]+),%rsp", line)
        if taken:
            own[name] += int(taken.group(1), 16)
    return own, calls


def deep(name, own, calls, seen):
    """Bytes from this function down, with its return address."""
    times = LEVELS if name in calls[name] else 1
    below = [deep(other, own, calls, seen | {name}) for other in calls[name] if other in own and other not in seen | {name}]
    return (own[name] + 8) * times + max(below, default=0)


def main():
    own, calls = read(sys.argv[1])
    for name in sorted(own):
        if name.startswith("mp_"):
            print(f"{name:24} {deep(name, own, calls, frozenset()):5}")


main()

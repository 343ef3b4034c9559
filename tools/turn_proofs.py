#!/usr/bin/env python3
"""Turns proofs over a function's places (Proof.antt) into answers by name (Invariants.antt and Answers.antt).

usage: python3 tools/turn_proofs.py CRATE NAMES.json [WORD..]
At the top of the checkout. With words, only folders that have one of them.

NAMES.json is what `rt check --generated DIR --old-names` writes in the crate's folder. Answers that the check finds by
itself are dropped. What it could not turn is printed, and stands in the file as it was.
"""

import json
import os
import re
import sys

ID = r"[^\s(){}\[\],;.:=→×↦|]+"
KEEP = {"args", "requires", "ranges", "lifetimes", "type_inv", "auto"}
EASY = {"search rules", "omega arith", "tt", "search rules"}


def norm(s):
    s = s.replace("_", "-")
    s = re.sub(r"^overflow-", "", s)
    s = re.sub(r"^slice-bounds-", "part-", s)
    s = re.sub(r"^(.*loop\d*)-holds$", r"\1-init", s)
    s = re.sub(r"^(.*loop\d*)-less$", r"\1-smaller", s)
    return re.sub(r"^(.*loop\d*)-again$", r"\1-preserved", s)


class Signature:
    """What a function's signature names: the arguments that are `&mut`, its clauses where there are several."""

    def __init__(self, text):
        head = text.split("\n{", 1)[0]
        args = re.search(r"\((.*?)\)", head, re.S)[1]
        self.muts = re.findall(r"(\w+): &mut", args)
        self.requires = re.findall(r"^\s*requires (\w+) \{", head, re.M)
        self.ensures = re.findall(r"^\s*ensures (\w+) \{", head, re.M)


def signatures():
    out = {}
    for top, _, files in os.walk("crates"):
        if not re.match(r"crates/\w+/src(/|$)", top):
            continue
        for name in files:
            if not name.endswith(".rt"):
                continue
            crate, rest = re.fullmatch(r"crates/(\w+)/src/?(.*)", os.path.join(top, name)[:-3]).groups()
            path = [crate] + ([] if rest in ("lib", "main") else rest.split("/"))
            with open(os.path.join(top, name), encoding="utf-8") as f:
                text = f.read()
            for m in re.finditer(r"^(?:pub(?:\(crate\))? )?(?:extern \"C\" )?fn (\w+)", text, re.M):
                out["::".join(path + [m[1]])] = Signature(text[m.start():])
    return out


def clause(names, segs):
    """The name of a clause and what is left of the path, where the clauses were a product nested to the right."""
    for i, name in enumerate(names):
        if i == len(names) - 1:
            return name, segs
        if not segs or segs[0] not in ("0", "1"):
            return None
        if segs[0] == "0":
            return name, segs[1:]
        segs = segs[1:]


def split_tuple(t):
    parts, depth, cur = [], 0, ""
    for ch in t[1:-1]:
        depth += (ch in "([{") - (ch in ")]}")
        if ch == "," and depth == 0:
            parts.append(cur)
            cur = ""
        else:
            cur += ch
    return parts + [cur] if cur.strip() else parts


def named(rhs, names):
    """A tuple at the end of an answer as a record, where the clauses have names."""
    t = rhs.rstrip()
    if len(names) < 2 or not t.endswith(")"):
        return rhs
    depth, i = 0, len(t) - 1
    while i >= 0:
        depth += (t[i] == ")") - (t[i] == "(")
        if depth == 0:
            break
        i -= 1
    before = t[:i].rstrip()
    if before and not before.endswith(" in"):
        return rhs
    parts = split_tuple(t[i:])
    while len(parts) < len(names) and parts[-1].strip().startswith("("):
        more = split_tuple(parts[-1].strip())
        if not more:
            break
        parts = parts[:-1] + more
    if len(parts) != len(names):
        return rhs
    return t[:i] + "record { " + "; ".join(f"{n} = {p.strip()}" for n, p in zip(names, parts)) + " }"


class Function:
    def __init__(self, entry, own, fns):
        self.own, self.fns = own, fns
        self.callees = {norm(p[2][0] or ""): fns.get(p[3]) for p in entry["places"] if p[3]}
        self.needs = {norm(o): n for o, n in entry["needs"]}
        self.asked = {n: norm(at[0]) for (o, n), at in zip(entry["needs"], entry["asked_at"])}
        self.places, self.arms, self.typed = {}, {}, {}
        names = entry["places_by_name"]
        for i, p in enumerate(entry["places"]):
            old = norm(p[0])
            name = re.sub(r"^(In-[A-Z].*?)-\d+$", r"\1", names[i])
            self.places[old] = (name, norm(p[1]) if p[1] else None, norm(p[2][0] or ""), p[2][1] or "")
            self.arms[old] = entry["arms"][i]
            self.typed[old] = entry["typed"][i]
        self.loops = {norm(l[0][0]): (l[0][1], l[1]) for l in entry["loops"]}

    def chain(self, place):
        while place:
            yield place
            place = self.places[place][1] if place in self.places else None


class Turn:
    def __init__(self, f, path, say):
        self.f, self.path, self.say = f, path, say
        self.helpers = {}
        self.types = set()
        self.kinds, self.shifts = {}, {}

    def up(self, place, n):
        for _ in range(n):
            place = self.f.places[place][1] if place in self.f.places else None
        return place

    def step(self, place, segs):
        """The new path of the segments segs, the first of which is a field of `place` or of one above it."""
        first = norm(segs[0])
        own = self.f.own.requires if self.f.own else []
        if segs[0] in ("pre", "requires"):
            found = clause(own, segs[1:]) if len(own) > 1 else None
            return ["requires"] + ([found[0]] + found[1] if found else segs[1:])
        if segs[0] in KEEP:
            return segs
        for p in self.f.chain(place):
            arm = self.f.arms.get(p)
            best = None
            for new, old, path in (arm[2] if arm else []):
                path = [str(x) for x in path]
                if old and norm(old) == first and [norm(x) for x in segs[1:1 + len(path)]] == [norm(x) for x in path]:
                    if best is None or len(path) > len(best[1]):
                        best = (new, path)
            if best and best[1]:
                return [arm[0], best[0]] + segs[1 + len(best[1]):]
            if self.f.places[p][2] == first:
                if len(segs) > 1 and segs[1] == "given":
                    for q in self.f.chain(place):
                        for var, old in self.f.typed.get(q) or []:
                            if norm(old) == first:
                                return ["type_inv", var] + segs[2:]
                called = self.f.callees.get(first)
                rest = segs[1:]
                if called and rest and rest[0] == "ensures" and len(called.ensures) > 1:
                    found = clause(called.ensures, rest[1:])
                    rest = ["ensures", found[0]] + found[1] if found else rest
                elif called and len(rest) > 1 and rest[0] in ("new", "auto") and rest[1].isdigit():
                    if int(rest[1]) < len(called.muts):
                        rest = [rest[0], called.muts[int(rest[1])]] + rest[2:]
                return [self.f.places[p][3]] + rest
        if place != self.root:
            return self.step(self.root, segs)
        self.say(f"{self.path}: no step for {'.'.join(segs)} at {place}")
        return segs

    def expr(self, text, env, need=None):
        """The text with each path of a context turned; env has each context's place."""
        lines = text
        self.root = list(env.values())[0]
        # functions from a place to one above it
        some = "|".join(sorted((re.escape(v) for v in self.shifts), key=len, reverse=True))
        while some:
            new = re.sub(rf"\((?:{some}) (?:({ID}?)(?:\.before)*|\(({ID}?)(?:\.before)*\))\)", lambda m: m[1] or m[2], lines)
            new = re.sub(rf"(?<![\w.'-])(?:{some}) (?:({ID}?)(?:\.before)*|\(({ID}?)(?:\.before)*\))(?=[\s)\],;]|$)", lambda m: m[1] or m[2], new)
            if new == lines:
                break
            lines = new
        # what was asked, bound by a let
        for m in list(re.finditer(rf"let ({ID}) = ({ID}?)((?:\.before)*)\.(?:pre|requires) in(?=\s)", lines)):
            lines = re.sub(rf"(?<![\w.'-]){re.escape(m[1])}(?=\.\d)", f"{m[2]}{m[3]}.requires", lines)
        # an arm's parts, bound by a let
        for m in list(re.finditer(rf"let ({ID}) = ({ID}?(?:\.before)*\.[\w'-]+\.given) in(?=\s)", lines)):
            bare = re.findall(rf"(?<![\w.'-]){re.escape(m[1])}(?![\w'-])(?!\.\d)", lines.replace(m[0], ""))
            if not bare:
                lines = re.sub(re.escape(m[0]) + r"[ \t]*\n?[ \t]*", "", lines)
                lines = re.sub(rf"(?<![\w.'-]){re.escape(m[1])}(?=\.\d)", m[2], lines)
        # contexts bound by a let
        while True:
            hit = None
            for m in re.finditer(rf"let ({ID}) = ({ID}?)((?:\.before)*) in(?=\s)", lines):
                if m[2] in env:
                    hit = m
                    break
            if not hit:
                break
            name, of, ups = hit[1], hit[2], hit[3].count(".before")
            env = dict(env)
            place = self.up(env[of], ups)
            rest = lines[hit.end():]
            lead = re.match(r"[ \t]*\n?[ \t]*", rest)[0]
            lines = lines[:hit.start()] + rest[len(lead):]
            env[name] = place
        # calls of helpers
        for h, (place, _) in self.helpers.items():
            pat = re.compile(rf"(?<![\w.'-]){re.escape(h)} (?:({ID}?)((?:\.before)*)|\(({ID}?)((?:\.before)*)\))(?=[\s)\],;]|$)")

            def call(m, h=h, place=place):
                var, ups = m[1] or m[3], m[2] or m[4] or ""
                if var not in env:
                    return m[0]
                at = self.up(env[var], ups.count(".before"))
                if at != place:
                    self.say(f"{self.path}: {h} wants {place}, and is given {at}")
                if need is None:
                    if env[var] == place and not ups:
                        return f"{h} c"
                    self.say(f"{self.path}: the helper {h} is called in a helper")
                    return m[0]
                new = self.f.places[place][0]
                if self.f.asked[need] == place:
                    return f"{h} c"
                return f"{h} (goal.at.{need} c).{new}"
            lines = pat.sub(call, lines)

        def path(m):
            v, rest = m[1], m[2]
            if v not in env:
                return m[0]
            segs = [s for s in rest.split(".") if s]
            place = env[v]
            while segs and segs[0] == "before":
                segs.pop(0)
                place = self.up(place, 1)
            if not segs:
                self.say(f"{self.path}: a bare place {m[0]}")
                return m[0]
            place = place or self.root
            return "c." + ".".join(self.step(place, segs))
        names = "|".join(sorted((re.escape(v) for v in env), key=len, reverse=True))
        lines = re.sub(rf"(?<![\w.'₀-])({names})((?:\.[\w'+₀-₉-]+)+)", path, lines)
        lines = re.sub(r"\(not-(?:true|false) _ (c\.[\w.+-]+\.(?:true|false))\)", r"\1", lines)
        steps = {self.f.places[q][3]: self.f.callees.get(self.f.places[q][2]) for q in self.f.places}
        for m in re.finditer(rf"let ({ID}) = c\.([^\s.]+) in(?=\s)", lines):
            called = steps.get(m[2])
            if called:
                def field(k, called=called):
                    by = {"new": called.muts, "auto": called.muts, "ensures": called.ensures}[k[2]]
                    ok = int(k[3]) < len(by) and (k[2] != "ensures" or len(by) > 1)
                    return f"{k[1]}.{k[2]}.{by[int(k[3])]}" if ok else k[0]
                lines = re.sub(rf"(?<![\w.'-])({re.escape(m[1])})\.(new|auto|ensures)\.(\d+)", field, lines)
        return re.sub(r"not-(?:true|false) _ (c\.[\w.+-]+\.(?:true|false))(?![\w.])", r"\1", re.sub(r"not-(?:true|false) _ \((c\.[\w.+-]+\.(?:true|false))\)", r"\1", lines))


def chunks(text):
    out, cur = [], []
    for line in text.split("\n"):
        if not line.strip():
            if cur:
                out.append("\n".join(cur))
                cur = []
        else:
            cur.append(line)
    if cur:
        out.append("\n".join(cur))
    return out


def split_comment(chunk):
    lines = chunk.split("\n")
    i = 0
    while i < len(lines) and lines[i].startswith("--"):
        i += 1
    return lines[:i], "\n".join(lines[i:])


def turn(folder, crate, f, say):
    with open(os.path.join(folder, "Proof.antt"), encoding="utf-8") as file:
        text = file.read()
    t = Turn(f, folder, say)
    mod = "Rattle." + crate + ".proofs." + os.path.relpath(folder, f"crates/{crate}/proofs").replace("/", ".")
    parts = chunks(text)
    head, uses = split_comment(parts[0])
    uses = [u for u in uses.split("\n") if not re.search(r"\.(Statement\.\{statement\}|Tie as tie)$", u)]
    inv, ans = [], []
    kept = [parts[0]]
    for chunk in parts[1:]:
        note, body = split_comment(chunk)
        a = re.fullmatch(rf"abbrev ({ID}) : Type 0\n\1 = tie\.([\w'-]+)[^\n]*", body)
        body = re.sub(rf"(?<![\w.'-])({'|'.join(map(re.escape, t.kinds)) or '!'})(?= →)", lambda m: "tie." + t.kinds[m[1]], body)
        b = re.match(rf"abbrev ({ID}) : (?:tie\.)?([\w'-]+)(?: [^→\n]*)? → tie\.([\w'-]+)[^→\n]*\n", body)
        if a:
            t.kinds[a[1]] = norm(a[2])
        elif b:
            t.shifts[b[1]] = norm(b[3])
        else:
            kept.append(chunk)
    parts = kept
    for k, place in t.kinds.items():
        parts = [re.sub(rf"(?<![\w.'-]){re.escape(k)}(?= →|\))", "tie." + place, x) for x in parts]
    for chunk in parts[1:]:
        note, body = split_comment(chunk)
        m = re.match(rf"(?:abbrev )?(?:pub )?({ID}) :((?:.|\n)*?)\n(?=unfolding |(?:\S))", body)
        h = re.search(r"\(c : (?:\(?)tie\.([\w'-]+)", m[2]) if m else None
        h2 = re.match(r" tie\.((?:After|Then|Else|At|In|Joined|Start)[\w'-]*)[^→]*→", m[2]) if m else None
        if m and (h or h2) and "tie.Need-" not in m[2]:
            t.helpers[m[1]] = (norm((h or h2)[1]), chunk)
    for chunk in parts[1:]:
        note, body = split_comment(chunk)
        if not body:
            ans.append("\n".join(note))
            continue
        if re.search(r"statement M\b", body) and "tie.close" in body:
            continue
        m = re.match(rf"(?:abbrev )?(?:pub )?({ID}) : tie\.(invariant|decreases)-({ID})\n\1 (.*?) =((?:.|\n)*)$", body)
        if m:
            kind, loop, args, rhs = m[2], norm(m[3]), m[4].split(), m[5]
            if loop not in f.loops:
                say(f"{folder}: no loop {loop} among {list(f.loops)}")
                ans.append(chunk)
                continue
            new, names = f.loops[loop]
            by = {}
            for a in args:
                base = a.rstrip("₀")
                if base in names:
                    by[a] = ("l.initial." if a.endswith("₀") else "l.") + base
                elif a != "_" and re.search(rf"(?<![\w.'₀-]){re.escape(a)}(?![\w'₀-])", rhs):
                    say(f"{folder}: the invariant's {a} is none of {names}")
            pat = "|".join(sorted((re.escape(a) for a in by), key=len, reverse=True))
            rhs = re.sub(rf"(?<![\w.'₀-])({pat})(?![\w'₀-])", lambda k: by[k[1]], rhs) if pat else rhs
            inv.append("\n".join(note + [f"abbrev pub {kind}-{new} : goal.{kind}-{new}", f"{kind}-{new} l ={rhs}"]))
            continue
        m = re.match(rf"({ID}) : tie\.Need-({ID})[^\n]*\n((?:unfolding [^\n]*\n)*)\1((?: {ID})*) =((?:.|\n)*)$", body)
        if m:
            old = norm(m[2])
            rhs = m[5]
            flat = " ".join(rhs.split())
            if old not in f.needs:
                if flat not in EASY:
                    say(f"{folder}: no goal stands for {m[2]}; its answer was {flat[:200]}")
                continue
            new = f.needs[old]
            if flat in EASY and not m[3]:
                continue
            args = m[4].split()
            rhs = t.expr(rhs, {args[0]: f.asked[new]}, new)
            if new.startswith("returns"):
                rhs = named(rhs, f.own.ensures if f.own else [])
            elif norm(m[2]).endswith("requires") or "-requires-" in m[2]:
                called = f.callees.get(norm(re.sub(r"-requires(-\d+)?$", "", m[2])))
                rhs = named(rhs, called.requires if called else [])
            if len(args) > 1 and re.search(r"κs", rhs):
                say(f"{folder}: {new} uses κs")
            ans.append("\n".join(note + [f"pub {new} : goal.{new}"] + m[3].split("\n")[:-1] + [" ".join([new, "c"] + [x for x in args[1:] if x != "κs"]) + f" ={rhs}"]))
            continue
        name = re.match(rf"(?:abbrev )?(?:pub )?({ID}) :", body)
        if name and name[1] in t.helpers:
            place = t.helpers[name[1]][0]
            if place not in f.places:
                say(f"{folder}: no place {place}")
                ans.append(chunk)
                continue
            new = f.places[place][0]
            t.types.add(new)
            body = re.sub(r"tie\.[\w'-]+(?: (?:invariant|decreases)-[\w'-]+)*", new, body, count=1)
            body = t.expr(body, {"c": place})
            ans.append("\n".join(note + [body]))
            continue
        if "tie." in body:
            say(f"{folder}: not understood: {body.splitlines()[0][:150]}")
        ans.append(chunk)
    head = [re.sub(r"\s*Assumes nothing\.", "", l) for l in head]
    head = [l for l in head if l.strip() not in ("--", "")]
    os.remove(os.path.join(folder, "Proof.antt"))
    if inv:
        with open(os.path.join(folder, "Invariants.antt"), "w", encoding="utf-8") as file:
            file.write("\n".join(head + uses + [f"use {mod}.Given as goal"]) + "\n\n" + "\n\n".join(inv) + "\n")
    if any("pub" in a and "goal." in a for a in ans):
        types = [f"use {mod}.Goals.{{{', '.join(sorted(t.types))}}}"] if t.types else []
        with open(os.path.join(folder, "Answers.antt"), "w", encoding="utf-8") as file:
            file.write("\n".join(head + uses + [f"use {mod}.Goals as goal"] + types) + "\n\n" + "\n\n".join(ans) + "\n")
    elif ans and not all(a.startswith("--") for a in ans):
        say(f"{folder}: left without a goal: {[a.splitlines()[0][:80] for a in ans]}")


def main():
    crate, names = sys.argv[1], json.load(open(sys.argv[2]))
    said, fns = [], signatures()
    for top, _, files in sorted(os.walk(f"crates/{crate}/proofs")):
        if "Proof.antt" not in files or len(sys.argv) > 3 and not any(w in top for w in sys.argv[3:]):
            continue
        with open(os.path.join(top, "Proof.antt"), encoding="utf-8") as file:
            if "Tie as tie" not in file.read():
                said.append(f"{top}: left by hand, since it speaks of no Tie")
                continue
        key = f"Rattle-{crate}-proofs." + os.path.relpath(top, f"crates/{crate}/proofs").replace("/", ".") + ".Lts"
        if key not in names:
            said.append(f"{top}: {key} is not among the names")
            continue
        path = [crate] + os.path.relpath(top, f"crates/{crate}/proofs").replace("+", "").split("/")
        own = fns.get("::".join(path))
        if own is None:
            said.append(f"{top}: no signature of {'::'.join(path)}")
        turn(top, crate, Function(names[key], own, fns), said.append)
    print("\n".join(said))


main()

#!/usr/bin/env python3
"""Respells the repository's own definitions and lemmas, once, right after the toolchain's port.py.

usage: python3 tools/respell.py [--list]     at the top of the repository

What takes values is in snake case (letterAt becomes letter_at), and so are fields and constructors. In a lemma's name
a dash stays where it joins two names (length-splice), and a plain word is joined by '_' (part_above). Types, facts and
what follows a dot without being a field stay as they are. The crate bytes, whose name a library of the toolchain has
now, becomes octets. --list prints old and new, and writes nothing.
"""
import os
import re
import sys

SIGNATURE = re.compile(r"^(\s*)(?:(?:abbrev|unfoldable)\s+)?(?:pub\s+)?([^\s:(){}\[\].,;]+) :(?: |$)")
HEAD = re.compile(r"^\s*(?:pub\s+)?(record|data)\s+([^\s:(){}]+)")
TOKEN = re.compile(r"[A-Za-z_][A-Za-z0-9_'⊎-]*")
WORDS = set("let in use as open mutual module where data record elim unfold unfolding".split())

# Names of the library that lemmas are about.
LIBRARY = set("""length append take drop set map sum filter reverse replicate get_or insert cond joined swap zip fold
min max zeros""".split())

# Where the rule's own answer is taken already: a lemma with the name of the word or the function that it is about.
CHOSEN = {n: n.replace("-", "_") + "_lem" for n in """always-in-format always-kept bit-of boolean-leaf custom-asked
is-some keeps-none leaf-in never-cut null-leaf number-in piles-fit row-size shape-by text-leaf word-in""".split()}
CHOSEN["bitIn"] = "bitmap_bit"


def files(*ends):
    for top, dirs, names in os.walk("crates"):
        dirs[:] = sorted(d for d in dirs if d != "out")
        for n in sorted(names):
            if n.endswith(ends):
                yield os.path.join(top, n)


def snake(word):
    word = re.sub(r"(?<=[a-z0-9])([A-Z])", lambda m: "_" + m.group(1).lower(), word)
    return word


def defined():
    """Each name that the repository defines, with what it is: word, field, constructor, lemma."""
    kinds = {}
    for p in files(".antt"):
        inside = None
        depth = 0
        for line in open(p, encoding="utf-8"):
            if line.lstrip().startswith("--"):
                continue
            head = HEAD.match(line)
            if head:
                inside, depth = head.group(1), len(line) - len(line.lstrip())
                continue
            m = SIGNATURE.match(line)
            if not m or m.group(2) in WORDS:
                if line.strip() and len(line) - len(line.lstrip()) <= depth:
                    inside = None
                continue
            at, name = len(m.group(1)), m.group(2)
            if inside and at <= depth:
                inside = None
            if re.search(r": (goal|given|Given)\.", line):
                continue
            if inside == "record":
                kind = "field"
            elif inside == "data":
                kind = "constructor"
            elif "/specs/" in p or re.match(r"\s*(abbrev|unfoldable)", line):
                kind = "word"
            else:
                kind = "lemma"
            kinds.setdefault(name, set()).add(kind)
    return kinds


def turned(name, kinds, known):
    parts = [snake(p) if p[:1].islower() else p for p in name.split("-")]
    if kinds != {"lemma"}:
        return "_".join(parts)
    new = parts[0]
    for a, b in zip(parts, parts[1:]):
        new += ("-" if a in known and b in known else "_") + b
    return new


def mapping():
    kinds = defined()
    known = LIBRARY | {snake(n) for n, k in kinds.items() if k & {"word"} and n[:1].islower()} | {n for n in kinds if n[:1].isupper() and "-" not in n}
    new = {}
    for n, k in kinds.items():
        to = CHOSEN.get(n) or turned(n, k, known)
        if to != n:
            new[n] = to
    return kinds, new


def together(kinds, new):
    """The new names that a file of specs/ or proofs/ would then have twice; a field is told apart by its record."""
    for p in files(".antt"):
        used = set(TOKEN.findall(open(p, encoding="utf-8").read()))
        olds = {}
        for a in used & set(new):
            olds.setdefault(new[a], []).append(a)
        for b, here in sorted(olds.items()):
            if len(here) + (b in used) > 1 and kinds[here[0]] != {"field"}:
                yield f"{p}: {' and '.join(here)} would be {b}"


def main(argv):
    kinds, new = mapping()
    if "--list" in argv:
        for a, b in sorted(new.items()):
            print(a, b, ",".join(sorted(kinds[a])))
        return 0
    bad = list(together(kinds, new))
    if bad:
        print("\n".join(bad))
        return 1
    fields = {n for n, k in kinds.items() if "field" in k}

    def word(m):
        t = m.group(0)
        before = m.string[m.start() - 1] if m.start() else " "
        if t not in new or before == "." and t not in fields:
            return t
        return new[t]

    for p in [*files(".antt", ".rt"), "crates.txt"]:
        was = open(p, encoding="utf-8").read()
        now = TOKEN.sub(word, was) if p != "crates.txt" else re.sub(r"\bbytes\b", "octets", was)
        now = re.sub(r"\bRattle\.bytes\.|\buse bytes::", lambda m: m.group(0).replace("bytes", "octets"), now)
        if now != was:
            with open(p, "w", encoding="utf-8") as f:
                f.write(now)
    os.rename("crates/bytes", "crates/octets")
    return 0


if __name__ == "__main__":
    sys.exit(main(sys.argv[1:]))

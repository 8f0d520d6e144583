#!/usr/bin/env python3
"""Brings the names that this repository gives in specs/ and proofs/ to the spelling of today's Rattle: words in snake case.

usage: python3 tools/respell.py [FOLDER]     at the top of the repository, or with the folder that holds crates/

    leastBelow -> least_below     sumℕ -> sum_ℕ     firstOver-none -> first_over-none

A definition that would have the name of a function of src/, of a crate or of another definition gets `_lem`, as `first_over_lem`.
It runs once, after the toolchain's own script, over every .antt and .rt file and every must-fail edit. No name of src/ has
the old form, so in a .rt file it changes clauses, their imports and comments alone. A second run changes nothing.
"""
import collections
import os
import re
import sys

# Names of the toolchain's library that have the old form.
THEIRS = {"getD"}
# A fact is spelled as a type.
FACTS = {"nearIn": "NearIn"}
TOKEN = re.compile(r"[A-Za-z_][\w'₀-₉]*(?:-[\w'₀-₉*+]+)*")
OLD = re.compile(r"[a-z0-9][A-Zℕℤ]")


def is_old(part):
    return part[0].islower() and OLD.search(part) and part not in THEIRS


def snake(part):
    part = re.sub(r"([a-z0-9])([A-Zℕℤ])", r"\1_\2", part)
    return re.sub(r"[A-Z]", lambda m: m.group(0).lower(), part)


def files(top, *ends):
    for folder, dirs, names in os.walk(os.path.join(top, "crates")):
        dirs[:] = sorted(d for d in dirs if d != "out")
        for name in sorted(names):
            if name.endswith(ends):
                yield os.path.join(folder, name)


def main(top):
    texts = {p: open(p, encoding="utf-8").read() for p in files(top, ".antt", ".rt", ".edit")}
    tokens = collections.Counter(t for p, text in texts.items() if not p.endswith(".edit") for t in TOKEN.findall(text))
    parts = {part for token in tokens for part in token.split("-") if is_old(part)}
    taken = {t for t in tokens if "-" not in t and not is_old(t)}
    new = {part: FACTS.get(part) or snake(part) for part in parts}
    new = {part: it + "_lem" if it in taken else it for part, it in new.items()}
    for it, n in collections.Counter(new.values()).items():
        if n > 1 or it in taken:
            raise SystemExit(f"two names fall together: {it}")

    def turned(m):
        each = m.group(0).split("-")
        if not any(is_old(part) for part in each):
            return m.group(0)
        if len(each) == 1:
            return new[each[0]] if each[0] in new else snake(each[0])
        return "-".join(snake(part) if is_old(part) else part for part in each)

    for p, text in texts.items():
        it = TOKEN.sub(turned, text)
        if it != text:
            open(p, "w", encoding="utf-8").write(it)
    for old, it in sorted(new.items()):
        print(old, it)


main(sys.argv[1] if len(sys.argv) > 1 else ".")

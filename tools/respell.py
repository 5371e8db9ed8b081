#!/usr/bin/env python3
"""Gives the repository's own definitions and lemmas the spelling of today's Rattle.

usage: python3 tools/respell.py        at the top, once, on a tree whose library names are already respelled

Functions, lemmas, fields and variables go to snake case, facts to upper camel case.
A dash stays where it joins two names of functions, as in `length-encode`; elsewhere it becomes an underscore.
Names that Rattle makes from the code (goals, steps, fields of a goal's record) and names of src/ stay.
"""

import glob
import re
import sys

WORD = re.compile(r"[A-Za-z_][A-Za-z0-9_'\u2080-\u2089\u2260\u2115\u2124-]*")
DEFINED = re.compile(r"^\s*(?:(?:abbrev|unfoldable) )?(?:pub )?(?:data |record )?([A-Za-z_][^\s:(){}]*) (?:\([^:]*: .*|\{[^:]*: .*)?: ?(.*)$")
# names that would fall together with another, and the one that each gets in its place
CHOSEN = {"open-in": "opens_in", "digit-first": "digit_is_first"}


def snake(name):
    return re.sub(r"(?<=[a-z0-9])([A-Z])", lambda m: "_" + m.group(1).lower(), name)


def files(pattern):
    return sorted(p for p in glob.glob(pattern, recursive=True) if "/out/" not in p)


def text(path):
    with open(path, encoding="utf-8") as f:
        return f.read()


def definitions(paths):
    """Each name that these files define, with what stands behind its colon; goals are left out."""
    found = {}
    for p in paths:
        for line in text(p).splitlines():
            m = DEFINED.match(line)
            if m and not m.group(2).startswith("goal.") and not line.strip().startswith(("--", "let ", "elim ")):
                found.setdefault(m.group(1), []).append((p, m.group(2)))
    return found


def imported(paths):
    """The names that come from the library."""
    names = set()
    for p in paths:
        for m in re.finditer(r"use (?:Rattle\.std|borrow|native|denote|logic)[\w.]*\.\{([^}]*)\}", text(p)):
            names.update(n.strip() for n in m.group(1).split(","))
    return names


def respelled(name, words):
    if name in CHOSEN:
        return CHOSEN[name]
    if name[0].isupper():
        first, *rest = re.split("[-_]", name)
        return first + "".join(w[:1].upper() + w[1:] for w in rest)
    parts = [snake(p) for p in name.split("-")]
    whole = parts[0]
    for part in parts[1:]:
        whole += ("-" if whole in words and part in words else "_") + part
    return whole


def main():
    antt = files("crates/*/specs/**/*.antt") + files("crates/*/proofs/**/*.antt")
    rt = files("crates/*/src/**/*.rt")
    library = imported(antt + rt)
    own = definitions(antt)
    goals = {m.group(1) for p in antt for m in re.finditer(r"(?m)^(?:abbrev )?pub (\S+) : goal\.", text(p))}
    functions = {m.group(1) for p in files("crates/*/specs/**/*.antt") for m in re.finditer(r"(?m)^(?:abbrev|unfoldable) pub (\S+) ", text(p))}
    words = {snake(n) for n in functions} | {n for n in library if "-" not in n}
    locals_ = {m for p in antt for m in WORD.findall(text(p)) if re.fullmatch(r"[a-z][a-z0-9]*(?:[A-Z][a-z0-9]*)+", m)} - library
    names = {n: respelled(n, words) for n in (set(own) | locals_) - library - goals if WORD.fullmatch(n)}
    names = {o: n for o, n in names.items() if o != n}
    taken = {w for p in antt + rt for w in WORD.findall(text(p))}
    for old, new in sorted(names.items()):
        if new in taken or list(names.values()).count(new) > 1:
            print(f"falls together: {old} -> {new}", [p for p, _ in own.get(old, [])], [p for p, _ in own.get(new, [])])
    if "--list" in sys.argv:
        print("\n".join(f"{o} {n}" for o, n in sorted(names.items())))
        return
    fields = {m.group(1) for p in antt for m in re.finditer(r"(?m)^  pub ([^\s:]+) : ", text(p))}
    for p in antt + rt:
        was = text(p)

        def turn(m):
            word, before = m.group(0), was[m.start() - 1 : m.start()]
            made_by_rattle = before == "." and word not in fields
            return word if made_by_rattle else names.get(word, word)

        now = WORD.sub(turn, was)
        if now != was:
            with open(p, "w", encoding="utf-8") as f:
                f.write(now)


main()

#!/usr/bin/env python3
"""Brings the repository's own definitions and lemmas to one spelling: words in snake case, facts in camel case.

usage: tools/respell.py [--dry]      at the top of the repository, right after the kit's port.py

Renamed is what stands in specs/ and in the lemma files of proofs/: definitions, fields, constructors, and the names that they
bind; everywhere in crates/ where it is cited. Names of src/, of the library, and names that the check makes keep their spelling.
It stops where two of these would fall together, and says where one has the spelling of a name in src/ now.
"""
import glob
import re
import sys

NAME = r"[A-Za-z_][A-Za-z0-9_'ℕℤ]*"
DASHED = re.compile(rf"(?<![\w'+-]){NAME}(?:-[A-Za-z0-9_'ℕℤ]+)+(?![\w'+-])")
GENERATED = re.compile(r"/proofs/.*/(Answers|Invariants|Proof)\.antt$")


def spelled(name):
    """`drive-letter` is drive_letter; `Fixed-legs` is FixedLegs."""
    if name[0].isupper():
        return "".join(part[0].upper() + part[1:] for part in name.split("-"))
    return name.replace("-", "_")


def texts(kinds):
    for kind in kinds:
        for path in sorted(glob.glob(kind, recursive=True)):
            if "/out/" not in path:
                yield path, open(path, encoding="utf-8").read()


def without_comments(text, path):
    mark = "//" if path.endswith((".rt", ".edit")) else "--"
    return re.sub(rf"(^|\s){mark} .*", "", text)


LEMMAS = ["crates/*/specs/**/*.antt", "crates/*/proofs/**/*.antt"]
ALL = LEMMAS + ["crates/*/src/**/*.rt", "crates/*/must-fail/*.edit"]


def columns(old, new):
    """The list of definitions at the head of a file keeps its columns where a name became shorter."""
    head = re.compile(r"-- ([^\s,]+)( +)(?=\S)")
    lines = []
    for before, after in zip(old.split("\n"), new.split("\n")):
        was, now = head.match(before), head.match(after)
        if was and now and was[1] != now[1]:
            after = f"-- {now[1]}".ljust(was.end()) + after[now.end():]
        lines.append(after)
    return "\n".join(lines)


def imported(text, own):
    """The names that a file takes from elsewhere than the repository's own specs and lemmas."""
    found = set()
    for path, names in re.findall(r"use ([^\s{;]+)\.\{([^}]*)\}", text):
        parts = path.split(".")
        ours = parts[0] == "Rattle" and len(parts) > 1 and parts[1] in own
        made = ours and ("Goals" in parts or "Given" in parts or "declared" in parts)
        if not ours or made:
            for item in names.split(","):
                found.update(item.split(" as "))
    return {x.strip() for x in found}


def main():
    own = {p.split("/")[1] for p in glob.glob("crates/*/src")}
    foreign, bound = set(), {}
    for path, text in texts(ALL):
        foreign |= imported(text, own)
    for path, text in texts(LEMMAS):
        if GENERATED.search(path):
            continue
        plain = without_comments(text, path)
        plain = re.sub(r"(?m)^(ghost )?use .*$", "", plain)
        for match in DASHED.finditer(plain):
            bound.setdefault(match[0], set()).add(path)
    names = {n: spelled(n) for n in bound if n not in foreign}

    # no two names may fall together, nor one with a name that is there already
    every = set()
    for _, text in texts(ALL):
        every |= set(re.findall(r"[A-Za-z_][\w']*", text))
    clash = sorted(f"{n} -> {new}" for n, new in names.items() if new in every)
    twice = sorted(n for n in names if sum(new == names[n] for new in names.values()) > 1)

    if "--dry" in sys.argv:
        print(" ".join(sorted(names)))
        print("clash:", clash)
        print("twice:", twice)
        return
    if twice:
        sys.exit(f"respell: these would fall together: {twice}")

    def renamed(match):
        return names.get(match[0], match[0])

    changed = 0
    for path, text in texts(ALL):
        made = DASHED.sub(renamed, text)
        if path.endswith(".antt"):
            made = columns(text, made)
        if made != text:
            changed += 1
            with open(path, "w", encoding="utf-8") as f:
                f.write(made)
    print(f"respell: {len(names)} names in {changed} files")
    for line in clash:
        print("look:", line)


main()

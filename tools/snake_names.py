#!/usr/bin/env python3
"""Spells this repository's own definitions and lemmas in snake case: anArgument and bits-back become an_argument and bits_back.

usage: python3 tools/snake_names.py [--list]     at the top of the repository, once, after the scripts of the toolchain

Renamed are the functions, constructors, fields and lemmas that a file of specs/ or proofs/ declares, and the names under which a
file imports another's, where they are used: in .antt files, and in the ghost parts of .rt files. Functions of src/, texts in quotes,
remarks, types, modules and the names that the toolchain makes (goals, steps, invariants) stay. It stops, and writes nothing, where
two names would fall together.
"""

import re
import sys

from respelling import TOKEN, files, read, respell

DECLARED = re.compile(r"^(\s*)((?:(?:abbrev|opaque|unfoldable|pub|instance)\s+)*)([a-z][^\s:(){},.=|λ→]*)((?:\s+[^\s:=]+)*)\s*:\s+(.*)$")
ALIAS = re.compile(r"^(?:ghost |pub )*use [^\n]*$", re.M)
GHOST = re.compile(r"\bghost\s+(?!use\b|invariant\b|const\b|fn\b)([a-z]\w*)")


# Where two names would fall together, one gets another word.
APART = {
    "behind-all": "behind_every",
    "decimal-after": "decimal_after_lem",
    "hex-after": "hex_after_lem",
    "hex-digit": "hex_digit_lem",
    "takeAt": "take_position",
    "writeAt": "write_position",
}


def snake(name):
    if name in APART:
        return APART[name]
    tail = re.search(r"'*$", name)[0]
    base = name[: len(name) - len(tail)]
    base = re.sub(r"(?<=[a-z0-9])([A-Z])", lambda m: "_" + m[1].lower(), base)
    return base.replace("-", "_") + tail


def own(name):
    return "-" in name or re.search(r"[a-z0-9][A-Z]", name)


def declared():
    """The names to be spelled anew, and those of them that are fields."""
    names, fields, all_names = set(), set(), set()
    for path in files("crates", ".antt"):
        in_record = None
        for line in read(path).split("\n"):
            if re.match(r"\s*(pub\s+)?record\s", line) and line.rstrip().endswith("where"):
                in_record = len(line) - len(line.lstrip())
                continue
            if line.strip() and in_record is not None and len(line) - len(line.lstrip()) <= in_record:
                in_record = None
            m = DECLARED.match(line)
            if not m or line.lstrip().startswith(("--", "use ")) or m[3] in ("let", "λ"):
                continue
            goal = re.match(r"goal\.(\S+)", m[5])
            if goal:
                continue
            for n in [m[3], *m[4].split()]:
                all_names.add(n)
                if own(n) and re.match(r"[a-z]", n):
                    names.add(n)
                    if in_record is not None:
                        fields.add(n)
    for path in [*files("crates", ".antt"), *files("crates", ".rt")]:
        for line in ALIAS.findall(read(path)):
            names |= {n for n in re.findall(r" as ([a-z]\w*)", line) if own(n)}
    for path in files("crates", ".rt"):
        for m in GHOST.finditer(read(path)):
            if own(m[1]):
                names.add(m[1])
                fields.add(m[1])
    return names, fields, all_names


def falls(to, all_names):
    """Says which names would fall together, or with a word that stands for something else."""
    seen, used, said = {}, set(), []
    for path in files("crates", ".antt"):
        used |= set(TOKEN.findall(read(path)))
    for n, s in sorted(to.items()):
        if s in seen or s in all_names:
            said.append(f"fall together: {n} and {seen.get(s, s)}")
        elif s in used:
            said.append(f"already used for something else: {s}, wanted for {n}")
        seen[s] = n
    return said


def main():
    names, fields, all_names = declared()
    to = {n: snake(n) for n in names}
    said = falls(to, all_names)
    if said:
        print("\n".join(said))
        return 1
    if "--list" in sys.argv:
        for n in sorted(to):
            print(n, to[n], "field" if n in fields else "")
        return 0

    def spelled(word, before):
        if word not in to:
            return word
        # Behind a dot stands a field, or a name behind its module.
        if before.endswith(".") and word not in fields and not re.search(r"[A-Z]\w*\.$", before[-60:]):
            return word
        return to[word]

    for path in [*files("crates", ".antt"), *files("crates", ".rt")]:
        respell(path, spelled)
    return 0


if __name__ == "__main__":
    sys.exit(main())

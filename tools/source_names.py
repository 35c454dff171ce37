#!/usr/bin/env python3
"""Spells, in the proof files of crates, the names that the toolchain makes as it makes them today.

usage: python3 tools/source_names.py [CRATE..]     at the top of the repository, once, after tools/snake_names.py

A name of the source keeps its underscores now, and so do the toolchain's own words: returns-then-is-empty becomes
returns-then-is_empty, in-ok-x becomes in_ok-x. Names that a file imports, and texts in quotes, stay.
"""

import os
import re
import sys

from respelling import TOKEN, files, read, respell

WORDS = {
    "type_inv", "in_ok", "in_err", "in_default", "from_residual", "slice_bounds", "offset_bounds", "invariant_of", "yielded_by",
    "well_formed", "items_fit", "shared_slice_known", "row_known", "the_row",
    *(f"overflow_{w}" for w in ("add", "sub", "mul", "shl", "shr", "cast", "step", "neg")), "nonzero_div", "nonzero_rem",
}


def joined(token, words):
    """The token, with its parts joined by underscores where they are a word, longest first."""
    parts, out, i = token.split("-"), [], 0
    while i < len(parts):
        for j in range(len(parts), i, -1):
            word = "_".join(parts[i:j])
            if j > i + 1 and word in words:
                out.append(word)
                i = j
                break
        else:
            out.append(parts[i])
            i += 1
    return "-".join(out)


def uses():
    """The libraries of the repository that each crate names in crates.txt."""
    lines = [l.split("#")[0] for l in read("crates.txt").split("\n")]
    return {l.split(":")[0].split()[0]: l.split(":")[1].split() for l in lines if ":" in l}


def underscored(crate, below):
    """The names with underscores that stand in the source of the crate and of those that it uses."""
    words = set(WORDS)
    for c in [crate, *below[crate]]:
        for path in files(os.path.join("crates", c, "src"), ".rt"):
            words |= {w for w in re.findall(r"[A-Za-z_]\w*", read(path)) if "_" in w.strip("_")}
    return words


def main(argv):
    below = uses()
    for crate in argv or sorted(os.listdir("crates")):
        words = underscored(crate, below)
        for path in files(os.path.join("crates", crate, "proofs"), ".antt"):
            head = "\n".join(l for l in read(path).split("\n") if l.startswith(("use ", "pub use ")))
            imported = set(TOKEN.findall(re.sub(r"Goals\.\{[^}]*\}", "", head)))
            respell(path, lambda word, _: joined(word, words) if "-" in word and word not in imported else word)
    return 0


if __name__ == "__main__":
    sys.exit(main(sys.argv[1:]))

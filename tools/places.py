#!/usr/bin/env python3
"""places.py [COMMIT]: prints, for each kind of older form, the places of crates/*/src that a pattern finds, and how many.

Without COMMIT it reads the files as they lie there. Whether a place is one, docs/DESIGN-PASS.md says.
"""
import re
import subprocess
import sys

# The number of the point in docs/DESIGN-PASS.md, what the pattern finds, and the pattern.
PATTERNS = [
    (1, "an arm that hands an Option or a Result on by hand",
     r"^\s*(None|Err\(_?\w*\)|Some\(\w+\)|Ok\(\w*(\(\))?\)) => \(?(None|Some|Ok|Err)\b"),
    (1, "an if whose other branch is None", r"else \{ None \}|^\s*None$"),
    (1, "an enum", r"^\s*(pub(\(crate\))? )?enum "),
    (1, "a constant number", r"^\s*(pub(\(crate\))? )?const \w+: [ui]\w+ ="),
    (1, "a field or a parameter that is a flag", r"^\s*(mut )?\w+: bool,|[(,] ?\w+: bool[,)]"),
    (2, "a function", r"^\s*(pub(\(crate\))? )?fn \w+"),
    (2, "a type", r"^\s*(pub(\(crate\))? )?(struct|enum) "),
    (3, "a loop that counts", r"^\s*(while|loop)\b|for \w+ in 0\.\.|\.enumerate\(\)"),
    (3, "an element by a number that is no constant", r"\w\[[a-z_.]+( [+-] \d+)?\]"),
    (3, "a loop over elements", r"^\s*for .* in (?!0\.\.)(?!.*enumerate)"),
    (4, "a conversion, a comparison or a printing function",
     r"fn (same|is\w*|eq|cmp|from|try_from|case|number|name|reason|sentence|as_\w+|\w+_of|\w+_byte|say_\w+|print_\w+)\b"),
    (4, "a function that prints into a text", r"fn \w+.*out: &mut String"),
    (5, "a clause", r"^\s*(requires|ensures)\b"),
    (5, "a ghost field or an invariant", r"^\s*ghost \w+: \{"),
    (6, "a length, a place or a count beside memory", r"^\s*(pub )?(len|start|at|used|take_at|write_at|number|position): (usize|u64|u32),|used: usize"),
    (6, "memory lent as a slice", r"^\s*(pub )?\w+: &('\w+ )?mut \[|: &mut \[[^\]]*\],?$"),
    (7, "a match", r"\bmatch "),
    (7, "a closure, a function as a value or a dyn", r"\|[a-z_&, ]*\| |\bdyn \b|impl Fn|: Fn"),
]


def files(commit):
    if commit is None:
        names = subprocess.run(["git", "ls-files", "crates/*/src/*.rt"], capture_output=True, text=True, check=True).stdout
        return {n: open(n, encoding="utf-8").read() for n in names.split()}
    names = subprocess.run(["git", "ls-tree", "-r", "--name-only", commit, "crates"], capture_output=True, text=True, check=True).stdout
    return {
        n: subprocess.run(["git", "show", f"{commit}:{n}"], capture_output=True, text=True, check=True).stdout
        for n in names.split()
        if "/src/" in n and n.endswith(".rt")
    }


def main():
    texts = files(sys.argv[1] if len(sys.argv) > 1 else None)
    for point, what, pattern in PATTERNS:
        found = [
            (name, i, line.strip())
            for name, text in sorted(texts.items())
            for i, line in enumerate(text.split("\n"), 1)
            if not line.strip().startswith("//") and re.search(pattern, line)
        ]
        print(f"{point}. {what}: {len(found)}")
        for name, i, line in found:
            print(f"    {name[7:]}:{i}: {line[:110]}")


if __name__ == "__main__":
    main()

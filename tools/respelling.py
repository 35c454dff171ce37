"""What both scripts share that spell names anew: the words of a file, the files of a crate, and the writing back."""

import os
import re

# A character, a text in quotes or a remark is one word.
TOKEN = re.compile(r'b?\'\\?.\'|"(?:\\.|[^"\\])*"|--.*|//.*|[^\s(){}\[\].,;:"|=]+')


def read(path):
    with open(path, encoding="utf-8", errors="surrogateescape") as f:
        return f.read()


def files(top, ending):
    for folder, dirs, names in os.walk(top):
        dirs[:] = sorted(d for d in dirs if d != "out")
        for n in sorted(names):
            if n.endswith(ending):
                yield os.path.join(folder, n)


def respell(path, spelled):
    """Puts spelled(word, text before it) in the place of each word, but for texts and remarks."""
    text = read(path)

    def one(m):
        word = m[0]
        return word if word.startswith(('"', "'", "--", "//")) else spelled(word, text[: m.start()])

    new = TOKEN.sub(one, text)
    if new != text:
        with open(path, "w", encoding="utf-8", errors="surrogateescape") as f:
            f.write(new)
        print(path)

#!/usr/bin/env python3
"""Respells this repository's own definitions and lemmas, once, after the installed Rattle's scripts: words in snake case, types and facts
in camel case. usage: python3 tools/respell.py FOLDER, a checkout. tools/respell.tsv has the old and the new name of each, a line each. Source
words (functions, struct fields, variables) are not in that list; comments, strings and other words stay as they are."""
import os
import re
import sys

HERE = os.path.dirname(os.path.realpath(__file__))
WORD = re.compile(r"[^\s(){}\[\].;,:→λ∷×≡∙]+")


def main(root):
    with open(os.path.join(HERE, "respell.tsv"), encoding="utf-8") as f:
        names = dict(line.rstrip("\n").split("\t") for line in f)

    def word(m):
        w = m[0]
        return names.get(w, w)

    def line_of(text, comment):
        code, mark, rest = text.partition(comment)
        if not mark or code.strip():
            code = WORD.sub(word, code)
        return code + mark + rest

    for folder, dirs, files in os.walk(os.path.join(root, "crates")):
        dirs[:] = sorted(d for d in dirs if d != "out")
        for name in sorted(files):
            if not name.endswith((".rt", ".antt", ".edit")):
                continue
            path = os.path.join(folder, name)
            with open(path, encoding="utf-8") as f:
                old = f.read()
            comment = "-- " if name.endswith(".antt") else "// "
            new = "\n".join(line_of(t, comment) for t in old.split("\n"))
            if new != old:
                with open(path, "w", encoding="utf-8") as f:
                    f.write(new)


if __name__ == "__main__":
    main(sys.argv[1])

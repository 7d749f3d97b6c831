#!/usr/bin/env python3
"""Brings the repository's own definitions and lemmas to today's spelling: words in snake case, types and modules in camel case.

usage: tools/respell.py [FOLDER]

It ran once, right behind the kit's port.py (docs/PORT.md). tools/respelled.tsv has a row for each name: old, a tab, new. Whole
words turn: in .antt files everywhere, in .rt files in clauses, ghost items and comments. Functions of src/ have none of these
spellings, since a row's old name has a capital behind a small letter or a dash. Strings stay.
"""

import os
import re
import sys

HERE = os.path.dirname(os.path.abspath(__file__))
WORD = re.compile(r'[^\s(){}.;,@"«»\[\]|`]+')
TEXT = re.compile(r'"(?:[^"\\\n]|\\.)*"')


def turned(text, table):
    def word(m):
        return table.get(m[0], m[0])

    out, at = [], 0
    for quoted in TEXT.finditer(text):
        out.append(WORD.sub(word, text[at : quoted.start()]))
        out.append(quoted[0])
        at = quoted.end()
    out.append(WORD.sub(word, text[at:]))
    return "".join(out)


def main():
    root = sys.argv[1] if len(sys.argv) > 1 else os.path.dirname(HERE)
    with open(os.path.join(HERE, "respelled.tsv"), encoding="utf-8") as f:
        table = dict(line.rstrip("\n").split("\t") for line in f)
    count = 0
    for folder, folders, files in os.walk(os.path.join(root, "crates")):
        folders[:] = sorted(d for d in folders if d != "out")
        for name in sorted(files):
            if name.endswith((".antt", ".rt")):
                path = os.path.join(folder, name)
                with open(path, encoding="utf-8") as f:
                    old = f.read()
                new = turned(old, table)
                if new != old:
                    count += 1
                    with open(path, "w", encoding="utf-8") as f:
                        f.write(new)
    print(f"respell: {count} files changed")


if __name__ == "__main__":
    main()

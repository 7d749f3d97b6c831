#!/usr/bin/env python3
"""Lists the law modules that the port moved from specs/ to proofs/, with each declaration, and compares them with the port's first commit.

usage: tools/moved.py [--statements]

The commit is the second line of docs/PORT.md. A statement is what stands between a declaration's name and its first clause, of a record with
its parameters and up to its fields, which are declarations too; it has to be the same, word for word, but for the path of a moved module.
With --statements each is printed whole. Then each line of a module that differs is printed, proofs and bodies of definitions among them, but
for imports and comments. Status 1 where a statement differs or is gone.
"""

import difflib
import os
import re
import subprocess
import sys

TOP = os.path.dirname(os.path.dirname(os.path.abspath(__file__)))
NAME = r'[^\s(){}.;,@"«»]+'
HEAD = re.compile(r"^( *)(?:(?:abbrev|unfoldable) )?(?:pub )?(?:(?:data|record) (" + NAME + r") |(" + NAME + r") :(?= |$))")
IMPORT = re.compile(r" *(?:pub )?(?:use|import)\b")


def git(*words):
    return subprocess.run(["git", *words], cwd=TOP, capture_output=True, text=True, check=True).stdout


def code(text):
    text = re.sub(r"\{-.*?-\}", "", text, flags=re.S)
    return [re.sub(r"(?<![^\s(){}.;,@\"«»])--.*", "", line).rstrip() for line in text.split("\n")]


def statements(text):
    """Each declaration's name and statement, in order; what stands in a 'where' or a 'let' of a proof is left out."""
    found, lines, at = [], code(text), 0
    while at < len(lines):
        head = HEAD.match(lines[at])
        if not head or len(head[1]) > 2:
            at += 1
            continue
        said, deep, name, is_type = [lines[at].strip()], len(head[1]), head[2] or head[3], head[2] is not None
        at += 1
        while at < len(lines) and not (is_type and said[-1].endswith(" where")) and (not lines[at] or len(lines[at]) - len(lines[at].lstrip()) > deep):
            said.append(lines[at].strip())
            at += 1
        found.append((name, " ".join(it for it in said if it)))
    return found


def main():
    with open(f"{TOP}/docs/PORT.md", encoding="utf-8") as f:
        first = f.read().split("\n")[1].split()[0]
    old = [it for it in git("ls-tree", "-r", "--name-only", first, "crates").split("\n") if re.fullmatch(r"crates/\w+/specs/.*\.antt", it)]
    wrong = count = 0
    for path in old:
        now = path.replace("/specs/", "/proofs/", 1)
        if os.path.exists(f"{TOP}/{path}") or not os.path.exists(f"{TOP}/{now}"):
            continue
        with open(f"{TOP}/{now}", encoding="utf-8") as f:
            text = f.read()
        was = git("show", f"{first}:{path}")
        today, before = statements(text), statements(was)
        print(f"{now[len('crates/'):]}: " + ", ".join(name for name, _ in before))
        for at, (name, said) in enumerate(before):
            count += 1
            said = " ".join(said.split())
            spelled = today[at][1] if at < len(today) else None
            if spelled is None or " ".join(spelled.split()) != said:
                wrong += 1
                print(f"  DIFFERS {name}\n    was {said}\n    is  {spelled}")
            elif "--statements" in sys.argv:
                print(f"    {said}")
        lines = [[line for line in code(it) if line and not IMPORT.match(line)] for it in (was, text)]
        for line in difflib.unified_diff(*lines, n=0, lineterm=""):
            if line[:2] not in ("--", "++", "@@"):
                print(f"  line {line[0]} {line[1:].strip()}")
    print(f"moved: {count} declarations, {wrong} that differ")
    return 1 if wrong else 0


if __name__ == "__main__":
    sys.exit(main())

#!/usr/bin/env python3
"""Counts the places of docs/DESIGN-PASS.md in crates/*/src: older forms where today's Rattle has a plainer one.

    tools/forms.py [--places] [POINT..]     how many places each point has; with --places each place, FILE:LINE and what stands there
    tools/forms.py --at COMMIT ..           the same of the sources as they were at that commit

What is found is a form, not a fault: the page says of each whether it went or why it stays. Tests' code counts as any other."""
import collections
import io
import os
import re
import subprocess
import sys
import tarfile

ROOT = os.path.realpath(os.path.join(os.path.dirname(os.path.abspath(__file__)), ".."))

POINTS = {
    "1a": "enums that say whether there is a value, or whether all is well",
    "1b": "fields of structs that are a flag",
    "1c": "named numbers for a kind, a status or a refusal",
    "1d": "functions and fields that give a refusal as a number",
    "2a": "names of functions that stand in more than one module",
    "2b": "functions whose names differ by a number or by _if alone",
    "3": "loops: `while` and `loop`",
    "4a": "matches in which two arms or more have the same plain result",
    "4b": "struct literals that copy three fields or more of one value",
    "4c": "functions that turn an enum into a number or a number into an enum",
    "5a": "functions that are handed seven log slices or more",
    "5b": "facts that three contracts or more require",
    "6a": "parameters or fields that are the length of a slice or an array beside them",
    "7a": "functions that are handed a flag that says whether to do anything",
}


def sources(commit):
    """Path and text of each source."""
    if commit is None:
        for folder, _, names in sorted(os.walk(f"{ROOT}/crates")):
            parts = os.path.relpath(folder, ROOT).split("/")
            if len(parts) >= 3 and parts[2] == "src":
                for name in sorted(names):
                    if name.endswith(".rt"):
                        path = f"{folder}/{name}"
                        yield os.path.relpath(path, ROOT), open(path, encoding="utf-8").read()
        return
    data = subprocess.run(["git", "-C", ROOT, "archive", commit, "crates"], check=True, capture_output=True).stdout
    with tarfile.open(fileobj=io.BytesIO(data)) as archive:
        for member in sorted(archive.getmembers(), key=lambda m: m.name):
            parts = member.name.split("/")
            if member.isfile() and len(parts) > 3 and parts[2] == "src" and member.name.endswith(".rt"):
                yield member.name, archive.extractfile(member).read().decode()


def bare(text):
    """The text without comments, line for line."""
    return "\n".join(re.sub(r"//.*", "", line) for line in text.split("\n"))


def line_of(text, at):
    return text.count("\n", 0, at) + 1


def functions(text):
    """Name, parameters, result, contract and line of each function."""
    for m in re.finditer(r"^[ \t]*(?:pub(?:\([a-z]+\))? )?(?:extern \"C\" )?fn (\w+)(?:<[^>]*>)?\(", text, re.M):
        depth, i = 1, m.end()
        while depth:
            depth += {"(": 1, ")": -1}.get(text[i], 0)
            i += 1
        parameters = text[m.end():i - 1]
        rest = text[i:]
        end = re.search(r"^[ \t]*\{[ \t]*$|\{\}$|\{$", rest, re.M)
        head = rest[:end.start()] if end else rest
        result = re.match(r"\s*->\s*([^\n{]+)", head)
        yield m.group(1), parameters, (result.group(1).strip() if result else ""), head, line_of(text, m.start())


def structs(text):
    for m in re.finditer(r"^(?:pub )?struct (\w+)[^\n{;]*\{(.*?)^\}", text, re.M | re.S):
        yield m.group(1), m.group(2), m.start(2)


def arms(body):
    """The arms of a match whose arms stand on lines of one indentation: pattern and result."""
    found = []
    lines = body.split("\n")
    depth = 0
    pattern = None
    text = ""
    for line in lines:
        if depth == 0 and "=>" in line:
            if pattern is not None:
                found.append((pattern, " ".join(text.split()).rstrip(",")))
            pattern, text = line.split("=>", 1)
            depth += text.count("{") - text.count("}") + text.count("(") - text.count(")")
            continue
        if pattern is None:
            pattern_part = line
            if "{" in pattern_part or "}" in pattern_part:
                text = ""
        text += "\n" + line
        depth += line.count("{") - line.count("}") + line.count("(") - line.count(")")
    if pattern is not None:
        found.append((pattern, " ".join(text.split()).rstrip(",")))
    return found


def matches(text):
    for m in re.finditer(r"match [^\n{]+\{\n", text):
        depth, i = 1, m.end()
        while depth:
            depth += {"{": 1, "}": -1}.get(text[i], 0)
            i += 1
        yield text[m.end():i - 1], line_of(text, m.start())


def count(commit):
    found = {point: [] for point in POINTS}
    names = collections.defaultdict(list)
    facts = collections.defaultdict(list)
    for path, raw in sources(commit):
        text = bare(raw)

        def add(point, line, what):
            found[point].append((f"{path}:{line}", what))

        for m in re.finditer(r"^(?:pub )?enum (\w+)[^\n{]*\{(.*?)^\}", text, re.M | re.S):
            variants = re.findall(r"^    (\w+)", m.group(2), re.M)
            if {"Nothing", "Fine", "Valid", "NoEffect", "Empty", "End", "None", "Keep"} & set(variants) and m.group(1) not in ():
                add("1a", line_of(text, m.start()), f"enum {m.group(1)} {{ {', '.join(variants)} }}")
        for name, body, at in structs(text):
            for f in re.finditer(r"^\s*(?:pub )?(\w+): bool,", body, re.M):
                add("1b", line_of(text, at + f.start(1)), f"{name}.{f.group(1)}")
            for f in re.finditer(r"^\s*(?:pub )?(answer|reason): u(?:8|64),", body, re.M):
                add("1d", line_of(text, at + f.start(1)), f"{name}.{f.group(1)}")
            for f in re.finditer(r"^\s*(?:pub )?(len|count|kept|taken): (?:usize|u16),", body, re.M):
                add("6a", line_of(text, at + f.start(1)), f"{name}.{f.group(1)}")
        for m in re.finditer(r"^(?:pub )?const (\w+): u(?:8|16|32|64) = ", text, re.M):
            add("1c", line_of(text, m.start()), m.group(1))
        for name, parameters, result, head, line in functions(text):
            names[name].append(f"{path}:{line}")
            slices = len(re.findall(r": &(?:mut )?\[u(?:8|64)\]", parameters))
            if slices >= 7:
                add("5a", line, f"{name}, {slices} slices")
            if result in ("u8", "u16", "u32", "u64") and re.search(r"answer|reason|no_device|_tests|tell", name):
                add("1d", line, f"{name} -> {result}")
            if re.match(r"\s*(on|ends|closes|new): bool", parameters):
                add("7a", line, name)
            if re.search(r"(\d|_if)$", name):
                add("2b", line, name)
            if re.search(r"_word$|_words$", name) or (re.search(r"_of$|^phase$|^style$", name) and re.fullmatch(r"\s*\w+: u(8|64)[^&]*", parameters)
                                                     and re.match(r"[A-Z]", result)):
                add("4c", line, f"{name} -> {result}")
            for p in re.finditer(r"\b(n|m|e|kept|count|marks|rows): usize,\s*\w+: &(?:mut )?(?:\[|Table)", parameters):
                add("6a", line, f"{name}({p.group(1)})")
            for r in re.finditer(r"requires(?: \w+)? \{ (.*?) \}\s*$", head, re.M):
                facts[r.group(1)].append(f"{path}:{line}")
        for m in re.finditer(r"^\s*(?:let \w+ = )?(while|loop)\b[^\n]*", text, re.M):
            add("3", line_of(text, m.start(1)), m.group(0).strip())
        for body, line in matches(text):
            results = collections.Counter(r for _, r in arms(body) if r)
            same = [r for r, k in results.items() if k > 1]
            if same:
                add("4a", line, f"{max(results.values())} arms: {same[0][:60]}")
        for m in re.finditer(r"\b[A-Z]\w+ \{\n(.*?)^\s*\}", text, re.M | re.S):
            copied = collections.Counter(v for f, v, g in re.findall(r"^\s*(\w+): (\w+)\.(\w+),$", m.group(1), re.M) if f == g)
            if copied and copied.most_common(1)[0][1] >= 3:
                add("4b", line_of(text, m.start()), f"{m.group(0).split()[0]}: {copied.most_common(1)[0][1]} fields of {copied.most_common(1)[0][0]}")
    for name, places in sorted(names.items()):
        if len(places) > 1:
            found["2a"].append((places[0], f"{name}: {', '.join(p.split('/')[1] for p in places)}"))
    for fact, places in sorted(facts.items()):
        if len(places) > 2:
            found["5b"].append((places[0], f"{len(places)} contracts: {fact[:100]}"))
    return found


def main(words):
    commit = None
    places = False
    wanted = []
    while words:
        word = words.pop(0)
        if word == "--at":
            commit = words.pop(0)
        elif word == "--places":
            places = True
        elif word in POINTS or word in {p[0] for p in POINTS}:
            wanted.append(word)
        else:
            sys.exit(__doc__)
    for point, found in count(commit).items():
        if wanted and point not in wanted and point[0] not in wanted:
            continue
        print(f"{point}\t{len(found)}\t{POINTS[point]}")
        if places:
            for place, what in found:
                print(f"\t{place}\t{what}")


if __name__ == "__main__":
    main(sys.argv[1:])

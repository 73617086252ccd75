#!/usr/bin/env python3
"""Respells the definitions and lemmas of crates/ as Rattle does now: words in snake case.

usage: tools/respell.py [FOLDER]    a repository's top, else this one's

It ran once, behind the kit's port.py, in the commit that docs/PORT.md names, and stands here so that its work can be checked
against what was before. Functions of src/, exported names, strings, inputs and outputs keep their names.
"""

import collections
import os
import re
import sys

# where two names would fall together: a lemma gives way to the definition that it speaks of
KEPT_APART = {word: word + "_lem" for word in ("filled_in", "left_by", "too_many", "goes_on", "all_known", "by_last")}
TOKEN = re.compile(r"[^\s(){}\[\],;.:«»|\"`]+")
DEFINED = re.compile(
    r"\s*(?:(?:abbrev|unfoldable|pub|data|record)\s+)*([^\s:({\[\],;.=]+)\s*(?:[({].*)?\s:(?:\s|$)"
)
RESERVED = set("data record abbrev pub unfoldable module where open use mod let in elim as axiom unfolding".split())


def without_comment(line):
    found = re.search(r"(^|\s)--(\s|$)", line)
    return line[: found.start()] if found else line


def texts(top, endings):
    for folder, folders, files in os.walk(os.path.join(top, "crates")):
        folders[:] = sorted(f for f in folders if f != "out")
        for name in sorted(files):
            if name.endswith(endings):
                yield os.path.join(folder, name)


def snake(name):
    if re.match(r"[a-z]", name) and re.match(r"^[A-Za-z0-9_'-]+$", name):
        name = re.sub(r"(?<=[a-z0-9])([A-Z])", r"_\1", name).lower()
    return name.replace("-", "_")


def defined(top):
    """The names that specs/ and the lemma files of proofs/ define; a function's own proof is not among them."""
    names = set()
    for path in texts(top, ".antt"):
        inside = os.path.relpath(path, os.path.join(top, "crates")).split(os.sep)
        if inside[1] == "proofs" and len(inside) > 3:
            continue
        with open(path, encoding="utf-8") as text:
            for line in text:
                found = DEFINED.match(without_comment(line).rstrip())
                if found and found.group(1) not in RESERVED:
                    names.add(found.group(1))
    return names


def table(names):
    """Old to new, with names kept apart that would fall together."""
    by_new = collections.defaultdict(set)
    for name in names:
        by_new[KEPT_APART.get(name, snake(name))].add(name)
    new = {}
    for spelled, old in by_new.items():
        for name in old:
            lemma = len(old) > 1 and "-" in name
            if spelled + ("_lem" if lemma else "") != name:
                new[name] = spelled + ("_lem" if lemma else "")
    return new


def imported(text, own):
    """The names that a file takes from elsewhere than this repository."""
    names = set()
    for path, items in re.findall(r"use ([^\s{;]+)\.\{([^}]*)\}", text):
        words = path.split(".")
        if words[0] != "Rattle" or words[1] not in own:
            names.update(item.strip() for item in items.split(","))
    return names


def turned(text, new, skip):
    def one(found):
        word = found.group(0)
        return new[word] if word in new and word not in skip else word

    parts = re.split(r'("(?:[^"\\\n]|\\.)*")', text)
    return "".join(part if part.startswith('"') else TOKEN.sub(one, part) for part in parts)


def main(top):
    own = set(os.listdir(os.path.join(top, "crates")))
    names = defined(top)
    new = table(names)
    for path in texts(top, (".antt", ".rt", ".edit")):
        with open(path, encoding="utf-8") as file:
            old = file.read()
        skip = imported(old, own) | (set() if path.endswith(".antt") else set(KEPT_APART))
        text = turned(old, new, skip)
        if text != old:
            with open(path, "w", encoding="utf-8") as file:
                file.write(text)
    for name in sorted(new):
        print(name, new[name])


if __name__ == "__main__":
    main(sys.argv[1] if len(sys.argv) > 1 else os.path.join(os.path.dirname(os.path.realpath(__file__)), ".."))

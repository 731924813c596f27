#!/usr/bin/env python3
"""Brings the repository's own definitions, lemmas and fields to snake case.

usage: tools/respell.py [--list]      at the top of the repository, after port.py, once

A name that a file of specs/ or proofs/ defines, and that has a dash or an inner capital, is respelled with underscores,
wherever it stands in the .antt, .rt and .edit files of crates/, comments too, but not in quotes. Names of Rust functions, of
types, of constructors and of goals stay, since no such name is defined there in lower case with a dash or an inner capital. With --list nothing is written: the names are printed,
and those that would fall together with another word.
"""

import os
import re
import sys

SIGNATURE = re.compile(r"^\s*(?:(?:pub|abbrev|unfoldable|abstract|private)\s+)*([a-z][^\s(){}\[\];,.:=]*)\s+:\s+(\S.*)$")
OTHER = re.compile(r"^\s*(?:let|in|use|module|where|open|unfolding|returns|ensures|requires)\b")
WORD = re.compile(r"[^\s(){}\[\];,.:=\"`|@#&?!«»]+")
QUOTED = re.compile(r'"(?:[^"\\\n]|\\.)*"')
LIBRARIES = ("Rattle.std", "native.", "mathlib.", "borrow.", "lib.", "Prim.", "denote.", "seplogic.")


def files(top):
    for folder, dirs, names in os.walk(os.path.join(top, "crates")):
        dirs[:] = sorted(d for d in dirs if d != "out")
        for name in sorted(names):
            if name.endswith((".antt", ".rt", ".edit")):
                yield os.path.join(folder, name)


def snake(name):
    parted = re.sub(r"(?<=[a-z0-9])([A-Z])", lambda m: "_" + m.group(1).lower(), name)
    return parted.replace("-", "_")


def defined(path, text):
    """The names that a file gives a signature, but for answers to goals."""
    if not path.endswith(".antt"):
        return
    for line in text.split("\n"):
        if OTHER.match(line):
            continue
        found = SIGNATURE.match(line)
        if found and not found.group(2).startswith("goal."):
            yield found.group(1)


def imported(text):
    """The words that a file takes from a library."""
    for path, words in re.findall(r"use\s+([A-Za-z_.+'◌-]+)\.\{([^}]*)\}", text):
        if path.startswith(LIBRARIES):
            for word in words.split(","):
                yield word.split(" as ")[-1].strip()


def words(text):
    return set(WORD.findall(text))


def turned(text, table):
    out, at = [], 0
    for quoted in QUOTED.finditer(text):
        out.append(WORD.sub(lambda m: table.get(m.group(0), m.group(0)), text[at : quoted.start()]))
        out.append(quoted.group(0))
        at = quoted.end()
    out.append(WORD.sub(lambda m: table.get(m.group(0), m.group(0)), text[at:]))
    return "".join(out)


def main():
    top = os.getcwd()
    texts = {path: open(path, encoding="utf-8").read() for path in files(top)}
    table = {}
    for path, text in texts.items():
        for name in defined(path, text):
            if snake(name) != name:
                table[name] = snake(name)
    for path, text in sorted(texts.items()):
        there, taken = words(text), set(imported(text))
        for name in sorted(table):
            if name in taken:
                print(f"{path}: {name} is a library's here")
            if name in there and table[name] in there:
                print(f"{path}: {name} and {table[name]} fall together")
    if "--list" in sys.argv:
        for name in sorted(table):
            print(f"{name} {table[name]}")
        return
    for path, text in texts.items():
        new = turned(text, table)
        if new != text:
            with open(path, "w", encoding="utf-8") as f:
                f.write(new)
    print(f"{len(table)} names respelled")


main()

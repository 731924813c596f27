#!/usr/bin/env python3
"""Lists places in src/ that are written in a form which a newer one may replace, point by point, for docs/DESIGN-PASS.md.

usage: tools/places.py [--list] [COMMIT]      at the top of the repository

Counts the sources of COMMIT, or those that lie here. With --list each place is printed. A count is of candidates: the page
says of each what became of it. Code in comments does not count.
"""

import difflib
import os
import re
import subprocess
import sys

# name of a kind of place, and its pattern over a whole file
POINTS = {
    "1 own enums": r"^ *(?:pub(?:\(crate\))? )?enum (\w+)",
    "1 errors and Nones that a match only hands on": r"\bErr\((\w+)\) => (?:return )?Err\(\1\)|\bif let Err\((\w+)\) = [^{;]*\{\s*return Err\(\2\)|\bNone => (?:return )?(?:None\b|Err\()|let Some\(\w+\) = [^;{]* else \{\s*return Err\(|\bif let Some\(\w+\) = [^{;]*\{\s*return Err\(|Some\(\w+\) => Err\(|Ok\((\w+)\) => Ok\(\w+\(\3\)\)",
    "1 answers that are a bool": r"^ *(?:pub(?:\(crate\))? )?fn \w+(?:<[^>]*>)?\([^{;]*?\) -> bool",
    "1 numbers for a kind": r"\bkind: u8|\bkind: \*?kind\b|fn kind\(\) -> u8|\bkind == \d|\b[12]u8\b|kind @ \(1 \| 2\)",
    "1 numbers for a degree, in what is answered or handed on": r"fn \w+(?:<[^>]*>)?\([^{;]*?\bdegree: u8[^{;]*?\)|pub degree: u8",
    "2 functions that do the same for another type, size or constant": None,
    "3 loops over a range": r"^ *for [\w(), ]+ in [^{\n]*\.\.[^{\n]*\{",
    "3 loops with while or loop": r"^ *(?:while|loop)\b",
    "4 casts": r"\bas (?:u8|u16|u32|u64|usize|i8|i16|i32|i64|isize)\b",
    "4 equality by hand": r"fn same\b|fn eq\b",
    "4 printing by hand": r"^ *let (\w+) = \w+\.\1;",
    "5 facts in the contracts of three or more functions": None,
    "5 parameters that travel together": None,
    "6 arrays": r"\[[\w:.]+; \d+\]",
    "6 heap": r"\bVec\b|\bString\b|\bBox\b",
    "7 function tables, dyn, function pointers": r"\bdyn\b|\bfn\([^)]*\) ->|&\[fn",
}


def sources(commit):
    if commit:
        names = subprocess.run(["git", "ls-tree", "-r", "--name-only", commit, "crates"], capture_output=True, text=True, check=True)
        for name in names.stdout.split("\n"):
            if re.fullmatch(r"crates/\w+/src/.*\.rt", name):
                text = subprocess.run(["git", "show", commit + ":" + name], capture_output=True, text=True, check=True).stdout
                yield name, text
        return
    for folder, dirs, names in os.walk("crates"):
        dirs[:] = sorted(d for d in dirs if d != "out")
        for name in sorted(names):
            path = os.path.join(folder, name)
            if re.fullmatch(r"crates/\w+/src/.*\.rt", path):
                yield path, open(path, encoding="utf-8").read()


def without_comments(text):
    return re.sub(r"//[^\n]*", "", text)


def functions(text):
    """Each function's name, parameters, clauses and body."""
    for m in re.finditer(r"^( *)(?:pub(?:\(crate\))? )?(?:const )?fn (\w+)(<[^>{]*>)?\(", text, re.M):
        at = m.end()
        depth = 1
        while depth and at < len(text):
            depth += {"(": 1, ")": -1}.get(text[at], 0)
            at += 1
        params = text[m.end() : at - 1]
        start = re.compile(r"\n" + m.group(1) + r"\{(?:\}|\n)| \{\n|;\n").search(text, at)
        if not start:
            continue
        head = text[at : start.start()]
        code = ""
        if start.group(0).endswith("{\n"):
            code = text[start.end() : text.find("\n" + m.group(1) + "}\n", start.end() - 1)]
        yield m.group(2), params, head, code, text.count("\n", 0, m.start()) + 1


def shape(code):
    """The words of the code, its numbers, texts and the names of kinds left out."""
    code = re.sub(r'"[^"\n]*"', '""', code)
    code = re.sub(r"\b(?:Complex|Phase|complex|phase|Refusal|Denial)\b", "T", code)
    code = re.sub(r"\bat\d\b|\b(?:re|im)\b", "part", code)
    code = re.sub(r"\b\d[\w]*\b", "0", code)
    return re.findall(r"\w+|[^\w\s]", code)


def twins(all_sources):
    """Pairs of functions of which 85 words in a hundred stand in the same order, and that have a dozen words at least."""
    all_functions = [
        (f"{path}:{line} {name}", shape(code)) for path, text in all_sources for name, _, _, code, line in functions(text)
    ]
    pairs = []
    for i, (a, left) in enumerate(all_functions):
        for b, right in all_functions[i + 1 :]:
            few, many = sorted((len(left), len(right)))
            if few >= 12 and few * 10 >= many * 8:
                matcher = difflib.SequenceMatcher(None, left, right, autojunk=False)
                if matcher.quick_ratio() >= 0.85 and matcher.ratio() >= 0.85:
                    pairs.append(f"{a}, {b}")
    return pairs


def facts(all_sources):
    seen = {}
    for path, text in all_sources:
        for name, _, head, _, line in functions(text):
            for clause in re.findall(r"(?:requires|ensures)(?: \w+)? \{ (.*) \}\s*$", head, re.M):
                clause = re.sub(r"\b(\w+)\.(?:now|old|new)\b", r"\1", clause)
                crate = path.split("/")[1]
                seen.setdefault((crate, clause), []).append(f"{name}")
    return [f"{crate}: {clause} in {', '.join(sorted(set(names)))}" for (crate, clause), names in seen.items() if len(set(names)) > 2]


def companions(all_sources):
    seen = {}
    for path, text in all_sources:
        for name, params, _, _, line in functions(text):
            crate = path.split("/")[1]
            words = re.findall(r"(\w+): (&(?:mut )?)?([A-Z]\w*|\[[^\]]*\]|[a-z]\w*)", params)
            names = sorted(w for w, _, t in words if t not in ("HostRuntime",))
            for i, a in enumerate(names):
                for b in names[i + 1 :]:
                    seen.setdefault((crate, a, b), []).append(name)
    return [f"{c}: {a} and {b} in {', '.join(n)}" for (c, a, b), n in seen.items() if len(n) > 2]


def main():
    args = [a for a in sys.argv[1:] if a != "--list"]
    commit = args[0] if args else None
    texts = [(path, without_comments(text)) for path, text in sources(commit)]
    for point, pattern in POINTS.items():
        if pattern:
            found = []
            for path, text in texts:
                for m in re.finditer(pattern, text, re.M):
                    line = text.count("\n", 0, m.start()) + 1
                    found.append(f"{path}:{line} {' '.join(m.group(0).split())[:90]}")
        elif point.startswith("2"):
            found = twins(texts)
        elif "facts" in point:
            found = facts(texts)
        else:
            found = companions(texts)
        print(f"{len(found):4} {point}")
        if "--list" in sys.argv:
            for place in found:
                print("       " + place)


if __name__ == "__main__":
    main()

#!/usr/bin/env python3
"""Turns the repository's own names of definitions, lemmas, record fields and constructors to snake case.

usage: python3 tools/respell.py        once, at the top, right after the kit's port.py

A name is the repository's own where an .antt file of crates/*/specs or crates/*/proofs declares it.
Names of the libraries, and the names that the check makes for goals (loop-i, returns-in-Some), keep their dashes.
Comments and strings stay, but for names in backticks. What falls together with another name is printed.
"""
import collections
import os
import re

KEBAB = r"[A-Za-z_][A-Za-z0-9_']*(?:-[A-Za-z0-9_']+)+"
NAME = r"[A-Za-z_][A-Za-z0-9_'-]*"
DECLARES = re.compile(r"\s*(?:(?:abbrev|unfoldable|pub|record|data)\s+)*((?:" + NAME + r"\s+)+):\s(?!goal\.)")
USE = re.compile(r"\s*(?:pub |ghost )*use ([\w.]+)\.\{([^}]*)\}")


CAMEL = {"sumZ": "sum_z", "totalZ": "total_z"}


def files(ending):
    for folder, folders, names in os.walk("crates"):
        folders[:] = sorted(f for f in folders if f not in ("out", "data"))
        for name in sorted(names):
            if name.endswith(ending):
                yield os.path.join(folder, name)


def text_of(path):
    with open(path, encoding="utf-8") as f:
        return f.read()


def declared():
    own = collections.defaultdict(set)
    for path in files(".antt"):
        for line in text_of(path).split("\n"):
            m = DECLARES.match(line)
            for name in m.group(1).split() if m else []:
                if re.fullmatch(KEBAB, name):
                    own[name].add(path)
    return own


def foreign(text, crates):
    """The names that a file takes from a library."""
    found = set()
    for m in USE.finditer(text):
        parts = m.group(1).split(".")
        if parts[0] != "Rattle" or parts[1] not in crates:
            for item in m.group(2).split(","):
                found.update(item.split())
    return found


def turned(code, own):
    code = re.sub(KEBAB, lambda m: m.group(0).replace("-", "_") if m.group(0) in own else m.group(0), code)
    return re.sub(r"\b(?:" + "|".join(CAMEL) + r")\b", lambda m: CAMEL[m.group(0)], code)


def turned_line(line, own, comment):
    """A line of source: strings and the comment stay, but for names in backticks."""
    parts = re.split(r'("(?:[^"\\]|\\.)*")', line)
    out, said = [], False
    for part in parts:
        if said or part.startswith('"'):
            out.append(part)
            continue
        head, mark, tail = part.partition(comment)
        out.append(turned(head, own) + mark + re.sub(r"`[^`]*`", lambda m: turned(m.group(0), own), tail))
        said = bool(mark)
    return "".join(out)


def main():
    own = declared()
    crates = set(os.listdir("crates"))
    words = collections.defaultdict(set)
    for path in list(files(".antt")) + list(files(".rt")):
        for m in re.finditer(NAME, text_of(path)):
            words[m.group(0)].add(path)
    for name in sorted(own):
        if name.replace("-", "_") in words:
            print(f"falls together: {name} of {sorted(own[name])[0]} with {sorted(words[name.replace('-', '_')])[0]}")
    for ending, comment in ((".antt", "-- "), (".rt", "// "), (".edit", "// ")):
        for path in files(ending):
            text = text_of(path)
            taken = foreign(text, crates)
            for name in sorted(taken & set(own)):
                print(f"a library's: {name} in {path}")
            mine = set(own) - taken
            new = "\n".join(turned_line(line, mine, comment) for line in text.split("\n"))
            if new != text:
                with open(path, "w", encoding="utf-8") as f:
                    f.write(new)


main()

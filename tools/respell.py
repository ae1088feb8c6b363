#!/usr/bin/env python3
"""Turns the names of this repository's definitions, laws, fields and variables into snake case, after port.py: the second half of the respelling.

usage: tools/respell.py [--show]      at the top of the repository: rewrites .antt, .rt and .edit files in place, or shows the names alone

Types, modules and constructors keep their capitals. Names of the libraries, and those that Rattle makes from the code, stay as they are. Where a
law's name falls together with that of the definition that it is about, the law's gets the ending _lem.
"""

import collections
import glob
import re
import sys

WORD = re.compile(r"[^\s(){}\[\].,;:\"`«»]+")
SPELLED = re.compile(r"^(?:[a-z][a-z0-9_']*[A-Z]|[A-Za-z0-9_']+-)[\w'-]*$")
USE = re.compile(r"^(?:ghost )?use ([\w.+'·-]+)\.\{(.*)\}")


def snake(name):
    """The name in snake case; a capital that stands alone is a station's name and stays."""
    name = name.replace("getD", "get_or").replace("setD", "set")
    name = re.sub(r"([a-z0-9'])([A-Z])", lambda m: m.group(1) + "_" + m.group(2).lower(), name.replace("-", "_"))
    return re.sub(r"_([A-Z])(?=[a-z])", lambda m: "_" + m.group(1).lower(), name)


def crates():
    with open("crates.txt", encoding="utf-8") as f:
        return {line.split(":")[0].split()[0] for line in f if re.match("[a-z_0-9]+[^:]*:", line)}


def is_own(path, own):
    parts = path.split(".")
    return parts[0] == "Rattle" and len(parts) > 1 and parts[1] in own


def read(path):
    with open(path, encoding="utf-8") as f:
        return f.read()


def foreign(text, own):
    """The names that a file takes from elsewhere than this repository."""
    found = set()
    for line in text.split("\n"):
        m = USE.match(line)
        if m and not is_own(m.group(1), own):
            found.update(WORD.findall(m.group(2)))
    return found


def turned(text, names):
    """The text with each of the names turned; a name with dashes in a comment only where it stands in backticks, since else it is prose."""

    def word(m):
        return names.get(m.group(0), m.group(0))

    def plain(m):
        return word(m) if re.match("[a-z]+[A-Z]", m.group(0)) else m.group(0)

    out = []
    for line in text.split("\n"):
        if line.lstrip().startswith(("-- ", "// ", "# ")):
            line = re.sub(r"`[^`]*`", lambda m: WORD.sub(word, m.group(0)), line)
            line = WORD.sub(plain, line)
        else:
            line = WORD.sub(word, line)
        out.append(line)
    return "\n".join(out)


def main():
    own = crates()
    specs = sorted(glob.glob("crates/*/specs/**/*.antt", recursive=True))
    others = sorted(glob.glob("crates/*/proofs/**/*.antt", recursive=True) + glob.glob("crates/*/src/**/*.rt", recursive=True))
    edits = sorted(glob.glob("crates/*/must-fail/*.edit"))
    spelled, laws = set(), set()
    for p in specs:
        text = read(p)
        theirs = foreign(text, own)
        here = collections.defaultdict(set)
        for line in text.split("\n"):
            if line.lstrip().startswith("--"):
                continue
            for w in WORD.findall(line):
                if SPELLED.match(w) and w not in theirs:
                    spelled.add(w)
                    here[snake(w)].add(w)
                else:
                    here[w].add(w)
        laws.update(w for old in here.values() if len(old) > 1 for w in old if "-" in w and w in spelled)
    # a field of validity, and no law, though a definition above has its name
    laws.discard("root-controller")
    every = {w: snake(w) + ("_lem" if w in laws else "") for w in spelled}
    if "--show" in sys.argv:
        for w in sorted(every):
            print(w, every[w])
        return 0
    for p in specs + others + edits:
        text = read(p)
        names = {w: new for w, new in every.items() if w not in foreign(text, own)}
        if p not in specs:
            names = outside(text, names, own, p)
        new = turned(text, names)
        if new != text:
            with open(p, "w", encoding="utf-8") as f:
                f.write(new)
    return 0


def outside(text, names, own, path):
    """Those of the names that a file outside specs/ can mean: an edit any, another what it imports or reads as a field."""
    if path.endswith(".edit"):
        return names
    taken = set()
    for line in text.split("\n"):
        m = USE.match(line.rstrip(";"))
        if m and is_own(m.group(1), own) and ".proofs." not in m.group(1):
            taken.update(WORD.findall(m.group(2)))
    fields = set(re.findall(r"\.([A-Za-z][\w'-]*)", text))
    return {w: new for w, new in names.items() if w in taken or w in fields}


if __name__ == "__main__":
    raise SystemExit(main())

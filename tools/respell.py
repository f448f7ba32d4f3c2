#!/usr/bin/env python3
"""Respells this repository's own names as today's Rattle spells names: a definition in snake case, a type in camel case.

usage: python3 tools/respell.py        at the top, once, right after the toolchain's port.py

Words of specs/ and proofs/ that began with a small letter and were joined by capitals, as modulusCause, are joined by low lines, as modulus_cause; so are
the parts of a law's name, as in length-big_endian. A field of a record of specs/ that was joined by dashes, as last-place, is joined by low lines, and so is a law
that had that name. Other laws keep their dashes. Names of src/, exported names, strings, inputs and outputs have no such words and stay. Two laws had the name
that a definition now takes, and keep the dash that they were written with: fed-by and taken-at.
"""

import os
import re
import sys

# Laws that port.py wrote with a low line, and that would fall together with the definitions fedBy and takenAt.
LAWS = {"fed_by": "fed-by", "taken_at": "taken-at"}
TOKEN = re.compile(r"[\w'-]+")
JOINED = re.compile(r"(?<=[a-z0-9])([A-Z])")
RECORD = re.compile(r"(?m)^(?:pub )?record \S+.*?where\n((?:  .*\n|\n)*)")
FIELD = re.compile(r"(?m)^  (?:pub )?([^\s:]+) *:")
STRING = re.compile(r'b?"(?:[^"\\]|\\.)*"')


def snake(part):
    """A word joined by capitals, joined by low lines; any other word as it is."""
    if not re.match(r"[a-z]", part) or not JOINED.search(part):
        return part
    return JOINED.sub(lambda m: "_" + m.group(1).lower(), part)


FIELDS = set()


def respelled(token):
    if token in FIELDS:
        token = token.replace("-", "_")
    return LAWS.get(token) or "-".join(snake(part) for part in token.split("-"))


def turned(text, known=None):
    def turn(m):
        token = m.group(0)
        return respelled(token) if known is None or token in known else token

    return TOKEN.sub(turn, text)


def turned_source(text):
    """A file of src/: strings stay."""
    pieces, at = [], 0
    for m in STRING.finditer(text):
        pieces += [turned(text[at : m.start()]), m.group(0)]
        at = m.end()
    return "".join(pieces) + turned(text[at:])


def files(top, endings):
    for folder, dirs, names in os.walk(top):
        dirs[:] = sorted(d for d in dirs if d not in ("out", "target", ".git", "__pycache__"))
        for name in sorted(names):
            if name.endswith(endings):
                yield os.path.join(folder, name)


def main():
    if not os.path.isdir("crates"):
        print("respell: run it at the top of the repository", file=sys.stderr)
        return 2
    for path in files("crates", (".antt",)):
        if "/specs/" in path:
            with open(path, encoding="utf-8") as f:
                for m in RECORD.finditer(f.read()):
                    FIELDS.update(name for name in FIELD.findall(m.group(1)) if "-" in name)
    known = set(LAWS)
    for path in files("crates", (".antt",)):
        with open(path, encoding="utf-8") as f:
            known |= {t for t in TOKEN.findall(f.read()) if respelled(t) != t}
    changed = 0
    for path in list(files("crates", (".antt", ".rt", ".edit"))) + list(files(".", (".md",))):
        with open(path, encoding="utf-8") as f:
            old = f.read()
        if path.endswith((".md", ".edit")):
            new = turned(old, known)
        elif path.endswith(".rt"):
            new = turned_source(old)
        else:
            new = turned(old)
        if new != old:
            with open(path, "w", encoding="utf-8") as f:
                f.write(new)
            changed += 1
    print(f"respell: {len(known)} words, {changed} files")
    return 0


if __name__ == "__main__":
    sys.exit(main())

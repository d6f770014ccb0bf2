#!/usr/bin/env python3
"""Spells the repository's own definitions and lemmas as today's Rattle spells names.

usage: python3 tools/respell.py         at the top, once, right after the kit's port.py
       python3 tools/respell.py --list  prints the old names with the new ones, and changes nothing

A name of ours is one that a file of specs/ or proofs/ defines with a dash in it. `Is-month` becomes `IsMonth`, since
facts are in camel case, and `month-of` becomes `month_of`, since words are in snake case. What the kit names keeps its
spelling: its lemmas, and the goals that a check prints.
"""

import os
import re
import sys

# What a file of specs/ or proofs/ defines: the name before its type, at any depth of a module or a record.
DEFINED = re.compile(
    r"^\s*(?:(?:abbrev|unfoldable|pub) )*(?:record |data )?([A-Za-z][\w']*(?:-[\w']+)+)(?: [({].*)? : (?!goal\.)"
)
# A name as it stands in text: not a part of a longer one, of a path or of a generated name.
NAME = re.compile(r"(?<![\w'·-])[A-Za-z][\w']*(?:-[\w']+)+(?![\w'-])")
# The kit has the same name for a lemma of its own.
KIT = re.compile(r"use Rattle\.(?:std|core)\S*\.\{([^}]*)\}")


def texts():
    for folder, dirs, files in os.walk("crates"):
        dirs[:] = sorted(d for d in dirs if d != "out")
        for name in sorted(files):
            if name.endswith((".rt", ".antt")):
                yield os.path.join(folder, name)


def spelled(name):
    if name[0].isupper():
        return "".join(word[0].upper() + word[1:] for word in name.split("-"))
    return name.replace("-", "_")


def read(path):
    with open(path, encoding="utf-8") as f:
        return f.read()


def ours():
    found = set()
    for path in texts():
        if path.endswith(".antt"):
            for line in read(path).splitlines():
                m = DEFINED.match(line)
                if m:
                    found.add(m.group(1))
    return found


def main():
    names = {name: spelled(name) for name in ours()}
    if "--list" in sys.argv[1:]:
        for old in sorted(names):
            print(f"{old}  {names[old]}")
        return
    for path in texts():
        text = read(path)
        kits = {n.strip() for m in KIT.finditer(text) for n in m.group(1).split(",")}
        new = NAME.sub(lambda m: m.group(0) if m.group(0) in kits else names.get(m.group(0), m.group(0)), text)
        if new != text:
            with open(path, "w", encoding="utf-8") as f:
                f.write(new)


main()

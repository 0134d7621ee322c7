#!/usr/bin/env python3
"""Respells the repository's own definitions and lemmas from camel case to snake case, once, after the kit's port.py.

usage: python3 tools/respell.py        at the top of the repository

Names of definitions, lemmas, fields and constructors that begin in lower case and have a capital inside get underscores,
in the .antt files and in the clauses of the .rt files. Text in double quotes stays. Code has no such names.
"""

import os
import re

# Words of the older library's that were copied into names of lemmas.
SPECIAL = {"getD-same": "get_or-same", "getD-zeros": "get_or-zeros", "frameOf5": "frame_of_5", "frameOf6": "frame_of_6"}
# Modules of src/ are called by_time and by_count.
SPECIAL |= {"byTime": "time_rules", "byCount": "count_rules"}
# Lemmas whose names would fall together with those of the definitions that they speak of.
APART = {
    "crates/book/proofs/Notes.antt": {"is_free": "free-is"},
    "crates/schedule/proofs/Rings.antt": {"in_reach": "reach-from"},
}
NAME = re.compile(r"\"[^\"\n]*\"|(?<![\w'])[a-z][a-z0-9]*(?:[A-Z][a-z0-9]*)+(?:[-_][\w'*]+)*(?![\w'])")


def snake(name):
    if name.startswith('"'):
        return name
    if name in SPECIAL:
        return SPECIAL[name]
    head, dash, tail = name.partition("-")
    return re.sub(r"(?<=[a-z0-9])([A-Z])", lambda m: "_" + m.group(1).lower(), head) + dash + tail


def main():
    for folder, dirs, files in os.walk("crates"):
        dirs[:] = sorted(d for d in dirs if d != "out")
        for f in sorted(files):
            if not f.endswith((".antt", ".rt")):
                continue
            path = os.path.join(folder, f)
            with open(path, encoding="utf-8") as it:
                text = it.read()
            new = text
            for old, apart in APART.get(path, {}).items():
                new = re.sub(r"(?<![\w'-])" + old + r"(?![\w'-])", apart, new)
            new = NAME.sub(lambda m: snake(m.group(0)), new)
            if new != text:
                with open(path, "w", encoding="utf-8") as it:
                    it.write(new)


if __name__ == "__main__":
    main()

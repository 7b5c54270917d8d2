#!/usr/bin/env python3
"""Brings this repository's own definitions and lemmas to the spelling of its Rattle.

usage: tools/respell.py       at the top of the repository, once, after /opt/rattle/port/port.py

tools/respell-names.txt has a line for each name: the old one and the new one.
Words are in snake case. A dash joins two names, as in `length-bits`; a plain
word is added with an underscore, as in `bits_push`. A lemma that would have its
function's name ends with `_lem`. Names of src/ and of facts and types stay.
"""

import glob
import os
import re

TOKEN = re.compile(r"[^\s(){}\[\].,;:]+")


def main():
    with open(os.path.join(os.path.dirname(os.path.realpath(__file__)), "respell-names.txt"), encoding="utf-8") as f:
        new = dict(line.split() for line in f)
    for kind in ("antt", "rt"):
        for path in glob.glob(f"crates/**/*.{kind}", recursive=True):
            with open(path, encoding="utf-8") as f:
                text = f.read()
            turned = TOKEN.sub(lambda m: new.get(m.group(0), m.group(0)), text)
            if turned != text:
                with open(path, "w", encoding="utf-8") as f:
                    f.write(turned)


if __name__ == "__main__":
    main()

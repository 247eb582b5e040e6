#!/usr/bin/env python3
"""Brings the spelling of this repository's own definitions and lemmas to snake case: noCode becomes no_code, zeroEntry-is becomes zero_entry-is.

usage: python3 tools/snake_case.py          once, at the top of the repository, after the toolchain's own script
       python3 tools/snake_case.py --list   what it would write, and which of the new names stand there already

Types, facts and modules begin with a capital and keep their names, and so does each name of the source: it is in snake case already.
Strings keep their text. In the sources, the wrong programs and the pages the same names are turned.
"""

import os
import re
import sys

ROOTS = ["crates", "docs", "README.md"]
KINDS = (".rt", ".antt", ".edit", ".md")
STRING = re.compile(r'"(?:[^"\\\n]|\\.)*"')
NAME = re.compile(r"(?<![A-Za-z0-9_'])[a-z][a-z0-9_]*[A-Z][A-Za-z0-9_']*")


def snake(name):
    return re.sub(r"(?<=[a-z0-9'])([A-Z])", lambda m: "_" + m.group(1).lower(), name)


def files():
    for root in ROOTS:
        if os.path.isfile(root):
            yield root
        for folder, dirs, names in os.walk(root):
            dirs[:] = sorted(d for d in dirs if d != "out")
            for name in sorted(names):
                if name.endswith(KINDS) and name not in KEPT:
                    yield os.path.join(folder, name)


# The page on this very port names both spellings.
KEPT = {"PORT.md"}

# Lemmas whose names would fall together with the definitions that they speak of.
LEMMAS = ["in_use", "line_kept", "no_line", "no_register", "one_more", "one_value", "own_below", "same_bytes", "same_code"]

# Names of the older library that stand in wrong programs and pages alone, where the toolchain's script does not look.
LIBRARY = {"getD": "get_or", "decLt": "dec_lt"}
LEMMA = re.compile(r"(?<![A-Za-z0-9_'-])(" + "|".join(LEMMAS) + r")(?![A-Za-z0-9_'-])")


def turned(text, used):
    def one(m):
        used.add(m.group(0))
        return LIBRARY.get(m.group(0)) or snake(m.group(0))

    parts, at = [], 0
    for s in STRING.finditer(text):
        parts += [NAME.sub(one, text[at : s.start()]), s.group(0)]
        at = s.end()
    return "".join(parts) + NAME.sub(one, text[at:])


def main():
    used, words = set(), set()
    texts = {}
    for path in files():
        with open(path, encoding="utf-8") as f:
            old = f.read()
        words |= set(re.findall(r"[A-Za-z][A-Za-z0-9_']*", old))
        lemmas = LEMMA.sub(r"\1_lem", old) if path.endswith(".antt") and "/proofs/" in path else old
        texts[path] = (old, turned(lemmas, used))
    if "--list" in sys.argv:
        for name in sorted(used):
            print(name, snake(name), "STANDS" if snake(name) in words else "")
        return
    for path, (old, new) in texts.items():
        if new != old:
            with open(path, "w", encoding="utf-8") as f:
                f.write(new)


main()

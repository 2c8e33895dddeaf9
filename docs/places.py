#!/usr/bin/env python3
"""Looks whether names stand in the files where documents say so.

    python3 docs/places.py    prints a line for each name that doesn't

A document says so by `Name` of `file.rt`, by `Name` in `file.rt`, by `Name` (`file.rt`), and by `file.rt`: `Name`; several names have commas
or "and" between them. A file may be named by the end of its path. Then it is enough that one file with that end has the name.
"""

import glob
import os
import re

TOP = os.path.dirname(os.path.dirname(os.path.abspath(__file__)))
FILE = r"`([A-Za-z0-9_/.]+\.(?:rt|antt|rs|h|hpp|py|c|js))`"
NAMES = r"(`[A-Za-z_]+`(?:(?:, and |, | and )`[A-Za-z_]+`)*)"
FORMS = [re.compile(form) for form in (rf"{NAMES} (?:of|in) {FILE}", rf"{NAMES} \({FILE}\)")]
TURNED = re.compile(rf"{FILE}: {NAMES}")


def files():
    """Each file's path from the top, but what a build leaves."""
    for folder, below, names in os.walk(TOP):
        below[:] = [name for name in below if name not in (".git", "out", "target")]
        yield from (os.path.relpath(os.path.join(folder, name), TOP) for name in names)


def main():
    there = ["/" + path for path in files()]
    texts = {}

    def has(path, name):
        if path not in texts:
            with open(TOP + path, encoding="utf-8") as file:
                texts[path] = set(re.findall(r"\w+", file.read()))
        return name in texts[path]

    for page in sorted(glob.glob(f"{TOP}/*.md") + glob.glob(f"{TOP}/*/*.md") + glob.glob(f"{TOP}/crates/*/*.md")):
        with open(page, encoding="utf-8") as file:
            text = re.sub(r"\n(?! *\n)[ ]*", " ", file.read())
        said = [(names, path) for form in FORMS for names, path in form.findall(text)] + [(names, path) for path, names in TURNED.findall(text)]
        for names, path in said:
            places = [it for it in there if it.endswith("/" + path)]
            for name in re.findall(r"`(\w+)`", names):
                if not any(has(it, name) for it in places):
                    print(f"{os.path.relpath(page, TOP)}: {path} has no {name}")


if __name__ == "__main__":
    main()

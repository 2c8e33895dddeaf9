#!/usr/bin/env python3
"""Looks whether figures that documents quote are those of bench/figures.tsv.

    python3 docs/figures.py check    prints a line for each figure that is another one by now
    python3 docs/figures.py write    puts today's figure in its place; bench/beside.sh --write calls it

A quoted figure is a number, perhaps with its unit, and a comment that names its row and its side: 41 ns<!-- A find; 40,000; 4; map 32 -->.
"""

import os
import re
import sys

TOP = os.path.dirname(os.path.dirname(os.path.abspath(__file__)))
PAGES = ["README.md", "docs/CHOOSING.md", "bench/README.md"]
QUOTE = re.compile(r"([0-9][0-9,.]*)( ns)?<!-- ([^;>]+); ([^;>]+); ([0-9]+); ([^;>]+) -->")


def medians():
    """The median of each row and side, as it is written: with a decimal below 10."""
    found = {}
    with open(f"{TOP}/bench/figures.tsv", encoding="utf-8") as rows:
        next(rows)
        for row in rows:
            workload, entries, threads, side, median = row.rstrip("\n").split("\t")[:5]
            value = float(median)
            found[workload, entries, threads, side] = f"{value:.1f}" if value < 10 else f"{value:,.0f}"
    return found


def main(verb):
    known = medians()
    for page in PAGES:
        with open(f"{TOP}/{page}", encoding="utf-8") as it:
            text = it.read()
        if verb == "write":
            today = QUOTE.sub(lambda m: m[0].replace(m[1], known.get(m.groups()[2:], m[1]), 1), text)
            if today != text:
                with open(f"{TOP}/{page}", "w", encoding="utf-8") as it:
                    it.write(today)
            continue
        for quoted in QUOTE.finditer(text):
            figure = known.get(quoted.groups()[2:])
            if quoted[1] != figure:
                line = text.count("\n", 0, quoted.start()) + 1
                print(f"{page}:{line}: {quoted[1]} is {figure or 'no figure'} in bench/figures.tsv: {'; '.join(quoted.groups()[2:])}")


if __name__ == "__main__":
    if sys.argv[1:] not in (["check"], ["write"]):
        sys.exit(__doc__)
    main(sys.argv[1])

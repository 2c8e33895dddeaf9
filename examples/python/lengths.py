"""Counts the words of a file by their length. Four threads share a map, each with a session of its own. Run: lengths.py FILE"""

from __future__ import annotations

import pathlib
import sys
import threading

sys.path.insert(0, str(pathlib.Path(__file__).resolve().parent.parent.parent / "python"))
import blink  # noqa: E402


def add(counts: blink.Session, key: int) -> None:
    """Adds 1 to what the key maps to. Where another thread was faster, the answer tells its number, and it begins anew."""
    there = counts.get(key)
    while True:
        answer = counts.insert(key, 1) if there is None else counts.compare_exchange(key, there, there + 1)
        if answer.changed:
            return
        there = answer.pointer


def count(shared: blink.Map, words: list[str]) -> None:
    with shared.join() as counts:
        for word in words:
            add(counts, len(word))


def main() -> None:
    words = pathlib.Path(sys.argv[1]).read_text().split()
    shared = blink.Map()
    threads = [threading.Thread(target=count, args=(shared, words[place::4])) for place in range(4)]
    for thread in threads:
        thread.start()
    for thread in threads:
        thread.join()
    counts = shared.close()
    for length, number in counts[1:6]:
        print(f"{number} of {length}")
    longest = counts.last()
    print(f"{sum(counts.values())} words, the longest of {longest[0] if longest else 0}")


main()

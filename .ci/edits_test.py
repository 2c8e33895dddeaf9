#!/usr/bin/env python3
"""Tries edits.py over a small crate: which edits count as refused, and which have to fail. It says nothing if all is well."""
import os
import subprocess
import sys
import tempfile

SOURCE = """//! Functions for edits.
#![tactic(auto)]

ghost use Rattle.std.specs.Prelude.{◌≡◌, ◌≤◌};

/// The greater of two numbers.
pub fn greater(one: u64, other: u64) -> u64
    ensures one { one ≤ result }
    ensures other { other ≤ result }
{
    if one < other { other } else { one }
}

/// The number itself.
pub fn same(number: u64) -> u64
    ensures { result ≡ number }
{
    number
}

/// The number, or 10 if it is greater.
pub fn capped(number: u64) -> u64
    ensures few { result ≤ 10 }
{
    if number < 10 { number } else { 10 }
}

/// The capped number.
pub fn capped_again(number: u64) -> u64
    ensures small { result ≤ 10 }
{
    capped(number)
}
"""

# Each edit's name, old text and new text, and what the script's line says of it.
EDITS = (
    ("another_number", "    number", "    number / 2", "refused: `returns"),
    ("greater_limit", "{ number } else { 10 }", "{ number } else { 11 }", "refused: `returns"),
    ("lesser", "if one < other {", "if one > other {", "refused: `returns"),
    ("means_the_same", "if one < other {", "if one <= other {", "NOT REFUSED: the crate is proved with it"),
    ("not_compiled", "capped(number)", "capped(numbers)", "BAD: it doesn't compile"),
    ("not_there", "number.max(10)", "number.max(11)", "BAD: an old text isn't in src/lib.rt just once"),
    ("only_elsewhere", "ensures few { result ≤ 10 }", "ensures few { result ≤ 11 }", "NOT REFUSED by its own function, but elsewhere"),
)
LAST = "3 refused, 4 not"


def write(path, text):
    os.makedirs(os.path.dirname(path) or ".", exist_ok=True)
    with open(path, "w", encoding="utf-8") as it:
        it.write(text)


def told(*words):
    """Returns the lines that the script writes where this process is, with nothing kept."""
    script = os.path.join(os.path.dirname(os.path.abspath(__file__)), "edits.py")
    how = {"env": {**os.environ, "XDG_CACHE_HOME": os.getcwd()}, "capture_output": True, "text": True}
    ran = subprocess.run([sys.executable, script, *words], check=False, **how)
    return ran.returncode, ran.stdout.splitlines() + ran.stderr.splitlines()


def differences():
    """Gives a line for each difference of what the script says from what it is to say."""
    write("crates.txt", "sample:\nabove: sample\n")
    write("crates/sample/src/lib.rt", SOURCE)
    for name, old, new, _ in EDITS:
        write(f"crates/sample/wrong/{name}.edit", f"file: src/lib.rt\nold: {old}\nnew: {new}\n")
    status, lines = told("sample")
    for name, _, _, wanted in EDITS:
        if not any(it.startswith(f"sample/{name}: {wanted}") for it in lines):
            yield f"{name}: no line '{wanted}'"
    if status != 1 or not lines or lines[-1] != LAST:
        yield f"status {status}, and not 1 with the last line '{LAST}'"
    # A crate whose library isn't proved isn't tried.
    write("crates/above/src/lib.rt", SOURCE)
    write("crates/above/wrong/lesser.edit", "file: src/lib.rt\nold: if one < other {\nnew: if one > other {\n")
    write("log", "sample NOT PROVED\n0 passed, 2 failed\n")
    status, lines = told("--beside", "log", "above")
    if status != 1 or lines[0] != "above/lesser: NOT TRIED: a library below is not proved":
        yield f"an edit over a library that isn't proved: status {status}, {lines}"


def main():
    with tempfile.TemporaryDirectory() as room:
        os.chdir(room)
        found = list(differences())
        os.chdir("/")
    for it in found:
        print(f".ci/edits_test.py: {it}", file=sys.stderr)
    return 1 if found else 0


if __name__ == "__main__":
    sys.exit(main())

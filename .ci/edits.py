#!/usr/bin/env python3
"""Tries the wrong bodies of crates/NAME/wrong/*.edit, many in one check: the prover has to refuse each in a function that it changes.

    edits.py [--beside LOG] [--anew] [CRATE..]      at the top of the repository, over the libraries that `rt ci` left

A caller knows of a function only its contract. So what the prover says of one body doesn't depend on another body, and the prover goes on
after a refusal. A round puts all edits that change different functions into one copy of the crate, and checks these functions once. An edit
is refused if a goal of its own function fails. What has no such goal goes to the next round, since the prover passes over a function that
calls one which isn't proved. An edit that a round doesn't decide is tried alone, on the whole crate. It is missed if the crate is proved with
it, or if only another function or a name in a proof refuses it; it is bad if it can't be applied or compiled. Both fail.

A refusal is kept, by a sum of all that its check read: the toolchain, this script, the crate's texts and the libraries below it. --anew
tries all edits once more. --beside: LOG is what an `rt ci` writes that runs at the same time. Each crate is tried as soon as the libraries
below it are proved there, at a low priority. The last line is 'N refused, M not'."""
import argparse
import contextlib
import dataclasses
import functools
import hashlib
import json
import os
import re
import shutil
import subprocess
import sys
import tempfile
import threading
import time
from concurrent.futures import ThreadPoolExecutor

PARTS = ("src", "specs", "proofs")

# What a check may take of memory, in kilobytes.
MEMORY = 3_500_000


@dataclasses.dataclass(frozen=True)
class Function:
    """A function: its file, the type of its `impl` (with the trait's name behind it), and its name."""

    path: str
    owner: str | None
    name: str

    def word(self):
        """Returns the name by which `rattle check --only` finds it."""
        module = self.path.removeprefix("src/").removesuffix(".rt").removesuffix("/mod").split("/")
        return "::".join([self.owner, self.name] if self.owner else [*(module if module not in (["lib"], ["main"]) else []), self.name])

    def has_proofs_in(self, folders):
        """Tells whether these folders, from proofs/ on, are where its proof stands."""
        word = self.word().split("::")
        return folders[-2:] == word if self.owner else folders == word

    def span(self, text):
        """Returns its first and last line in a text of its file, its attributes with it, where notes on it are placed."""
        found = [number for number, it in enumerate(functions_of(self.path, text), 1) if it == self]
        if not found:
            return 0, -1
        lines, first = text.split("\n"), found[0]
        while first > 1 and not re.search(r"^\s*(//.*)?$|[{};]$", lines[first - 2]):
            first -= 1
        return first, found[-1]


@functools.lru_cache(maxsize=None)
def functions_of(path, text):
    """Returns for each line of a file the function that it lies in, if any. It reads the layout of `rt fmt`, in which an item ends with a
    brace under its beginning."""
    owner, indent, found, lines = None, 0, None, []
    for line in text.split("\n"):
        begins = re.match(r"(?:unsafe )?impl(?:<[^{]*?>)? (?:(\w+)(?:<.*?>)? for )?&?(?:'\w+ )?(?:mut )?(\w+)", line)
        named = re.match(r'(\s*)(?:pub(?:\([a-z ]+\))? )?(?:unsafe |const |extern "C" )*fn (\w+)', line)
        if begins:
            owner = begins[2] + (begins[1] or "")
        elif named and not found:
            indent, found = len(named[1]), Function(path, owner, named[2])
        lines.append(found)
        if found and (line in (" " * indent + "}", " " * indent + "{}") or named and line.endswith("}")):
            found = None
        elif line == "}":
            owner = None
    return lines


class Edit:
    """A file of wrong/: pairs of an old text, which stands once in its file, and the new text for it."""

    def __init__(self, file):
        self.name = os.path.basename(file).removesuffix(".edit")
        with open(file, encoding="utf-8") as text:
            self.text = text.read()
        self.pairs, path, old = [], None, None
        for line in self.text.split("\n"):
            key, _, value = line.partition(":")
            value = value.removeprefix(" ")
            if key == "file":
                path = value.strip()
            elif key == "old":
                old = value
            elif key == "new":
                self.pairs.append((path, old, value))

    def apply(self, texts):
        """Returns a crate's texts with this edit, and the functions that it changes. Raises ValueError if it can't be applied."""
        if not self.pairs:
            raise ValueError("it has no old and new text")
        texts, functions = dict(texts), []
        for path, old, new in self.pairs:
            if not path or not old or texts.get(path, "").count(old) != 1:
                raise ValueError(f"an old text isn't in {path} just once: {old}")
            at = texts[path].index(old)
            functions.append(functions_of(path, texts[path])[texts[path].count("\n", 0, at)])
            texts[path] = texts[path][:at] + new + texts[path][at + len(old) :]
        return texts, [it for it in dict.fromkeys(functions) if it]


@dataclasses.dataclass(frozen=True)
class Goal:
    """A goal that fails: its name, and the place of a source or of a proof file."""

    name: str
    path: str
    line: int

    # What a proof file says where it names what an edit took away, or what isn't proved. That tells nothing of a contract.
    SECOND_HAND = re.compile(r"has no field|is not in scope|has no `|was not admitted|was rejected, was not checked")

    @classmethod
    def read(cls, line):
        """Returns the goal that a line of a check names, or None."""
        at = re.match(r"(?:note: )?(?:\./)?((src|proofs)/\S+?):(\d+):\d+: (.*)", line)
        if not at or cls.SECOND_HAND.search(at[4]):
            return None
        if at[2] == "src":
            goal = re.search(r"it is not proved that .*\(`([^`]+)`\)", at[4])
        else:
            goal = re.match(r"error: `([^`]+)`", at[4])
        return cls(goal[1], at[1], int(at[3])) if goal else None

    def is_of(self, function, texts):
        """Tells whether it is a goal of this function."""
        if self.path.startswith("proofs/"):
            return function.has_proofs_in(self.path.split("/")[1:-1])
        first, last = function.span(texts[function.path])
        return self.path == function.path and first <= self.line <= last

    def __str__(self):
        return f"`{self.name}` ({self.path}:{self.line})"


@dataclasses.dataclass
class Checked:
    """What a check of a crate came to, with the texts that it read."""

    status: int
    said: list[str]
    texts: dict[str, str]

    def is_refused(self):
        """Tells whether the prover came to a verdict, and refused something."""
        return self.status == 1 and any(it.startswith(("logic=not-proved", "only=")) for it in self.said)

    def goals(self):
        return [it for it in map(Goal.read, self.said) if it]

    def refusal(self, functions):
        """Returns the goals of these functions that fail, those of their contracts first, or an empty text."""
        of = {it.name: f"{it} in {function.name}" for it in reversed(self.goals()) for function in functions if it.is_of(function, self.texts)}
        return ", ".join([of[it] for it in sorted(of, key=lambda it: (not it.startswith("returns"), it))[:2]])

    def stray(self, functions):
        """Returns a goal that fails in none of these functions, or None."""
        return next((it for it in self.goals() if not any(it.is_of(function, self.texts) for function in functions)), None)

    def first_error(self):
        """Returns the first error of the compiler: its file, its line and what it says."""
        for said in self.said:
            at = re.search(r"(src/\S+?):(\d+)", said)
            if at:
                return at[1], int(at[2]), next((it for it in self.said if "error" in it), said)
        return None, 0, next((it for it in self.said if "error" in it), "")


class Toolchain:
    """The toolchain's folder, and how it checks a crate."""

    def __init__(self):
        told = subprocess.run(["rt", "doc"], capture_output=True, text=True, check=True)
        self.folder = os.path.dirname(told.stdout.strip())
        self.version = subprocess.run(["rt", "version"], capture_output=True, text=True, check=True).stdout

    def words(self, crate, libraries, kept):
        """Returns the words of a check of this crate over these libraries and what `kept` has of an earlier one."""
        words = ["check", "--crate-name", crate.name, "--jobs", "1", "--extern", f"std={self.folder}/rlibs/std.rlib"]
        words += ["-L", f"dependency={self.folder}/rlibs"]
        for it in crate.named:
            words += ["--extern", f"{it}={libraries.get(it, f'{self.folder}/rlibs')}/{it}.rlib"]
        for it in crate.below:
            words += ["-L", f"dependency={libraries[it]}"]
        words += ["--antt-project", f"{self.folder}/rattle/logic/antt-project.json", "--logic-built", f"{self.folder}/logic_built"]
        words += ["--links", f"{crate.name}=", *(["--crate-type", "staticlib"] if crate.is_static else [])]
        return [*words, "--incremental", kept, "src/main.rt" if "src/main.rt" in crate.texts else "src/lib.rt"]

    def check(self, crate, libraries, room, texts, functions):
        """Checks these functions and what they call, or the whole crate if there are none."""
        shutil.rmtree(f"{room}/crate", ignore_errors=True)
        for path, text in texts.items():
            os.makedirs(os.path.dirname(f"{room}/crate/{path}"), exist_ok=True)
            with open(f"{room}/crate/{path}", "w", encoding="utf-8") as it:
                it.write(text)
        only = [it for function in functions for it in ("--only", function.word())]
        words = [f"{self.folder}/bin/rattle", *self.words(crate, libraries, f"{room}/kept"), *only]
        how = {"stdin": subprocess.DEVNULL, "stdout": subprocess.PIPE, "stderr": subprocess.STDOUT, "errors": "replace"}
        ran = subprocess.run(words, cwd=f"{room}/crate", check=False, **how)
        return Checked(ran.returncode, ran.stdout.split("\n"), texts)


class Crate:
    """A crate with wrong bodies, and what it stands on."""

    def __init__(self, name, lines):
        self.name = name
        self.is_static, self.named = lines[name]
        self.line = repr(lines[name])
        self.below = below(name, lines)
        at = f"crates/{name}/wrong"
        self.edits = [Edit(f"{at}/{it}") for it in sorted(os.listdir(at)) if it.endswith(".edit")] if os.path.isdir(at) else []
        self.texts = dict(texts_of(f"crates/{name}")) if self.edits else {}

    def size(self):
        return sum(map(len, self.texts.values()))


def below(name, lines):
    """Returns the repository's crates that a crate stands on."""
    ours = [it for it in lines[name][1] if it in lines]
    return list(dict.fromkeys([*ours, *(low for it in ours for low in below(it, lines))]))


def texts_of(folder):
    """Gives the path and the text of each file that a check of the crate reads."""
    for part in PARTS:
        for at, _, names in os.walk(f"{folder}/{part}"):
            for it in names:
                with open(f"{at}/{it}", encoding="utf-8") as text:
                    yield os.path.relpath(f"{at}/{it}", folder), text.read()


class Libraries:
    """The libraries of the repository that `rt ci` built, by second names, so that a later check in a crate's folder takes none away."""

    # The last line of `rt ci`.
    END = re.compile(r"^\d+ passed, \d+ failed", re.MULTILINE)

    def __init__(self, room, log):
        self.room, self.log, self.sums, self.lock = room, log, {}, threading.Lock()

    def wait_for(self, names):
        """Waits until the log says that these crates are proved, and returns whether they all are."""
        while self.log:
            text = self.told()
            lacking = [it for it in names if not re.search(rf"^(?:rt: )?{it} (?:proved$|is kept:)", text, re.MULTILINE)]
            if not lacking or self.END.search(text):
                return not lacking
            time.sleep(1)
        return True

    def wait_for_end(self):
        """Waits until `rt ci` has ended."""
        while not self.END.search(self.told()):
            time.sleep(1)

    def told(self):
        with open(self.log, encoding="utf-8", errors="replace") as log:
            return log.read()

    def folders(self, names):
        """Returns the folder of each of these libraries, by name. Raises FileNotFoundError if one isn't there."""
        with self.lock:
            for it in names:
                if it not in self.sums:
                    shutil.copytree(f"crates/{it}/out/rlib/{it}.rlib", f"{self.room}/{it}/{it}.rlib", copy_function=link)
                    self.sums[it] = sum_of(f"{self.room}/{it}")
        return {it: f"{self.room}/{it}" for it in names}


def link(one, other):
    """Gives a file a second name: rt replaces such a file, and never writes into it."""
    try:
        os.link(one, other)
    except OSError:
        shutil.copy2(one, other)


def sum_of(folder):
    """Returns a sum of the files in a folder."""
    sum = hashlib.sha256()
    for at, folders, names in os.walk(folder):
        folders.sort()
        for it in sorted(names):
            with open(f"{at}/{it}", "rb") as file:
                sum.update(f"{os.path.relpath(f'{at}/{it}', folder)}\n".encode() + hashlib.sha256(file.read()).digest())
    return sum.hexdigest()


class Kept:
    """The refusals of earlier runs, a file each, outside all checkouts. Its name is the sum of what was tried."""

    def __init__(self, anew):
        self.folder = os.path.join(os.environ.get("XDG_CACHE_HOME") or os.path.expanduser("~/.cache"), "blink-edits")
        self.anew = anew

    @staticmethod
    def sum(crate, libraries, toolchain):
        """Returns a sum of all that a check of the crate reads, and of this script."""
        with open(__file__, encoding="utf-8") as own:
            read = [toolchain.version, own.read(), crate.name, crate.line, sorted(crate.texts.items()), [libraries.sums[it] for it in crate.below]]
        return hashlib.sha256(repr(read).encode()).hexdigest()

    def path(self, sum, edit):
        return f"{self.folder}/{hashlib.sha256(repr((sum, edit.name, edit.text)).encode()).hexdigest()}"

    def find(self, sum, edit):
        """Returns what was said of a refusal, or None."""
        if self.anew:
            return None
        with contextlib.suppress(OSError, ValueError, TypeError, KeyError), open(self.path(sum, edit), encoding="utf-8") as it:
            return str(json.load(it)["refused"])
        return None

    def keep(self, sum, edit, said):
        # (no room on the disk, say: the next run tries the edit again)
        with contextlib.suppress(OSError):
            os.makedirs(self.folder, exist_ok=True)
            with tempfile.NamedTemporaryFile("w", dir=self.folder, delete=False, encoding="utf-8") as it:
                json.dump({"refused": said}, it)
            os.replace(it.name, self.path(sum, edit))


class Trial:
    """The rounds of one crate."""

    def __init__(self, crate, toolchain, libraries, kept):
        self.crate, self.toolchain, self.kept = crate, toolchain, kept
        self.folders = libraries.folders(crate.below)
        self.sum = Kept.sum(crate, libraries, toolchain)

    def verdicts(self):
        """Gives each edit and what is said of it."""
        left = []
        for edit in self.crate.edits:
            try:
                edit.apply(self.crate.texts)
            except ValueError as error:
                yield edit, f"BAD: {error}"
                continue
            told = self.kept.find(self.sum, edit)
            if told:
                yield edit, told
            else:
                left.append(edit)
        with tempfile.TemporaryDirectory() as room:
            alone = False
            while left:
                found = self.round(left, room, alone)
                # Nothing is decided where all are proved, or a limit of the prover stops it.
                alone = alone or not found
                left = [it for it in left if it not in found]
                yield from found.items()

    def round(self, left, room, alone):
        """Tries some of the edits that are left, and returns what is said of those that are decided."""
        texts, group = self.group(left, alone)
        functions = [] if alone else [it for functions in group.values() for it in functions]
        checked = self.toolchain.check(self.crate, self.folders, room, texts, functions)
        if checked.status == 2 and functions:
            # (a name that --only finds twice, or not at all)
            checked, alone = self.toolchain.check(self.crate, self.folders, room, texts, []), len(group) == 1
        told = self.judged_alone(group, checked) if alone else self.judged(group, checked)
        for edit, said in told.items():
            if said.startswith("refused"):
                self.kept.keep(self.sum, edit, said)
        return told

    def group(self, left, alone):
        """Returns the texts with edits of different functions, and the functions of each. An edit outside all functions, as of a constant,
        may change what any of them means, so it has a round of its own."""
        texts, taken, group = self.crate.texts, set(), {}
        for edit in left:
            _, functions = edit.apply(self.crate.texts)
            if group and (alone or not functions or [] in group.values() or taken & {*functions}):
                continue
            with contextlib.suppress(ValueError):
                texts, _ = edit.apply(texts)
                group[edit] = functions
                taken |= {*functions}
        return texts, group

    def judged(self, group, checked):
        """Returns what a check of a round decides: a refusal is of the edit's own functions, while no other function is refused."""
        if checked.is_refused():
            if checked.stray([it for functions in group.values() for it in functions]):
                return {}
            told = {edit: checked.refusal(functions) for edit, functions in group.items()}
            return {edit: f"refused: {goals}" for edit, goals in told.items() if goals}
        return self.not_compiled(group, checked) if checked.status == 1 else {}

    def judged_alone(self, group, checked):
        """Returns what a check of the whole crate with one edit says of it."""
        ((edit, functions),) = group.items()
        if checked.is_refused():
            goals, stray = checked.refusal(functions), checked.stray(functions)
            if goals:
                return {edit: f"refused: {goals}"}
            return {edit: f"NOT REFUSED by its own function, but elsewhere: {stray}" if stray else "NOT REFUSED by a contract: a proof names what it took away"}
        if checked.status == 1:
            return self.not_compiled(group, checked)
        if checked.status:
            return {edit: f"NOT TRIED: the check ended with {checked.status}: {checked.said[0][:160]}"}
        return {edit: "NOT REFUSED: the crate is proved with it"}

    @staticmethod
    def not_compiled(group, checked):
        """Returns the edit in whose function the first error of the compiler lies, or else the first edit, and the error."""
        path, line, said = checked.first_error()

        def is_at_fault(functions):
            spans = [it.span(checked.texts[path]) for it in functions if it.path == path]
            return any(first <= line <= last for first, last in spans)

        edit = next((it for it, functions in group.items() if is_at_fault(functions)), next(iter(group)))
        return {edit: f"BAD: it doesn't compile: {said[:160]}"}


def crates_of(names):
    """Returns the crates of crates.txt with edits, or those of them that are named, the largest first."""
    with open("crates.txt", encoding="utf-8") as text:
        found = [re.fullmatch(r"(\w+)( staticlib)?:(.*)", it.rstrip()) for it in text]
    lines = {it[1]: (bool(it[2]), it[3].split()) for it in found if it}
    crates = [Crate(it, lines) for it in names or lines]
    return sorted((it for it in crates if it.edits), key=lambda it: -it.size())


def jobs(is_beside):
    """Returns how many checks run at once: one a processor, as many as memory holds, and beside `rt ci` as many as it leaves room for."""
    with open("/proc/meminfo", encoding="utf-8") as text:
        free = int(re.search(r"MemAvailable:\s+(\d+)", text.read())[1])
    others = int(os.environ.get("RT_JOBS", "0")) if is_beside else 0
    return max(min(len(os.sched_getaffinity(0)), free // MEMORY - others), 1)


def run(given):
    """Tries the edits of these crates, prints a line for each, and returns how many were refused and how many weren't."""
    printing, count = threading.Lock(), {True: 0, False: 0}
    toolchain, kept = Toolchain(), Kept(given.anew)

    def say(name, edit, said):
        with printing:
            count[said.startswith("refused")] += 1
            print(f"{name}/{edit.name}: {said}", flush=True)

    def tried(crate):
        is_there = libraries.wait_for(crate.below)
        try:
            if not is_there:
                raise FileNotFoundError("a library below is not proved")
            with places:
                for edit, said in Trial(crate, toolchain, libraries, kept).verdicts():
                    say(crate.name, edit, said)
        except FileNotFoundError as error:
            for edit in crate.edits:
                say(crate.name, edit, f"NOT TRIED: {error}")

    def widen():
        libraries.wait_for_end()
        places.release(max(jobs(False) - beside, 1))

    crates, beside = crates_of(given.crates), jobs(given.beside)
    places = threading.Semaphore(beside)
    with tempfile.TemporaryDirectory() as room, ThreadPoolExecutor(len(crates) + 1) as pool:
        libraries = Libraries(room, given.beside)
        if given.beside:
            pool.submit(widen)
        list(pool.map(tried, crates))
    return count[True], count[False]


def main():
    reads = argparse.ArgumentParser(description=__doc__, formatter_class=argparse.RawDescriptionHelpFormatter)
    reads.add_argument("--beside", metavar="LOG")
    reads.add_argument("--anew", action="store_true")
    reads.add_argument("crates", nargs="*")
    given = reads.parse_args()
    if given.beside:
        os.nice(10)
    refused, others = run(given)
    print(f"{refused} refused, {others} not")
    return 1 if others else 0


if __name__ == "__main__":
    sys.exit(main())

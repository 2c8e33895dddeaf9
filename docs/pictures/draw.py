#!/usr/bin/env python3
"""Draws the pictures of docs/BOOK.md, and that of the crates in README.md.

    python3 docs/pictures/draw.py          writes the SVG files beside this script
    python3 docs/pictures/draw.py crates   prints the picture of the crates as text
    python3 docs/pictures/draw.py check    looks whether the frames below are those of examples/tour/*.html, the crates those of crates.txt, and
                                           the SVG files what this script draws

The trees below are frames of replays, line by line as the pages of examples/tour have them: `page NUMBER HOLDER LEVEL FLOOR HIGH RIGHT
ENTRIES`, where `-` is none. Pictures without such lines are schematic.
"""

import os
import re
import sys
from xml.etree import ElementTree
from xml.sax.saxutils import escape

HERE = os.path.dirname(os.path.abspath(__file__))
MAX = "18446744073709551615"

INK, SOFT, LINE, HEAD, RED, BLUE = "#1d1f21", "#5c6266", "#8a9196", "#eceeec", "#b3261e", "#1a62b8"

# ---- what is drawn: (example, frame) and its lines

FRAMES = {
    ("inner_split", 0): f"""
prime 1 3 8
page 1 - 0 - 16 9 10:100 15:150 16:160
page 2 - 0 30 60 4 40:400 50:500 60:600
page 3 - 1 - 90 7 16:1 30:9 60:2 90:4
page 4 - 0 60 90 5 70:700 75:750 80:800 90:900
page 5 - 0 90 120 6 100:1000 110:1100 120:1200
page 6 - 0 120 {MAX} - 130:1300 140:1400
page 7 - 1 90 {MAX} - 120:5 {MAX}:6
page 8 - 2 - {MAX} - 90:3 {MAX}:7
page 9 - 0 16 30 2 20:200 30:300""",
    ("inner_split", 23): f"""
prime 1 3 8
page 3 - 1 - 60 11 16:1 30:9 60:2
page 7 - 1 90 {MAX} - 120:5 {MAX}:6
page 8 1 2 - {MAX} - 90:3 {MAX}:7
page 11 - 1 60 90 7 80:4 90:10""",
    ("inner_split", 24): f"""
prime 1 3 8
page 3 - 1 - 60 11 16:1 30:9 60:2
page 7 - 1 90 {MAX} - 120:5 {MAX}:6
page 8 1 2 - {MAX} - 60:3 90:11 {MAX}:7
page 11 - 1 60 90 7 80:4 90:10""",
    ("half_a_split", 5): f"""
prime 1
page 1 0 0 - {MAX} - 1:10 2:20 3:30 5:50""",
    ("half_a_split", 6): f"""
prime 1
page 1 0 0 - {MAX} - 1:10 2:20 3:30 5:50
page 2 - 0 3 {MAX} - 5:50 6:60""",
    ("half_a_split", 7): f"""
prime 1
page 1 0 0 - 3 2 1:10 2:20 3:30
page 2 - 0 3 {MAX} - 5:50 6:60""",
    ("half_a_split", 8): f"""
prime 1
page 1 0 0 - 3 2 1:10 2:20 3:30
page 2 - 0 3 {MAX} - 5:50 6:60""",
    ("overtaking", 23): f"""
prime 1 3
page 1 - 0 - 30 2 10:100 20:200 30:300
page 2 1 0 30 46 5 40:400 43:430 46:460
page 3 - 1 - {MAX} - 30:1 {MAX}:2
page 4 - 0 60 {MAX} - 71:710 81:810
page 5 - 0 46 60 4 50:500 60:600""",
    ("overtaking", 28): f"""
prime 1 3
page 1 - 0 - 30 2 10:100 20:200 30:300
page 2 - 0 30 46 5 40:400 43:430 46:460
page 3 1 1 - {MAX} - 30:1 46:2 {MAX}:5
page 4 - 0 60 {MAX} - 71:710 81:810
page 5 - 0 46 60 4 50:500 60:600""",
    ("overtaking", 36): f"""
prime 1 3
page 1 - 0 - 30 2 10:100 20:200 30:300
page 2 - 0 30 46 5 40:400 43:430 46:460
page 3 0 1 - {MAX} - 30:1 46:2 60:5 {MAX}:4
page 4 - 0 60 {MAX} - 71:710 81:810
page 5 - 0 46 60 4 50:500 60:600""",
    ("root_grows", 6): f"""
prime 1
page 1 0 0 - 30 2 10:100 20:200 30:300
page 2 - 0 30 {MAX} - 40:400 50:500""",
    ("root_grows", 30): f"""
prime 1
page 1 0 0 - 30 2 10:100 20:200 30:300
page 2 - 0 30 43 3 40:400 41:410 43:430
page 3 - 0 43 {MAX} - 45:450 50:500""",
    ("root_grows", 32): f"""
prime 1
page 1 0 0 - 30 2 10:100 20:200 30:300
page 2 - 0 30 43 3 40:400 41:410 43:430
page 3 - 0 43 {MAX} - 45:450 50:500
page 4 - 1 - {MAX} - 30:1 {MAX}:2""",
    ("root_grows", 33): f"""
prime 1 4
page 1 0 0 - 30 2 10:100 20:200 30:300
page 2 - 0 30 43 3 40:400 41:410 43:430
page 3 - 0 43 {MAX} - 45:450 50:500
page 4 - 1 - {MAX} - 30:1 {MAX}:2""",
    ("root_grows", 38): f"""
prime 1 4
page 1 - 0 - 30 2 10:100 20:200 30:300
page 2 - 0 30 43 3 40:400 41:410 43:430
page 3 - 0 43 {MAX} - 45:450 50:500
page 4 1 1 - {MAX} - 30:1 43:2 {MAX}:3""",
}

# turns of worker 1 in inner_split: (frame, step)
INSERTION = [(3, "P"), (4, "R8"), (5, "R3"), (6, "R4"), (7, "L4"), (8, "R4"), (9, "W10"), (10, "W4"), (11, "P"), (12, "U4"), (13, "L3"),
             (14, "R3"), (15, "W11"), (16, "W3"), (20, "P"), (21, "U3"), (22, "L8"), (23, "R8"), (24, "W8"), (25, "U8")]

# operations of overtaking: (what, worker, first frame, last frame, frame that decides)
OPERATIONS = [("insert 81", 0, 1, 37, 7), ("insert 43", 1, 10, 16, 15), ("insert 46", 1, 17, 29, 23), ("find 71", 2, 30, 33, 33)]

# the bands of the crates, each with its lowest and its highest row, and where each crate stands: its column, and its row from below
BANDS = (("programs and library", 12.9, 16.1), ("runs", 9.1, 12.6), ("threads", 6.3, 8.95), ("memory", 4.35, 5.9), ("tree", -0.5, 3.95))
CRATES = {
    "index_main": (1.35, 15.4), "show_main": (2.9, 15.4), "blink_c": (5.97, 15.4), "blink_handles": (5.97, 14.5), "show_command": (2.3, 14.5),
    "blink_command": (1.2, 13.6), "blink_show": (3.9, 13.6), "blink_run": (2.6, 12.0), "blink_locked": (1.9, 10.8),
    "blink_replay": (4.6, 10.8), "blink_settings": (1.1, 9.6), "blink_steps": (3.3, 9.6), "blink_client": (3.95, 8.3),
    "blink_generation": (5.97, 7.4), "blink_map": (5.3, 8.08), "blink_map_laws": (5.95, 8.9),
    "blink_live": (5.37, 6.7), "blink_index": (4.9, 4.9), "blink_rows": (6.1, 4.9),
    "blink_machine": (2.9, 3.3), "blink_entries": (4.5, 3.3), "blink_batch": (1.2, 3.3), "blink_rest": (3.4, 2.2), "blink_store": (3.95, 1.1),
    "blink_operation": (2.2, 0.0), "blink_page": (5.2, 0.0),
}


class Page:
    def __init__(self, line):
        word = line.split()
        self.number, self.holder, self.level = int(word[1]), none_or_int(word[2]), int(word[3])
        self.floor, self.high, self.right = none_or_int(word[4]), int(word[5]), none_or_int(word[6])
        self.entries = [tuple(int(n) for n in entry.split(":")) for entry in word[7:]]


def none_or_int(word):
    return None if word == "-" else int(word)


def tree_of(key):
    lines = FRAMES[key].split("\n")
    prime = next([int(n) for n in line.split()[1:]] for line in lines if line.startswith("prime"))
    pages = {page.number: page for page in (Page(line) for line in lines if line.startswith("page"))}
    return prime, pages


# ---- check: are these lines those of the examples?

def frames_of(example):
    with open(os.path.join(HERE, "..", "..", "examples", "tour", example + ".html"), encoding="utf-8") as file:
        text = re.search(r'<script type="text/plain" id="replay">(.*?)</script>', file.read(), re.S).group(1)
    frames, now, decided = [], {}, []
    for line in text.split("\n"):
        word = line.split()
        if not word:
            continue
        if word[0] in ("turn", "finish"):
            frames.append(dict(now))
            now["step"] = " ".join(word[1:])
        elif word[0] in ("prime", "page", "worker"):
            now[word[0] if word[0] == "prime" else word[0] + " " + word[1]] = line.strip()
        elif word[0] == "decided":
            decided.append((int(word[1]), len(frames)))
    frames.append(dict(now))
    return frames, decided


def check():
    wrong = 0
    for (example, frame), text in FRAMES.items():
        there = set(frames_of(example)[0][frame].values())
        for line in text.strip().split("\n"):
            if line not in there:
                print(f"{example}, frame {frame}: not there: {line}")
                wrong += 1
    frames, _ = frames_of("inner_split")
    own = [(at, frames[at]["step"].split()[1]) for at in range(1, len(frames)) if frames[at]["step"].startswith("1 ")]
    frames, decided = frames_of("overtaking")
    ends = [(op, at) for op, (_, _, _, _, at) in enumerate(OPERATIONS)]
    if own != INSERTION or decided != ends:
        print("a time line isn't the example's")
        wrong += 1
    for _, worker, first, last, _ in OPERATIONS:
        if not all(frames[at]["step"].startswith(f"{worker} ") for at in (first, last)):
            print(f"overtaking: worker {worker} takes no turn at {first} or {last}")
            wrong += 1
    return wrong + check_crates() + check_pictures()


# ---- the crates

def crates_of_list():
    """What crates.txt says: each crate that isn't one of tests, with what it stands on of the repository, without what that stands on."""
    with open(os.path.join(HERE, "..", "..", "crates.txt"), encoding="utf-8") as file:
        lines = [line.split(":") for line in file if ":" in line and not line.startswith("#")]
    named = {name.split()[0]: words.split() for name, words in lines}
    on = {name: [word for word in words if word in named] for name, words in named.items()}

    def below(name):
        return set(on[name]).union(*(below(other) for other in on[name]))

    return {name: [other for other in others if not any(other in below(third) for third in others)]
            for name, others in on.items() if not name.endswith("_tests")}


def crate_ends(upper, lower):
    """The ends of the line from a crate down to one that it stands on."""
    (x1, y1), (x2, y2) = crate_at(upper), crate_at(lower)
    return (x1, y1 + CRATE_HEIGHT / 2), (x2, y2 - CRATE_HEIGHT / 2 - 1)


CRATE_WIDTH, CRATE_HEIGHT, CRATE_STEP, CRATE_ROW = 112, 24, 126, 42


def crate_at(name):
    column, row = CRATES[name]
    return 68 + column * CRATE_STEP, 24 + (16.1 - row) * CRATE_ROW


def meets_crate(line, name):
    (x1, y1), (x2, y2) = line
    x, y = crate_at(name)
    points = [(x1 + (x2 - x1) * n / 200, y1 + (y2 - y1) * n / 200) for n in range(201)]
    return any(abs(px - x) < CRATE_WIDTH / 2 + 3 and abs(py - y) < CRATE_HEIGHT / 2 + 2 for px, py in points)


def check_crates():
    wrong = 0
    crates = crates_of_list()
    for name in sorted(set(crates) ^ set(CRATES)):
        print(f"{name}: in crates.txt or in the picture, but not in both")
        wrong += 1
    for name, others in crates.items():
        for other in others if name in CRATES else ():
            if CRATES[other][1] >= CRATES[name][1]:
                print(f"{name} isn't above {other}")
                wrong += 1
            for third in set(CRATES) - {name, other}:
                if (name, other) not in BENT and meets_crate(crate_ends(name, other), third):
                    print(f"the line from {name} to {other} crosses {third}")
                    wrong += 1
    with open(os.path.join(HERE, "..", "CHANGING.md"), encoding="utf-8") as file:
        if crates_as_text() not in file.read():
            print("docs/CHANGING.md has another picture of the crates than this:\n" + crates_as_text())
            wrong += 1
    return wrong


def crates_as_text():
    """The same picture in text, as docs/CHANGING.md has it: band by band the highest first, each crate with what it stands on."""
    crates, lines = crates_of_list(), []
    for band, lowest, highest in BANDS:
        names = sorted((name for name in CRATES if lowest < CRATES[name][1] < highest), key=lambda name: (-CRATES[name][1], CRATES[name][0]))
        for name in names:
            over = " over " + ", ".join(crates[name]) if crates[name] else ""
            lines.append(f"{band if name == names[0] else '':22}{name}{over}")
    return "\n".join(lines)


# ---- drawing

# Each picture's text, by its file.
DRAWN = {}


def draw_all():
    for draw in (pages, tree, moving_right, split, posting, overtaking, root_growth, debts, latches, deciding, row, prefixes, one_list, fronts, row_life, crates):
        draw()


def check_pictures():
    draw_all()
    there = {}
    for name in os.listdir(HERE):
        if name.endswith(".svg"):
            with open(os.path.join(HERE, name), encoding="utf-8") as file:
                there[name] = file.read()
    wrong = sorted(name for name in set(DRAWN) | set(there) if DRAWN.get(name) != there.get(name))
    for name in wrong:
        print(f"docs/pictures/{name}: not what docs/pictures/draw.py draws: run it")
    return len(wrong)


class Picture:
    def __init__(self, width, height):
        self.width, self.height, self.parts = width, height, []

    def add(self, part):
        self.parts.append(part)

    def box(self, x, y, w, h, fill="white", stroke=INK, dash=False, width=1.2, round=0):
        extra = ' stroke-dasharray="5 3"' if dash else ""
        self.add(f'<rect x="{x:.1f}" y="{y:.1f}" width="{w:.1f}" height="{h:.1f}" rx="{round}" fill="{fill}" stroke="{stroke}" stroke-width="{width}"{extra}/>')

    def text(self, x, y, words, size=12, fill=INK, anchor="middle", bold=False, italic=False):
        style = (' font-weight="bold"' if bold else "") + (' font-style="italic"' if italic else "")
        self.add(f'<text x="{x:.1f}" y="{y:.1f}" font-size="{size}" fill="{fill}" text-anchor="{anchor}"{style}>{escape(words)}</text>')

    def line(self, points, stroke=INK, width=1.2, arrow=False, dash=False):
        path = "M" + " L".join(f"{x:.1f} {y:.1f}" for x, y in points)
        end = f' marker-end="url(#{"red" if stroke == RED else "blue" if stroke == BLUE else "ink"})"' if arrow else ""
        extra = ' stroke-dasharray="4 3"' if dash else ""
        self.add(f'<path d="{path}" fill="none" stroke="{stroke}" stroke-width="{width}"{extra}{end}/>')

    def dot(self, x, y, radius=5, fill=INK):
        self.add(f'<circle cx="{x:.1f}" cy="{y:.1f}" r="{radius}" fill="{fill}"/>')

    def save(self, name):
        arrows = "".join(
            f'<marker id="{id}" viewBox="0 0 8 8" refX="7" refY="4" markerWidth="7" markerHeight="7" orient="auto"><path d="M0 0 L8 4 L0 8 Z" fill="{fill}"/></marker>'
            for id, fill in (("ink", INK), ("red", RED), ("blue", BLUE)))
        text = (f'<svg xmlns="http://www.w3.org/2000/svg" width="{self.width}" height="{self.height}" viewBox="0 0 {self.width} {self.height}" '
                f'font-family="DejaVu Sans, Verdana, Arial, sans-serif">\n<defs>{arrows}</defs>\n'
                f'<rect width="{self.width}" height="{self.height}" fill="white"/>\n' + "\n".join(self.parts) + "\n</svg>\n")
        ElementTree.fromstring(text)
        DRAWN[name] = text


def key_text(key):
    return "MAX" if key == int(MAX) else str(key)


def cell_width(words):
    return 7.6 * len(words) + 7


def bold_width(words):
    return cell_width(words) + 4


class Box:
    """A page that is drawn: its cells, and where they are."""

    def __init__(self, page):
        self.page, self.x, self.y = page, 0, 0
        self.inner = page.level > 0
        self.cells = [(key_text(key), f"#{value}" if self.inner else None) for key, value in page.entries]
        self.widths = [max(cell_width(key), cell_width(child or "")) for key, child in self.cells]
        self.high = "≤" + key_text(page.high)
        self.label = f"#{page.number}"
        self.width = bold_width(self.label) + sum(self.widths) + bold_width(self.high)
        self.height = 36 if self.inner else 22

    def middle(self):
        return self.x + self.width / 2

    def child_at(self, number):
        x = self.x + bold_width(self.label)
        for (_, value), width in zip(self.page.entries, self.widths):
            if value == number:
                return x + width / 2
            x += width
        return None

    def draw(self, picture, debt=False, unlinked=False):
        p, latched = self.page, self.page.holder is not None
        stroke = RED if latched else INK
        x = self.x + bold_width(self.label)
        picture.box(self.x, self.y, bold_width(self.label), self.height, fill="#dfe3e6", stroke=LINE, width=0.8)
        picture.text(self.x + bold_width(self.label) / 2, self.y + self.height / 2 + 4, self.label, bold=True)
        for (key, child), width in zip(self.cells, self.widths):
            picture.box(x, self.y, width, self.height, stroke=LINE, width=0.8)
            picture.text(x + width / 2, self.y + 15, key)
            if child:
                picture.text(x + width / 2, self.y + 30, child, size=11, fill=BLUE)
            x += width
        width = bold_width(self.high)
        picture.box(x, self.y, width, self.height, fill=INK if debt else HEAD, stroke=LINE, width=0.8)
        picture.text(x + width / 2, self.y + self.height / 2 + 4, self.high, fill="white" if debt else SOFT, bold=debt)
        picture.box(self.x, self.y, self.width, self.height, fill="none", stroke=stroke, dash=unlinked, width=2 if latched else 1.4, round=2)
        note = f"latched by {p.holder}" if latched else "unlinked" if unlinked else ""
        if note:
            y = self.y - 5 if self.inner else self.y + self.height + 13
            picture.text(self.x, y, note, size=10.5, fill=RED if latched else SOFT, anchor="start")


def chain(pages, leftmost):
    found, number = [], leftmost
    while number is not None and number in pages:
        found.append(pages[number])
        number = pages[number].right
    return found


def draw_tree(picture, key, x, y, gap=30, row=86, prime_at=None, down=True, unlinked=(), levels=None):
    """Draws the tree's levels from y on, the highest first, and returns its boxes by number."""
    prime, pages = tree_of(key)
    boxes = {number: Box(page) for number, page in pages.items()}
    chains = [[boxes[page.number] for page in chain(pages, leftmost)] for leftmost in prime]
    shown = [level for level in range(len(chains)) if levels is None or level in levels]
    for number in unlinked:
        if pages[number].level >= len(chains):
            chains.append([boxes[number]])
            shown.append(len(chains) - 1)
    top = max(shown)
    for level in shown:
        at = x
        for box in chains[level]:
            children = [boxes[value].middle() for _, value in box.page.entries if box.inner and value in boxes and level - 1 in shown]
            if children:
                at = max(at, (min(children) + max(children)) / 2 - box.width / 2)
            box.x, box.y = at, y + (top - level) * row + (0 if box.inner else 7)
            at += box.width + gap
    for number in unlinked:
        if pages[number].level < len(prime):
            after = max(box.x + box.width for box in boxes.values() if box.page.number != number and box.page.level == pages[number].level)
            boxes[number].x, boxes[number].y = after + gap, y + (top - pages[number].level) * row + 7
    for level in shown:
        above = {sep for box in chains[level + 1] for sep, _ in box.page.entries} if level + 1 < len(prime) else set()
        for box in chains[level]:
            is_new = box.page.number in unlinked
            box.draw(picture, debt=box.page.high != int(MAX) and box.page.high not in above and not is_new, unlinked=is_new)
            if box.page.right in boxes:
                other, middle = boxes[box.page.right], box.y + box.height / 2
                picture.line([(box.x + box.width, middle), (other.x - 1, middle)], arrow=True)
            if box.inner and down and level - 1 in shown:
                for _, child in box.page.entries:
                    if child in boxes:
                        lower = boxes[child]
                        end = lower.x + bold_width(lower.label) / 2
                        picture.line([(box.child_at(child), box.y + box.height), (end, lower.y - 1)], stroke=BLUE, width=1, arrow=True, dash=is_new)
    for number in unlinked:
        if pages[number].level < len(prime):
            boxes[number].draw(picture, unlinked=True)
    if prime_at is not None:
        for level, leftmost in enumerate(prime):
            if level in shown:
                box = boxes[leftmost]
                middle = box.y + box.height / 2
                picture.box(prime_at, middle - 11, 26, 22, fill="#fff0b8")
                picture.text(prime_at + 13, middle + 4, str(leftmost), bold=True)
                picture.line([(prime_at + 26, middle), (box.x - 1, middle)], arrow=True, stroke=SOFT, dash=True, width=1)
        first = boxes[prime[max(level for level in range(len(prime)) if level in shown)]]
        picture.text(prime_at + 13, first.y + first.height / 2 - 18, "prime", size=10.5, fill=SOFT)
    return boxes


# ---- the pictures

def pages():
    picture = Picture(660, 244)
    _, tree = tree_of(("inner_split", 0))

    def anatomy(page, y, what, words):
        x, cell = 150, 62
        picture.text(20, y + 22, f"#{page.number}", size=18, anchor="start", bold=True)
        picture.text(20, y + 40, what, size=11, fill=SOFT, anchor="start")
        floor = "none" if page.floor is None else str(page.floor)
        parts = [("floor", floor, None, HEAD)]
        parts += [("", key_text(key), f"#{value}" if page.level else str(value), "white") for key, value in page.entries]
        parts += [("high key", key_text(page.high), None, HEAD), ("right link", f"#{page.right}", None, HEAD)]
        for name, upper, lower, fill in parts:
            wide = cell + (8 if name else 0)
            picture.box(x, y, wide, 46, fill=fill, stroke=LINE)
            picture.text(x + wide / 2, y + (18 if lower else 28), upper, bold=not lower)
            if lower:
                picture.text(x + wide / 2, y + 37, lower, fill=BLUE if page.level else INK)
            if name:
                picture.text(x + wide / 2, y - 6, name, size=11, fill=SOFT)
            x += wide
        picture.line([(x, y + 23), (x + 40, y + 23)], arrow=True)
        count = len(page.entries)
        left = 150 + cell + 8
        right = left + cell * count
        picture.line([(left + 2, y + 52), (left + 2, y + 58), (right - 2, y + 58), (right - 2, y + 52)], stroke=SOFT)
        picture.text((left + right) / 2, y + 74, words, size=11, fill=SOFT)
        picture.box(150, y, x - 150, 46, fill="none", width=1.6)

    anatomy(tree[3], 34, "an inner page, level 1", "separators, each with its child; the last one is the high key")
    anatomy(tree[2], 160, "a leaf, level 0", "keys, each with its record pointer")
    picture.save("pages.svg")


def tree():
    picture = Picture(980, 236)
    draw_tree(picture, ("inner_split", 0), 66, 30, gap=22, prime_at=14)
    picture.save("tree.svg")


def moving_right():
    picture = Picture(520, 132)
    boxes = draw_tree(picture, ("half_a_split", 8), 84, 38, gap=170, prime_at=14)
    left, right = boxes[1], boxes[2]
    picture.text((left.x + left.width + right.x) / 2, 28, "worker 1 looks for 5", size=11, fill=BLUE, bold=True)
    picture.text((left.x + left.width + right.x) / 2, 45, "3 < 5: move right", size=11, fill=BLUE)
    picture.line([(left.x + left.width - 14, 71), (left.x + left.width + 20, 94), (right.x - 20, 94), (right.x + 14, 72)], stroke=BLUE, width=2, arrow=True)
    picture.text((left.x + left.width + right.x) / 2, 114, "no latch is taken, and the latch of #1 is passed", size=11, fill=SOFT)
    picture.save("moving-right.svg")


def panel(picture, y, frame, words, width):
    picture.line([(10, y), (width - 10, y)], stroke="#d5d9dc", width=1)
    picture.text(14, y + 18, frame, anchor="start", bold=True)
    picture.text(88, y + 18, words, anchor="start", size=11, fill=SOFT)


def split():
    width = 560
    picture = Picture(width, 316)
    for at, frame, words in ((0, 5, "page #1 is full; its latch is held"), (1, 6, "the new page is written; nothing leads to it"),
                             (2, 7, "the old page is written: it ends at 3, and links to #2")):
        y = 4 + at * 104
        panel(picture, y, f"frame {frame}", words, width)
        draw_tree(picture, ("half_a_split", frame), 84, y + 40, gap=70, prime_at=14, unlinked=(2,) if frame == 6 else ())
    picture.save("split.svg")


def posting():
    width = 600
    picture = Picture(width, 378)
    for at, frame, words in ((0, 23, "60 is a debt: no entry of #8 leads to #11"), (1, 24, "(90, #3) has become (60, #3) and (90, #11)")):
        y = 4 + at * 188
        panel(picture, y, f"frame {frame}", words, width)
        draw_tree(picture, ("inner_split", frame), 84, y + 52, gap=44, prime_at=14, levels=(1, 2))
    picture.save("posting.svg")


def overtaking():
    width = 680
    picture = Picture(width, 552)
    for at, frame, words in ((0, 23, "#2 was split at 60, then at 46: two debts to #3"), (1, 28, "46 is posted first; a search for 71 goes by #5 to #4"),
                             (2, 36, "60 is posted: the same page as in the other order")):
        y = 4 + at * 182
        panel(picture, y, f"frame {frame}", words, width)
        draw_tree(picture, ("overtaking", frame), 84, y + 46, gap=36, prime_at=14)
    picture.save("overtaking.svg")


def root_growth():
    width = 570
    picture = Picture(width, 574)
    y = 4
    for frame, words, height in ((6, "#1 was the root, and is split; its latch is kept", 104), (30, "meanwhile #2 is split too; its worker waits for a level", 104),
                                 (33, "the new root has a name; 30 is paid", 186), (38, "43 is posted", 176)):
        panel(picture, y, f"frame {frame}", words, width)
        draw_tree(picture, ("root_grows", frame), 84, y + 48, gap=44, prime_at=14)
        y += height
    picture.save("root-growth.svg")


def debts():
    picture = Picture(760, 268)
    boxes = draw_tree(picture, ("root_grows", 32), 96, 34, gap=84, row=96, prime_at=14, unlinked=(4,))

    def note(x, y, words, to=None):
        for at, part in enumerate(words):
            picture.text(x, y + 14 * at, part, size=11, fill=INK if at == 0 else SOFT, bold=at == 0)
        if to:
            picture.line([(x, y - 13), to], stroke=SOFT, width=1, dash=True)

    one, two, three, root = boxes[1], boxes[2], boxes[3], boxes[4]
    under = one.y + one.height
    note(one.x + 12, under + 62, ["growing top", "worker 0 holds", "the latch of #1"], (one.x + 12, under + 18))
    note(one.x + one.width + 6, under + 62, ["debt 30", "owed by worker 0,", "with page #2"], (one.x + one.width - 16, under + 2))
    note(two.x + two.width - 10, under + 62, ["debt 43", "owed by worker 1,", "with page #3"], (two.x + two.width - 16, under + 2))
    note(three.middle(), under + 62, ["chain of level 0", "#1, #2, #3:", "floors rise"])
    note(root.x + root.width + 118, root.y + 8, ["unlinked page", "the new root of worker 0,", "which no prime block names"])
    picture.save("debts.svg")


def latches():
    width, left, step = 760, 120, 25
    picture = Picture(width, 220)

    def at(frame):
        return left + (frame - 3) * step

    picture.text(14, 40, "worker 1's step", size=11, fill=SOFT, anchor="start")
    for frame in range(3, 26):
        name = dict(INSERTION).get(frame)
        picture.text(at(frame) + step / 2, 22, str(frame), size=9.5, fill=SOFT)
        picture.text(at(frame) + step / 2, 40, name or "·", size=9.5, bold=bool(name))
    for row, (name, first, last) in enumerate((("latch of #4", 7, 12), ("latch of #3", 13, 21), ("latch of #8", 22, 25))):
        y = 62 + row * 30
        picture.text(14, y + 15, name, size=11, anchor="start", fill=RED)
        picture.line([(left, y + 11), (at(26), y + 11)], stroke="#e3e6e8", width=1)
        picture.box(at(first), y, (last - first + 1) * step, 22, fill="#f7dcd9", stroke=RED)
    for row, (name, first, last) in enumerate((("debt 80", 10, 16), ("debt 60", 16, 24))):
        y = 160 + row * 30
        picture.text(14, y + 15, name, size=11, anchor="start")
        picture.line([(left, y + 11), (at(26), y + 11)], stroke="#e3e6e8", width=1)
        picture.box(at(first) + step / 2, y, (last - first) * step, 22, fill=INK)
        picture.text((at(first) + at(last) + step) / 2, y + 15, "owed", size=11, fill="white")
    picture.text(at(5), 54, "down, no latch", size=9.5, fill=SOFT)
    picture.text(at(18) + step / 2, 54, "worker 0's turns", size=9.5, fill=SOFT)
    picture.save("latches.svg")


def deciding():
    width, left, step = 760, 170, 15.2
    picture = Picture(width, 234)

    def at(frame):
        return left + (frame - 0.5) * step

    dots = []
    for row, (what, worker, first, last, decides) in enumerate(OPERATIONS):
        y = 24 + row * 40
        picture.text(14, y + 15, what, anchor="start", bold=True)
        picture.text(92, y + 15, f"worker {worker}", size=11, fill=SOFT, anchor="start")
        picture.box(at(first) - step / 2, y, (last - first + 1) * step, 22, fill=HEAD, stroke=LINE, round=4)
        dots.append((at(decides), y + 11, decides))
    picture.line([(x, y) for x, y, _ in dots], stroke=BLUE, width=1.4, dash=True)
    for x, y, decides in dots:
        picture.dot(x, y, fill=BLUE)
        picture.line([(x, y + 11), (x, 196)], stroke="#d5d9dc", width=1)
        picture.text(x, 210, str(decides), size=11, fill=BLUE, bold=True)
    picture.line([(left, 196), (left + 37 * step + 12, 196)], arrow=True)
    picture.text(14, 210, "frame of the deciding step", size=11, fill=SOFT, anchor="start")
    picture.text(left + 37 * step / 2, 228, "in this order the plain map gives the same answers", size=11, fill=SOFT)
    picture.save("deciding.svg")


def row():
    picture = Picture(760, 232)
    words = [("word 0", "1"), ("word 1", "4"), ("word 2", "3"), ("word 3", "0"), ("...", ""), ("word 25", "46"), ("...", "")]
    x = 20
    for name, value in words:
        wide = 34 if name == "..." else 58
        picture.box(x, 30, wide, 26, fill="#fff0b8" if name[-1] in "0123" and name != "word 25" else "#f7dcd9" if name == "word 25" else "white", stroke=LINE)
        picture.text(x + wide / 2, 48, value or "...", bold=bool(value))
        if value:
            picture.text(x + wide / 2, 24, name + (": latch of #1" if name == "word 25" else ""), size=10.5, fill=SOFT)
        x += wide
    picture.text(20 + 58 * 2, 74, "page words: the row of each page's version", size=10.5, fill=SOFT)
    rows_at = x
    for number in range(1, 7):
        fill = "#dcebf9" if number == 3 else "white"
        picture.box(x, 30, 52, 26, fill=fill, stroke=LINE)
        picture.text(x + 26, 48, f"row {number}", size=11, bold=number == 3)
        x += 52
    picture.text(740, 74, "rows of 72 words", size=10.5, fill=SOFT, anchor="end")
    middle = 20 + 58 * 2 + 54
    target = rows_at + 2 * 52 + 26
    picture.line([(middle, 30), (middle, 10), (target, 10), (target, 29)], stroke=BLUE, arrow=True)
    picture.line([(rows_at + 2 * 52, 56), (20, 108), (20, 130)], stroke=BLUE, dash=True, width=1)
    picture.line([(rows_at + 3 * 52, 56), (740, 108), (740, 130)], stroke=BLUE, dash=True, width=1)
    cells = [("level", "0"), ("has a floor", "1"), ("floor", "3"), ("high key", "MAX"), ("right link", "0"), ("entries", "2"),
             ("key", "4"), ("pointer", "40"), ("key", "5"), ("pointer", "50"), ("", "0"), ("", "..."), ("", "0")]
    wide = 720 / len(cells)
    for at, (name, value) in enumerate(cells):
        picture.box(20 + at * wide, 130, wide, 34, fill=HEAD if at < 6 else "white", stroke=LINE)
        picture.text(20 + at * wide + wide / 2, 152, value, bold=True)
        picture.text(20 + at * wide + wide / 2, 180, name, size=9, fill=SOFT)
        number = "71" if at == 12 else "" if at == 11 else str(at)
        picture.text(20 + at * wide + wide / 2, 124, number, size=9.5, fill=SOFT)
    picture.box(20, 130, 720, 34, fill="none", stroke=BLUE, width=1.6)
    picture.text(380, 206, "row 3 is the present version of page #2: the keys 4 and 5. The head is words 0 to 5;", size=11, fill=SOFT)
    picture.text(380, 222, "then come 33 places of two words each, for entries and records. Words that are 0 aren't stored.", size=11, fill=SOFT)
    picture.save("row.svg")


# ---- lists of changes, and what has been seen of them

LIST_LEFT, CHANGE_WIDTH = 110, 92


def list_of_changes(picture, changes):
    picture.text(14, 46, "the list", anchor="start", bold=True)
    for at, (what, by) in enumerate(changes):
        left = LIST_LEFT + at * CHANGE_WIDTH
        picture.box(left, 22, CHANGE_WIDTH, 40, fill=HEAD)
        picture.text(left + CHANGE_WIDTH / 2, 39, what, bold=True)
        picture.text(left + CHANGE_WIDTH / 2, 55, by, size=10.5, fill=SOFT)
    end = LIST_LEFT + len(changes) * CHANGE_WIDTH
    picture.line([(end + 4, 42), (end + 40, 42)], arrow=True, stroke=SOFT)


def bracket(picture, y, name, count, words, stroke, own=None):
    """What somebody has seen: so many changes. A dot marks the own change at this place."""
    end = LIST_LEFT + count * CHANGE_WIDTH
    picture.text(14, y + 5, name, anchor="start", bold=True, fill=stroke)
    picture.line([(LIST_LEFT + 3, y - 8), (LIST_LEFT + 3, y + 1), (end - 3, y + 1), (end - 3, y - 8)], stroke=stroke, width=2)
    if own is not None:
        picture.dot(LIST_LEFT + own * CHANGE_WIDTH + CHANGE_WIDTH / 2, y + 1, radius=4, fill=stroke)
    picture.text(LIST_LEFT + 6, y + 17, words, size=11, fill=SOFT, anchor="start")


def prefixes():
    picture = Picture(640, 252)
    list_of_changes(picture, [("5 → 50", "by B"), ("7 → 70", "by C"), ("9 → 90", "by B"), ("5 is gone", "by B"), ("7 → 71", "by C")])
    bracket(picture, 88, "A has seen", 2, "glance at 5: 50", RED)
    bracket(picture, 134, "B has seen", 4, "glance at 5: none; glance at 7: 70", BLUE)
    picture.line([(14, 166), (626, 166)], stroke="#d5d9dc", width=1)
    picture.text(LIST_LEFT + 6, 184, "B tells A", size=12, anchor="start", bold=True)
    bracket(picture, 212, "A has seen", 4, "at least what B had seen, and nothing less than before", RED)
    picture.save("prefixes.svg")


def one_list():
    picture = Picture(640, 244)
    list_of_changes(picture, [("7 → 70", "by A"), ("9 → 90", "by B"), ("7 → 71", "by B"), ("9 is gone", "by A"), ("5 → 50", "by C")])
    bracket(picture, 88, "A, before", 3, "what A has seen when it deletes 9", RED)
    bracket(picture, 134, "A, then", 4, "answered: removed 90, since the list before says so; its change follows at once", RED, own=3)
    bracket(picture, 182, "B", 3, "B's replacement of 7 answered: replaced 70", BLUE, own=2)
    picture.text(LIST_LEFT + 6, 228, "After the list so far the map is 5 → 50, 7 → 71: of each key what its last change says.", size=11, fill=SOFT, anchor="start")
    picture.save("one-list.svg")


def fronts():
    picture = Picture(790, 352)
    left, wide, foot, high = 168, 172, 222, 28
    leaves = [("#1", "≤6", 2, "(2, 20)  (5, 50)"), ("#3", "≤12", 4, "(8, 80)  (11, 50)"), ("#2", "≤MAX", 6, "none")]
    changes = [("5 → 50", 0), ("14 → 140", 2), ("5 is gone", 0), ("11 → 50", 1), ("8 → 81", 1), ("14 is gone", 2)]
    end = left + wide * len(leaves)

    def at(count):
        return foot - count * high

    picture.text(14, 22, "the list grows upwards", size=11, fill=SOFT, anchor="start")
    for place, (what, leaf) in enumerate(changes):
        picture.box(34, at(place + 1), 110, high, fill=HEAD, stroke=LINE)
        picture.text(89, at(place) - 9, what, bold=True)
        x, y = left + wide * leaf + wide / 2, at(place) - high / 2
        picture.line([(144, y), (x - 8, y)], stroke="#d5d9dc", width=1)
        told = place < leaves[leaf][2]
        picture.dot(x, y, radius=5, fill=INK if told else LINE)
        if not told:
            picture.dot(x, y, radius=3.5, fill="white")
    for count, words in ((1, "seen before"), (6, "seen afterwards")):
        picture.line([(left, at(count)), (end, at(count))], stroke=BLUE, width=1.2, dash=True)
        picture.text(end + 4, at(count) + 4, words, size=10.5, fill=BLUE, anchor="start")
    stairs = []
    for place, (_, _, count, _) in enumerate(leaves):
        stairs += [(left + wide * place, at(count)), (left + wide * (place + 1), at(count))]
    picture.line(stairs, stroke=RED, width=2.4)
    picture.text(left + 6, at(2) - 6, "front of #1", size=11, fill=RED, anchor="start")
    picture.text(left + wide + 6, at(4) - 6, "of #3", size=11, fill=RED, anchor="start")
    picture.text(left + wide * 2 + 6, at(6) - 6, "of #2", size=11, fill=RED, anchor="start")
    for place, (number, bound, _, report) in enumerate(leaves):
        x = left + wide * place
        picture.box(x + 6, 240, wide - 26, 24, fill="white")
        picture.text(x + 24, 256, number, bold=True)
        picture.text(x + wide - 44, 256, bound, size=11, fill=SOFT)
        if place + 1 < len(leaves):
            picture.line([(x + wide - 20, 252), (x + wide + 5, 252)], arrow=True)
        picture.text(x + (wide - 14) / 2, 292, report)
    picture.text(14, 256, "the leaves", anchor="start", bold=True)
    picture.text(14, 292, "the report", anchor="start", bold=True)
    picture.text(14, 322, "At opening the map was 2 → 20, 8 → 80. A full dot is in the report, a hollow one came later than its leaf was read.", size=11, fill=SOFT, anchor="start")
    picture.text(14, 340, "The record 50 was moved from key 5 to key 11 between two reads, and so it is reported at both.", size=11, fill=SOFT, anchor="start")
    picture.save("fronts.svg")

def row_life():
    picture = Picture(820, 196)
    states = [("staged", "words are stored,", "where they differ"), ("named", "one page word names it;", "changes are appended"), ("retired", "no page word names it;", "somebody may read it"),
              ("waiting", "each place is", "looked at twice"), ("free", "nobody reads it", "")]
    steps = ["its number is stored in the page word", "a change swaps it out", "the wait begins", "each session is past"]
    wide, gap, left, top = 134, 30, 20, 58
    for place, (name, upper, lower) in enumerate(states):
        x = left + place * (wide + gap)
        picture.box(x, top, wide, 62, fill="#dcebf9" if name == "named" else "#f7dcd9" if name in ("retired", "waiting") else "white", round=4)
        picture.text(x + wide / 2, top + 20, name, bold=True)
        picture.text(x + wide / 2, top + 38, upper, size=10.5, fill=SOFT)
        picture.text(x + wide / 2, top + 53, lower, size=10.5, fill=SOFT)
        if place + 1 < len(states):
            picture.line([(x + wide + 2, top + 31), (x + wide + gap - 2, top + 31)], arrow=True)
            picture.text(x + wide + gap / 2, top - 10 - 16 * (place % 2), steps[place], size=10.5, fill=BLUE)
    first, last = left + wide / 2, left + 4 * (wide + gap) + wide / 2
    picture.line([(last, top + 62), (last, 150), (first, 150), (first, top + 64)], arrow=True)
    picture.text((first + last) / 2, 144, "an operation takes it before rows that the session drew", size=10.5, fill=BLUE)
    picture.text(left, 184, "A search announces itself before it reads and takes the announcement back after it. It waits for nobody, and reads each row once.", size=11, fill=SOFT, anchor="start")
    picture.save("row-life.svg")


# lines that go round what stands between: the column where they go down
BENT = {("blink_run", "blink_live"): 4.95}


def crates():
    picture = Picture(960, 740)
    for name, lowest, highest in BANDS:
        top, bottom = 24 + (16.1 - highest) * CRATE_ROW, 24 + (16.1 - lowest) * CRATE_ROW
        picture.box(8, top, 944, bottom - top, fill="#f6f7f8", stroke="#d5d9dc", width=1, round=4)
        picture.text(20, top + 18, name, size=12, fill=SOFT, anchor="start", italic=True)
    for name, others in crates_of_list().items():
        for other in others:
            start, end = crate_ends(name, other)
            if (name, other) in BENT:
                x, y = crate_at(name)
                down = 68 + BENT[(name, other)] * CRATE_STEP
                picture.line([(x + CRATE_WIDTH / 2, y), (down, y), (down, end[1])], stroke=LINE, width=1.1, arrow=True)
            else:
                picture.line([start, end], stroke=LINE, width=1.1, arrow=True)
    for name in CRATES:
        x, y = crate_at(name)
        program = name in ("index_main", "show_main", "blink_c")
        picture.box(x - CRATE_WIDTH / 2, y - CRATE_HEIGHT / 2, CRATE_WIDTH, CRATE_HEIGHT, fill="#fff0b8" if program else "white", round=3)
        picture.text(x, y + 4, name, size=11.5, bold=program)
        made = {"index_main": "blink", "show_main": "blink-show", "blink_c": "libblink"}.get(name)
        if made:
            picture.text(x, y - 18, made, size=11, fill=BLUE)
    picture.save("crates.svg")


def main():
    if sys.argv[1:] == ["check"]:
        sys.exit(1 if check() else 0)
    if sys.argv[1:] == ["crates"]:
        print(crates_as_text())
        return
    draw_all()
    for name, text in DRAWN.items():
        with open(os.path.join(HERE, name), "w", encoding="utf-8") as file:
            file.write(text)


if __name__ == "__main__":
    main()

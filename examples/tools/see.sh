#!/bin/sh
# Opens the pages of the replays in a browser without a window, 1280 by 800 and 400 by 800, and looks at every frame: nothing may be told
# on the console, the keys, the slider and the lines must step, no two boxes overlap, all text of a page stands in its box, each arrow
# ends at a box and crosses none, with keys shortened and as numbers, and each note is of a turn that there is and is read without
# scrolling, with the tree's beginning below it in the window. Then it makes the pictures in tour/pictures/, of a frame of each page, light and dark, smaller ones where there is python3. The file
# SUMS there tells of which pages they were made, and the check of documents compares it. Last the script prints one page into a file that it
# throws away.
#
#     see.sh [PAGE.html ..]     without a page, those below; of other pages no pictures are made
#     see.sh --look             looks at those below by both sizes, and makes nothing
#
# It needs Chromium: apt-get install --no-install-recommends chromium. The variable CHROMIUM names another program.
set -eu
cd "$(dirname "$0")/../tour"
chromium=${CHROMIUM:-chromium}
if ! command -v "$chromium" >/dev/null; then
    echo "there is no $chromium: apt-get install --no-install-recommends chromium" >&2
    exit 2
fi
work=$(mktemp -d)
trap 'rm -rf "$work"' EXIT

# The frame that pictures are made of.
frame_of() {
    case $1 in
    half_a_split) echo 8 ;;
    overtaking) echo 28 ;;
    root_grows) echo 32 ;;
    inner_split) echo 17 ;;
    esac
}

cat >"$work/look.html" <<'END_OF_LOOK'
<script>
"use strict";
(() => {
  const faults = [];
  window.addEventListener("error", (event) => faults.push(event.message));
  const fail = (text) => faults.push(document.getElementById("count").textContent + ": " + text);
  const all = (what) => [...document.querySelectorAll("#tree " + what)];
  const count = () => document.getElementById("count").textContent.split(" ")[0];
  const press = (key) => document.dispatchEvent(new KeyboardEvent("keydown", { key, cancelable: true }));

  function expect(what, wanted) {
    if (count() !== String(wanted)) fail(what + " leads to " + count() + " instead of " + wanted);
  }
  function check_steps(last) {
    expect("opening", 0);
    press("ArrowLeft"), expect("left at the first", 0);
    press("ArrowRight"), expect("right", Math.min(1, last));
    press("ArrowRight"), expect("right", Math.min(2, last));
    press("ArrowLeft"), expect("left", Math.min(1, last - 1));
    press("End"), expect("end", last);
    press("ArrowRight"), expect("right at the last", last);
    press("Home"), expect("home", 0);
    const slider = document.getElementById("slider");
    slider.value = last >> 1;
    slider.dispatchEvent(new Event("input"));
    expect("the slider", last >> 1);
    press("Home");
    document.querySelector("#lines [data-at='1']").click();
    expect("a line", 1);
    press("Home");
  }

  // The notes: those of turns that there are, each in the window and whole, and the keys that go from one to the next.
  function check_notes(last) {
    const { turns, byTurn } = view.notes;
    if (turns.some((turn) => !(turn >= 0 && turn <= last))) fail("a note of no turn");
    press("End");
    for (const turn of [...turns].reverse().filter((turn) => turn < last)) press("p"), expect("the note before", turn);
    press("Home");
    for (const turn of turns.filter((turn) => turn > 0)) press("n"), expect("the next note", turn), check_note(byTurn.get(turn));
    press("Home");
  }
  function check_note(text) {
    const note = document.getElementById("note");
    const box = note.getBoundingClientRect();
    if (note.textContent !== text) fail("another note");
    if (box.top < 0 || box.bottom > innerHeight || box.left < 0 || box.right > innerWidth) fail("a note isn't in the window");
    if (note.scrollHeight > note.clientHeight) fail("a note isn't whole");
    if (document.getElementById("tree").getBoundingClientRect().top > 0.6 * innerHeight) fail("the tree begins too far down");
  }

  const inside = (x, y, box, margin) => x > box.left + margin && x < box.right - margin && y > box.top + margin && y < box.bottom - margin;
  const meet = (one, other) => one.left < other.right && other.left < one.right && one.top < other.bottom && other.top < one.bottom;
  function check_boxes(boxes) {
    boxes.forEach((box, at) => {
      for (const other of boxes.slice(at + 1)) if (meet(box, other)) fail("two boxes overlap");
      for (const label of all(".level")) if (meet(label.getBoundingClientRect(), box)) fail("a level's name overlaps a box");
    });
    for (const group of all(".page")) {
      const box = group.querySelector(".box").getBoundingClientRect();
      const texts = [...group.querySelectorAll("text")].map((text) => text.getBoundingClientRect());
      texts.forEach((text, at) => {
        if (text.left < box.left || text.right > box.right || text.bottom > box.bottom + 1) fail("text leaves its box");
        const inner = { left: text.left + 1, right: text.right - 1, top: text.top + 3, bottom: text.bottom - 3 };
        for (const other of texts.slice(at + 1)) if (meet(inner, other)) fail("two texts overlap");
      });
    }
  }
  function check_arrows(boxes) {
    for (const path of all("path.way, path.link")) {
      const matrix = path.getScreenCTM();
      const length = path.getTotalLength();
      const at = (distance) => path.getPointAtLength(distance).matrixTransform(matrix);
      for (let distance = 0; distance <= length; distance += 3) {
        const point = at(distance);
        if (boxes.some((box) => inside(point.x, point.y, box, 1.5))) {
          fail("an arrow crosses a box");
          break;
        }
      }
      const end = at(length);
      const reaches = boxes.some((box) => inside(end.x, end.y, box, -14));
      if (!reaches && !path.classList.contains("short")) fail("an arrow ends nowhere");
    }
  }
  function check_frames(last) {
    const stride = Math.max(1, Math.floor(last / 300));
    for (let at = 0; at <= last; at += stride) {
      const slider = document.getElementById("slider");
      slider.value = at;
      slider.dispatchEvent(new Event("input"));
      const boxes = all(".page .box").map((box) => box.getBoundingClientRect());
      check_boxes(boxes);
      check_arrows(boxes);
    }
  }
  function time_steps() {
    press("Home");
    const began = performance.now();
    for (let at = 0; at < 30; at += 1) press("ArrowRight");
    const step = (performance.now() - began) / 30;
    const jump = performance.now();
    press("End");
    return "a step takes " + Math.round(step) + " ms, a jump to the end " + Math.round(performance.now() - jump) + " ms";
  }
  window.addEventListener("load", () => {
    const opened = Math.round(performance.now());
    const last = Number(document.getElementById("slider").max);
    check_steps(last);
    check_notes(last);
    check_frames(last);
    document.getElementById("short").click();
    check_frames(last);
    document.getElementById("short").click();
    const times = time_steps();
    const found = faults.length === 0 ? "in order" : faults.length + " faults, " + [...new Set(faults)].slice(0, 5).join("; ");
    document.title = found + "; " + (last + 1) + " frames, open after " + opened + " ms, " + times;
  });
})();
</script>
END_OF_LOOK

# browse SIZE light|dark [WORD ..]
browse() {
    size=$1
    case $2 in
    dark) scheme=0 ;;
    *) scheme=1 ;;
    esac
    shift 2
    timeout 300 "$chromium" --headless --no-sandbox --disable-gpu --hide-scrollbars --enable-logging=stderr --user-data-dir="$work/profile" \
        --window-size="$size" --blink-settings=preferredColorScheme=$scheme "$@" 2>"$work/log"
}

# What the console was told, if anything.
console() {
    if grep ':CONSOLE' "$work/log"; then
        failed=1
    fi
}

failed=0
# look PAGE SIZE
look() {
    sh ../tools/whole.sh "$1" | sed "/<meta charset/r $work/look.html" >"$work/page.html"
    found=$(browse "$2" light --dump-dom "file://$work/page.html" | grep -m 1 -o '<title>[^<]*' | sed 's/<title>//' || true)
    echo "$1 at $2: ${found:-the browser told nothing}"
    case $found in
    "in order"*) ;;
    *) failed=1 ;;
    esac
    console
}

# picture NAME FRAME SIZE light|dark ENDING
picture() {
    browse "$3" "$4" --screenshot="$work/picture.png" "file://$(pwd)/$1.html#frame=$2" >/dev/null
    console
    if [ ! -s "$work/picture.png" ]; then
        echo "pictures/$1-$2$5.png could not be made" >&2
        failed=1
        return
    fi
    mv "$work/picture.png" "pictures/$1-$2$5.png"
    if command -v python3 >/dev/null; then
        python3 ../tools/smaller.py "pictures/$1-$2$5.png"
    fi
}

# The two pictures of a frame.
pictures() {
    picture "$1" "$2" 1280,800 light ''
    picture "$1" "$2" 1280,800 dark -dark
}

if [ "${1-}" = --look ]; then
    for name in half_a_split overtaking root_grows inner_split; do
        look "$name.html" 1280,800
        look "$name.html" 400,800
    done
    exit $failed
fi
if [ $# -gt 0 ]; then
    for page in "$@"; do
        look "$page" 1280,800
    done
    exit $failed
fi
mkdir -p pictures
for name in half_a_split overtaking root_grows inner_split; do
    look "$name.html" 1280,800
    look "$name.html" 400,800
    pictures $name "$(frame_of $name)"
done
sha256sum half_a_split.html inner_split.html overtaking.html root_grows.html >pictures/SUMS

# The way in leads to pages that there are.
grep -o 'href="[^"]*"\|src="[^"]*"\|srcset="[^"]*"' index.html | sed 's/^[a-z]*="//; s/"$//' >"$work/files"
while read -r file; do
    if [ ! -s "$file" ]; then
        echo "index.html: there is no $file" >&2
        failed=1
    fi
done <"$work/files"
browse 1280,800 light --print-to-pdf="$work/half_a_split-8.pdf" --no-pdf-header-footer "file://$(pwd)/half_a_split.html#frame=8" \
    >/dev/null
console
exit $failed

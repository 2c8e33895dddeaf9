#!/bin/sh
# Makes the four pages of the guided tour anew: each is the page that `blink-show` writes for a script and its schedule, with the notes of
# NAME.notes put in. A line of notes is the number of a turn, a space, and what is told when the page comes to that turn. The pages share one
# style and one script, those of crates/show_main/page; whole.sh puts them in again.
#
#     tour.sh [WORD ..]     runs blink-show; the words, as --try, come before its options
#     tour.sh --share PAGE  prints a page with links to the style and the script in their place
#     tour.sh --notes       puts the notes as they are now into the pages that are there
set -eu
cd "$(dirname "$0")/../tour"
work=$(mktemp -d)
trap 'rm -rf "$work"' EXIT

# What stands for the notes in a page without any.
empty='<script type="text/plain" id="notes"></script>'

# Puts the notes, which are read first, into the page.
put_in() {
    if grep -n '[<&]' "$2" || grep -vn '^[0-9][0-9]* .' "$2"; then
        echo "$2: not a note" >&2
        exit 1
    fi
    awk -v empty="$empty" -v title="$3" -v next_page="$4" '
        FNR == NR { notes = notes $0 "\n"; next }
        $0 == empty { print "<script type=\"text/plain\" id=\"notes\">\ntitle " title "\nnext " next_page "\n" notes "</script>"; found = 1; next }
        { print }
        END { exit !found }
    ' "$2" "$1"
}

# Prints the page, with links in place of its style and its script, which have to be those of the folder.
share() {
    shared=../../crates/show_main/page
    awk -v style="$work/style" -v script="$work/script" -v shared="$shared" '
        $0 == "<style>" { print "<link rel=\"stylesheet\" href=\"" shared "/page.css\">"; out = style; next }
        $0 == "<script>" { print "<script src=\"" shared "/page.js\"></script>"; out = script; next }
        out != "" && ($0 == "</style>" || $0 == "</script>") { out = ""; next }
        out != "" { print >out; next }
        { print }
    ' "$1"
    cmp "$work/style" "$shared/page.css" >&2
    cmp "$work/script" "$shared/page.js" >&2
}

# make NAME WORKERS TITLE NEXT [WORD ..]: one page; NEXT is the next one's file and what leads there
make() {
    name=$1
    workers=$2
    title=$3
    next=$4
    shift 4
    if [ "${1-}" = --notes ]; then
        awk -v empty="$empty" '
            $0 == "<script type=\"text/plain\" id=\"notes\">" { noted = 1; print empty; next }
            noted { noted = $0 != "</script>"; next }
            { print }
        ' "$name.html" >"$work/shared.html"
    else
        ../../blink-show "$@" --workers "$workers" --fan 4 --schedule "$(cat "$name.schedule")" <"$name.csv" >"$work/page.html"
        share "$work/page.html" >"$work/shared.html"
    fi
    put_in "$work/shared.html" "$name.notes" "$title" "$next" >"$work/noted.html"
    mv "$work/noted.html" "$name.html"
}

if [ "${1-}" = --share ]; then
    share "$2"
    exit
fi

make half_a_split 2 '1 of 4: A split, seen half-way' 'overtaking.html Next page: Postings that overtake' "$@"
make overtaking 3 '2 of 4: Postings that overtake' 'root_grows.html Next page: The root that grows' "$@"
make root_grows 2 '3 of 4: The root that grows' 'inner_split.html Next page: A split, one level up' "$@"
make inner_split 2 '4 of 4: A split, one level up' 'index.html Back to the beginning' "$@"

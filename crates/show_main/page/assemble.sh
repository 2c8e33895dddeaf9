#!/bin/sh
# Puts page.html, page.css and page.js together into the two constants of src/page.rt: the page before a replay's frames, and behind them.
#
#     assemble.sh            writes src/page.rt
#     assemble.sh --check    compares; says nothing where src/page.rt is that of the three files. Where there is node, it reads the script
set -eu
cd "$(dirname "$0")"

# The page, in which a line `@@FILE@@` stands for that file, and the two ends of the text constants for the frames.
constants() {
    cat <<'END'
//! The page but for its data: the text before it, and the text behind it. `page/assemble.sh` makes this file of the three in `page/`.

/// The page up to its data: the style, and what stands on the page.
END
    printf 'pub const HEAD: &str = r##"'
    while IFS= read -r line; do
        case $line in
        '@@page.css@@') cat page.css ;;
        '@@page.js@@') cat page.js ;;
        '@@the frames@@')
            printf '"##;\n\n/// The page behind its data: what reads the data, draws the tree, and steps.\npub const TAIL: &str = r##"'
            ;;
        *) printf '%s\n' "$line" ;;
        esac
    done <page.html
    printf '"##;\n'
}

# What would end a text constant stands in none of the files.
if grep -n '"##' page.html page.css page.js; then
    echo "assemble.sh: a text constant would end there" >&2
    exit 1
fi
made=$(mktemp)
trap 'rm -f "$made"' EXIT
constants >"$made"
if [ "${1-}" != --check ]; then
    cat "$made" >../src/page.rt
elif ! cmp -s "$made" ../src/page.rt; then
    echo "crates/show_main/src/page.rt isn't what crates/show_main/page/assemble.sh makes of its files" >&2
    exit 1
fi
if [ "${1-}" = --check ] && command -v node >/dev/null; then
    node --check page.js
fi

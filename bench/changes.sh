#!/bin/sh
# Compares the calls of a map by two libraries, by turns: nine rounds, and in each both programs once, so that what disturbs one disturbs the
# other. It prints, for each kind of call, the medians of both in nanoseconds and their ratio.
#
#     bench/changes.sh OLD NEW     two folders, each with a libblink.a and, where the crate isn't today's, its rust/blink
set -eu
here=$(cd "$(dirname "$0")" && pwd)
work=$(mktemp -d)
trap 'rm -rf "$work"' EXIT

# program FOLDER OUT: builds the benchmark over that folder's library.
program() {
    crate=$here/../rust/blink
    if [ -d "$1/rust/blink" ]; then
        crate=$1/rust/blink
    fi
    cp -r "$here/beside" "$work/$2"
    rm -rf "$work/$2/target"
    sed -i "s|^blink = .*|blink = { path = \"$crate\" }|" "$work/$2/Cargo.toml"
    (cd "$work/$2" && BLINK_LIB_DIR=$1 RUSTFLAGS='-C target-cpu=x86-64-v2' CARGO_TARGET_DIR="$work/$2/target" \
        cargo build --offline --quiet --release)
}

program "$(cd "$1" && pwd)" old
program "$(cd "$2" && pwd)" new
for round in 1 2 3 4 5 6 7 8 9; do
    for side in old new; do
        "$work/$side/target/release/beside" changes | sed "s/^/$side	/" >>"$work/all"
    done
done
awk -F'\t' '
    function median(list,   parts, n, i, j, it) {
        n = split(list, parts, " ")
        for (i = 2; i <= n; i++) for (j = i; j > 1 && parts[j] + 0 < parts[j - 1] + 0; j--) { it = parts[j]; parts[j] = parts[j - 1]; parts[j - 1] = it }
        return parts[int((n + 1) / 2)]
    }
    { if (!($2 in seen)) { seen[$2] = 1; order[++kinds] = $2 } figures[$1, $2] = figures[$1, $2] " " $3 }
    END {
        for (i = 1; i <= kinds; i++) {
            old = median(figures["old", order[i]]); new = median(figures["new", order[i]])
            printf "%s: %s, %s; %.2f\n", order[i], old, new, new / old
        }
    }' "$work/all"

#!/bin/sh
# Compiles every program of bench/ and runs each once, small, so that none can stop compiling or answer wrongly unseen. Nothing is proved
# here: bench/inside.sh, bench/soak.sh and bench/refuse.sh prove what they run. It says nothing where all is well, but names what it left
# out: without cargo, cc or out/libblink.a the benchmark beside the peers; without g++, javac or a peer's library that peer; without a built
# `blink` the script.
#
#     bench.sh programs        the Rattle programs, which need nothing that is built
#     bench.sh beside [BLINK]  the benchmark beside the peers, and the script by this program
set -eu
top=$(cd "$(dirname "$0")/.." && pwd)
blink=${2-}
work=$(mktemp -d)
trap 'rm -rf "$work"' EXIT

run_programs() {
    # The Rattle programs are modules of one crate, whose tests call them, since each crate that is tried compiles all below it anew.
    PARTS='src specs proofs' sh "$top/bench/crate.sh" programs "$work" "$top/bench/inside" "$top/bench/soak" "$top/bench/refuse" "$top/bench/small"
    source=$work/crates/programs/src
    # Their `main` is compiled as another function: only a real one's runtime starts threads, so it takes one that can.
    host='impl std::env::Env + std::rt::Clock + std::sync::Wait + std::thread::Threads + AllocGlobal + Drop + Print + Sync'
    for folder in inside soak; do
        sed "s/^mod /use crate::/; /^#!\[/d; s/^fn main(rt: HostRuntime)/fn main(rt: $host)/" "$top/bench/$folder/main.rt.txt" \
            >"$source/${folder}_main.rt"
    done
    rm "$source/main.rt"
    {
        echo '//! All programs of bench/.'
        echo '#![tactic(auto)]'
        for file in "$source"/*.rt; do
            module=$(basename "$file" .rt)
            [ "$module" = lib ] || printf '#[cfg(test)]\nmod %s;\n' "$module"
        done
    } >"$work/lib.rt"
    mv "$work/lib.rt" "$source/lib.rt"
    if ! (cd "$work/crates/programs" && rt try --test) >"$work/told" 2>&1; then
        cat "$work/told" >&2
        exit 1
    fi
}

if [ "$1" = programs ]; then
    run_programs
    exit 0
fi
if ! command -v cargo >/dev/null 2>&1 || ! command -v cc >/dev/null 2>&1 || [ ! -e "$top/out/libblink.a" ]; then
    echo "$0: no cargo, no cc, or no out/libblink.a, so bench/beside was not tried" >&2
    exit 0
fi
beside() {
    sh "$top/bench/beside.sh" "$@"
}
beside small
if beside planted 2>"$work/told"; then
    echo "$0: bench/beside passes over a wrong sum" >&2
    exit 1
fi
if ! grep -q WRONG "$work/told"; then
    cat "$work/told" >&2
    exit 1
fi
if [ ! -x "$blink" ]; then
    echo "$0: no built blink, so its script was not tried" >&2
    exit 0
fi
script=$top/bench/beside/target/debug/beside
"$script" script make small >"$work/rows"
"$script" script run <"$work/rows" >"$work/expected"
for driver in locked live; do
    "$blink" run --driver $driver --workers 2 <"$work/rows" >"$work/printed"
    cmp "$work/printed" "$work/expected"
done

#!/bin/sh
# Measures the index and the map beside their peers: all workloads in one run. It needs cargo and out/libblink.a, which ./libblink builds;
# g++ with libtbb-dev and libcds-dev, and javac, for three of the peers, of which it names and leaves out what it can't build.
#
#     bench/beside.sh              prints the tables as Markdown; out/bench has them, all figures and the plot
#     bench/beside.sh --write      also puts the tables into bench/README.md, the plot and all figures beside it, and some ratios into
#                                  README.md
#     bench/beside.sh WORD ..      what the head of beside/src/main.rs names
set -eu
here=$(cd "$(dirname "$0")" && pwd)
write=
if [ "${1-}" = --write ]; then
    write=yes
    set -- "$here/README.md" "$here/../README.md" "$here/threads.svg" "$here/figures.tsv"
fi
# What only has to be right is built as fast as can be, and what is timed as well as can be.
case ${1-} in
small | planted) build=debug flags= ;;
*) build=release flags=--release ;;
esac
# The library is built for x86-64-v2, so the peers are too.
# shellcheck disable=SC2086
RUSTFLAGS='-C target-cpu=x86-64-v2' cargo build --offline --quiet $flags --manifest-path "$here/beside/Cargo.toml"
"$here/beside/target/$build/beside" "$@"
# Figures that documents quote of the tables.
[ -z "$write" ] || python3 "$here/../docs/figures.py" write

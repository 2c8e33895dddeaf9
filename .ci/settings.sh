#!/bin/sh
# Looks whether the built `blink` runs a script by the workers, the driver and the cut that its words name. Its answers are the same by all
# of them, so what it asks for is counted: a thread for each worker of each batch; a table's memory, 26 KB for each insertion, by the driver
# `live` alone; and there the lists of the workers' keys, which are others by another cut. It says nothing where all is well. Without a C
# compiler nothing is tried, and it says so.
set -eu
program=$1
if ! command -v cc >/dev/null 2>&1; then
    echo "$0: no C compiler, so nobody looked by which settings scripts are run" >&2
    exit 0
fi
work=$(mktemp -d)
trap 'rm -rf "$work"' EXIT
cc -shared -fPIC -O2 -o "$work/observe.so" "$(dirname "$0")/observe.c"
# Two batches. All keys of the first are even, and by two ranges all but one are the first worker's.
{ seq 0 2 98 | sed 's/.*/insert,&,1/' && printf 'insert,18446744073709551614,1\nscan,1,0\nfind,0,\n'; } >"$work/script"

# The threads, the requests and the bytes of a run with these words.
observe() {
    LD_PRELOAD=$work/observe.so timeout 60 "$program" run "$@" <"$work/script" 2>&1 >/dev/null | sed -n 's/^observed //p'
}

wrong() {
    echo "$program: $*" >&2
    exit 1
}

for driver in locked live; do
    for workers in 1 3 64; do
        # shellcheck disable=SC2046
        set -- $(observe --driver "$driver" --workers "$workers")
        [ "$1" = $((2 * workers)) ] || wrong "$driver, $workers workers: $1 threads for two batches"
        case $driver in
        locked) [ "$3" -lt 1000000 ] || wrong "locked, $workers workers: $3 bytes, as if by a table" ;;
        live) [ "$3" -gt 1000000 ] || wrong "live, $workers workers: $3 bytes, as if without a table" ;;
        esac
    done
done
# shellcheck disable=SC2046
set -- $(observe --driver live --workers 2 --cut residue) $(observe --driver live --workers 2 --cut ranges)
[ "$2" != "$5" ] || wrong "$2 requests for memory by either cut"

#!/bin/sh
# What `blink` and `blink-show` do: runs one of the programs. It is proved and built first where it isn't built yet, or where its sources
# are newer. With --try as the first word it runs the same sources at once, and proves nothing.
#
#     launch.sh CRATE NAME [--try] [WORD ..]
set -eu
top=$(cd "$(dirname "$0")/.." && pwd)
crate=$1
name=$2
shift 2
program=$top/crates/$crate/out/$crate
# The same under the name that its help tells.
named=$top/out/$name

# Runs the sources unproved, on standard input. It compiles them anew each time.
try() {
    if ! command -v rt >/dev/null; then
        echo "$name: to run its sources the toolchain's program \`rt\` has to be in PATH" >&2
        exit 1
    fi
    echo "$name: NOTHING OF THIS RUN IS PROVED: rt try compiles the sources with checks, in one to three minutes, and runs them" >&2
    echo "$name: its limits: 60 seconds and 1 MiB of output; lines after the program's own on standard error are rt try's" >&2
    cd "$top/crates/$crate" && exec rt try -- "$@"
}

if [ "${1-}" = --try ]; then
    shift
    try "$@"
fi

# A source that is newer than the program, if there is one.
newer_source() {
    find "$top"/crates.txt "$top"/crates/*/src "$top"/crates/*/specs "$top"/crates/*/proofs -type f -newer "$program" | head -n 1
}

if [ ! -x "$program" ] || [ -n "$(newer_source)" ]; then
    "$top/tools/build.sh" "$crate" "$name"
    touch "$program"
fi
if [ ! -x "$named" ] || [ -n "$(find "$program" -newer "$named")" ]; then
    mkdir -p "$top/out"
    cp "$program" "$named.new"
    mv "$named.new" "$named"
fi
exec "$named" "$@"

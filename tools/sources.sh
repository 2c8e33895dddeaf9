#!/bin/sh
# Prints a sum of all sources that the library is built of. ./libblink notes it in out/built.txt, and `make dist` compares.
set -eu
LC_ALL=C
export LC_ALL
cd "$(dirname "$0")/.."
{
    for it in crates/*/src crates/*/specs crates/*/proofs; do
        [ ! -d "$it" ] || find "$it" -type f
    done | sort
    printf '%s\n' crates.txt include/*.h include/version.c include/pause.c
} | tr '\n' '\0' | xargs -0 sha256sum | sha256sum | cut -d' ' -f1

#!/bin/sh
# Prints the version, which blink.h has as text. All others that name it say the same: the numbers in blink.h, blink.hpp's first number,
# rust/blink and blink.py. Where one doesn't, a line says so, and it exits 1. A part that isn't there, as in a release, is left out.
set -eu
top=$(cd "$(dirname "$0")/.." && pwd)
version=$(sed -n 's/^#define BLINK_VERSION "\(.*\)"$/\1/p' "$top/include/blink.h")
wrong=
is() {
    if [ "$2" != "$3" ]; then
        echo "$1: the version is '$2', and include/blink.h has $version" >&2
        wrong=yes
    fi
}
is "include/blink.h, by numbers" "$(sed -n 's/^#define BLINK_VERSION_[A-Z]* //p' "$top/include/blink.h" | tr '\n' . | sed 's/\.$//')" "$version"
is include/blink.hpp "$(sed -n 's/^#if BLINK_VERSION_MAJOR != //p' "$top/include/blink.hpp")" "${version%%.*}"
if [ -e "$top/rust/blink/Cargo.toml" ]; then
    is rust/blink/Cargo.toml "$(sed -n 's/^version = "\(.*\)"$/\1/p' "$top/rust/blink/Cargo.toml")" "$version"
fi
if [ -e "$top/python/blink.py" ]; then
    is python/blink.py "$(sed -n 's/^__version__ = "\(.*\)"$/\1/p' "$top/python/blink.py")" "$version"
fi
[ -z "$wrong" ]
echo "$version"

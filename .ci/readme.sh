#!/bin/sh
# Does what README.md says, as it stands there: its first C program is program.c and its first Rust program src/main.rs, in an empty folder
# beside a copy of README.md and a link to this one, `yamzerts`; there all its sh blocks run, one after another, in one shell. It is for a
# library that is built. It says nothing where all is well, and names what it left out: without cargo or pkg-config the lines that call it.
set -eu
top=$(cd "$(dirname "$0")/.." && pwd)
work=$(mktemp -d)
trap 'rm -rf "$work"' EXIT
mkdir -p "$work/empty/src"
cd "$work/empty"
cp "$top/README.md" ..
ln -s "$top" yamzerts

# The blocks of a language; or its first one alone.
blocks() {
    awk -v fence="\`\`\`$1" -v most="$2" '$0 == fence { on = 1; n++; next } /^```/ { on = 0 } on && (!most || n <= most)' ../README.md
}

blocks c 1 >program.c
blocks rust 1 >src/main.rs
blocks sh 0 >../lines
for it in cargo pkg-config; do
    if ! command -v "$it" >/dev/null 2>&1; then
        echo "$0: no $it, so what needs it in README.md wasn't tried" >&2
        grep -v "$it" ../lines >../fewer || true
        mv ../fewer ../lines
    fi
done
if [ ! -s program.c ] || [ ! -s src/main.rs ] || [ ! -s ../lines ]; then
    echo "$0: README.md has no C program, no Rust program, or no sh block" >&2
    exit 1
fi
export CARGO_TARGET_DIR="$work/cargo" CARGO_NET_OFFLINE=true
if ! sh -eu ../lines >../told 2>&1 </dev/null; then
    cat ../told >&2
    echo "$0: README.md's lines failed" >&2
    exit 1
fi

#!/bin/sh
# Runs what links the library as its users do, over the libraries that the gate has proved: what looks at it as it is shipped, README.md's
# lines, the C tests, the example programs in C, C++, Python and Rust, the table of SQLite, and rust/blink with its tests. The tests of
# memory and of threads by valgrind are left to `./libblink --test`. It says nothing where all is well. Without a C compiler, or another
# tool, what needs it isn't run, and it says so.
set -eu
top=$(cd "$(dirname "$0")/.." && pwd)
cc=${CC:-cc}
work=$(mktemp -d)
trap 'rm -rf "$work"' EXIT

# Runs a command that has to end well. What it writes is shown only where it doesn't.
ends_well() {
    if ! timeout 900 "$@" >"$work/told" 2>&1; then
        cat "$work/told" >&2
        echo "$0: failed: $*" >&2
        exit 1
    fi
}

# Runs a program whose output has to end with this line.
ends_with() {
    line=$1
    shift
    ends_well "$@"
    if [ "$(tail -n 1 "$work/told")" != "$line" ]; then
        echo "$0: $*: '$(tail -n 1 "$work/told")' in place of '$line'" >&2
        exit 1
    fi
}

if ! command -v "$cc" >/dev/null 2>&1; then
    echo "$0: no C compiler, so the library wasn't linked" >&2
    exit 0
fi
printf 'The cat sees the dog, the dog sees a cat.\n' >"$work/text"

ends_well "$top/libblink" --after-ci
sh "$top/.ci/shipped.sh"
sh "$top/.ci/readme.sh"
sh "$top/.ci/threads.sh"
ends_well sh "$top/crates/blink_c/link/test.sh" --quick
ends_well sh "$top/include/install.sh" "" "$work/installed"
for program in word_count csv_index session_cache object_cache keys; do
    ends_well "$cc" -std=c11 -O2 -pthread -I "$work/installed/include" "$top/examples/c/$program.c" "$work/installed/lib/libblink.a" \
        -o "$work/$program"
done
ends_with '10 words, 5 different, "the" 3 times' "$work/word_count" "$work/text"
ends_with '5: insert,5,50' "$work/csv_index" "$top/examples/first.csv" 5
ends_with '200000 requests: each login has ended, or is in the cache' "$work/session_cache"
ends_well "$work/object_cache"
ends_with "scores: -3.25 -0 1e-09 0.5 12" "$work/keys"

if command -v "${CXX:-c++}" >/dev/null 2>&1; then
    ends_well "${CXX:-c++}" -std=c++17 -O2 -Wall -Wextra -Werror -pedantic -pthread -I "$work/installed/include" \
        "$top/examples/cpp/all_calls.cpp" "$work/installed/lib/libblink.a" -o "$work/all_calls"
    ends_with 'all calls are as expected' "$work/all_calls"
else
    echo "$0: no C++ compiler, so blink.hpp wasn't tried" >&2
fi
if command -v python3 >/dev/null 2>&1; then
    ends_with 'all calls are as expected' env BLINK_LIB_DIR="$work/installed/lib" PYTHONDONTWRITEBYTECODE=1 \
        python3 "$top/examples/python/all_calls.py" "$work/installed/include"
    ends_with '10 words, the longest of 4' env BLINK_LIB_DIR="$work/installed/lib" PYTHONDONTWRITEBYTECODE=1 \
        python3 "$top/examples/python/lengths.py" "$work/text"
    ends_well env BLINK_LIB_DIR="$work/installed/lib" python3 "$top/.ci/stub.py"
    if command -v mypy >/dev/null 2>&1; then
        ends_well env MYPYPATH="$top/python" mypy --strict --cache-dir "$work/mypy" "$top/python/blink.pyi" "$top/examples/python/lengths.py"
    else
        echo "$0: no mypy, so python/blink.pyi was compared with the module alone" >&2
    fi
else
    echo "$0: no Python, so python/blink.py wasn't tried" >&2
fi
sh "$top/.ci/sqlite.sh"

if ! command -v cargo >/dev/null 2>&1; then
    echo "$0: no cargo, so rust/blink wasn't tried" >&2
    exit 0
fi
export CARGO_TARGET_DIR="$work/cargo" CARGO_NET_OFFLINE=true
sh "$top/.ci/crate.sh"
ends_well cargo test --quiet --manifest-path "$top/rust/blink/Cargo.toml"
ends_with "    1 a" cargo run --quiet --manifest-path "$top/examples/rust/Cargo.toml" -- "$work/text"
ends_with '200000 requests: each login has ended, or is in the cache' \
    cargo run --quiet --manifest-path "$top/examples/rust/Cargo.toml" --bin session_cache
ends_with 'Some(2) None' cargo run --quiet --manifest-path "$top/examples/rust/Cargo.toml" --bin keys

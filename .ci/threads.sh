#!/bin/sh
# Runs examples/c/records.c, whose threads read what others wrote before they stored its address: as it is, and by ThreadSanitizer, which has
# to be silent, by what blink_tsan.h tells it, and has to see the race that the word `planted` makes. It is for a library that is built. It
# says nothing where all is well; without that sanitizer it says so.
set -eu
top=$(cd "$(dirname "$0")/.." && pwd)
cc=${CC:-cc}
work=$(mktemp -d)
trap 'rm -rf "$work"' EXIT

wrong() {
    cat "$work/told" >&2
    echo "$0: $*" >&2
    exit 1
}
compiles() {
    "$cc" -std=c11 -O1 -g -Wall -Wextra -Werror -pthread -I "$top/include" "$top/examples/c/records.c" "$top/out/libblink.a" "$@" >"$work/told" 2>&1 ||
        wrong "examples/c/records.c doesn't compile"
}
runs() {
    timeout 300 "$@" >"$work/told" 2>&1 && [ "$(tail -n 1 "$work/told")" = 'each offer was whole' ]
}

compiles -o "$work/records"
runs "$work/records" || wrong "examples/c/records.c failed"
echo 'int main(void) { return 0; }' >"$work/none.c"
if ! "$cc" -fsanitize=thread "$work/none.c" -o "$work/none" 2>"$work/told" || ! "$work/none" 2>"$work/told"; then
    echo "$0: no ThreadSanitizer, so blink_tsan.h wasn't tried" >&2
    exit 0
fi
compiles -fsanitize=thread -o "$work/watched"
runs "$work/watched" || wrong "ThreadSanitizer isn't silent"
if runs "$work/watched" planted || ! grep -q 'data race' "$work/told"; then
    wrong "ThreadSanitizer doesn't see the planted race"
fi

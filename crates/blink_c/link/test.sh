#!/bin/sh
# Links test.c with out/libblink.a and runs it; then a program with the shared object; then one of the examples under AddressSanitizer, which
# has to find what it frees too early; and test.c under valgrind; each where the tool is there.
#
#     test.sh            all of this
#     test.sh --quick    the archive alone, and no valgrind
set -eu
here=$(cd "$(dirname "$0")" && pwd)
top=$(cd "$here/../../.." && pwd)
work=$(mktemp -d)
trap 'rm -rf "$work"' EXIT
${CC:-cc} -std=c11 -O2 -Wall -Wextra -pthread -I "$top/include" "$here/test.c" "$top/out/libblink.a" \
    -Wl,--wrap=malloc,--wrap=realloc -o "$work/test"
"$work/test"
if [ "${1-}" = --quick ]; then
    exit 0
fi
# The shared object; .ci/shipped.sh links as blink.pc says.
${CC:-cc} -std=c11 -I "$top/include" "$top/examples/c/csv_index.c" -L "$top/out" -lblink -Wl,-rpath,"$top/out" -o "$work/csv_index"
[ "$("$work/csv_index" "$top/examples/first.csv" 5 | tail -n 1)" = "5: insert,5,50" ]
# Objects that threads take out of a map and free, once nobody can read them; and at once, which is refused.
if echo 'int main(void) { return 0; }' | ${CC:-cc} -fsanitize=address -x c - -o "$work/none" 2>/dev/null && "$work/none"; then
    for early in "" -DTOO_EARLY; do
        # shellcheck disable=SC2086
        ${CC:-cc} -std=c11 -g -O1 -Wall -Wextra -pthread -fsanitize=address $early -I "$top/include" "$top/examples/c/object_cache.c" \
            "$top/out/libblink.a" -o "$work/object_cache$early"
    done
    "$work/object_cache"
    # A run may meet no freed object, and may hang where one thread ends the program while another reports.
    runs=0
    while ! grep -q 'heap-use-after-free' "$work/early" 2>/dev/null; do
        runs=$((runs + 1))
        if [ "$runs" -gt 20 ]; then
            exit 1
        fi
        timeout 20 "$work/object_cache-DTOO_EARLY" >/dev/null 2>"$work/early" || true
    done
fi
if command -v valgrind >/dev/null; then
    valgrind -q --leak-check=full --error-exitcode=9 "$work/test"
    valgrind -q --tool=helgrind --error-exitcode=9 "$work/test" --locks
fi

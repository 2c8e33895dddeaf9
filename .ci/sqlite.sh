#!/bin/sh
# Builds the virtual table of examples/sqlite, runs random SQL on it and on a rowid table, by one connection and by four that share a map, and
# looks whether the benchmark and the `sqlite3` shell run with it. It is for a library that is built. It says nothing where all is well, and names what it left out: without SQLite's
# headers all of it, without the shell what needs that.
#
#     sqlite.sh [STATEMENTS [SEED]]
set -eu
top=$(cd "$(dirname "$0")/.." && pwd)
work=$(mktemp -d)
trap 'rm -rf "$work"' EXIT

# Runs a command whose output has to end with this line.
ends_with() {
    line=$1
    shift
    if ! (cd "$work" && timeout 600 "$@") >"$work/told" 2>&1 || [ "$(tail -n 1 "$work/told")" != "$line" ]; then
        cat "$work/told" >&2
        echo "$0: failed, or no '$line': $*" >&2
        exit 1
    fi
}

printf '#include <sqlite3ext.h>\nint main(void) { return 0; }\n' >"$work/there.c"
if ! "${CC:-cc}" "$work/there.c" -lsqlite3 -o "$work/there" >/dev/null 2>&1; then
    echo "$0: no libsqlite3-dev, so examples/sqlite wasn't tried" >&2
    exit 0
fi
statements=${1:-4000}
ends_with built sh -c 'make -s -C "$1" OUT="$2" CFLAGS="-O2 -Werror" "$2/blink.so" "$2/random_sql" "$2/bench" && echo built' - \
    "$top/examples/sqlite" "$work"
ends_with "$statements statements: each as of a rowid table" ./random_sql "$statements" "${2:-1}"
ends_with counted sh -c './bench 1000 1 | grep -c "^An\{0,1\} \|^The " | sed "s/^8$/counted/"'
if command -v sqlite3 >/dev/null 2>&1; then
    ends_with '1|10' sqlite3 :memory: '.load ./blink' 'CREATE VIRTUAL TABLE t USING blink' 'INSERT INTO t VALUES (1, 10), (5, 50)' \
        'SELECT * FROM t ORDER BY key DESC'
else
    echo "$0: no sqlite3, so the shell wasn't tried" >&2
fi

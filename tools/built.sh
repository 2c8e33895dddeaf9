#!/bin/sh
# Looks whether the library in out/ is what ./libblink built, which proved it, of these sources, and has their version, before it is packed. It says
# nothing where it is so; else it says what isn't, and exits 1.
#
#     built.sh NAME  NAME is what the line begins with
set -eu
LC_ALL=C
export LC_ALL
top=$(cd "$(dirname "$0")/.." && pwd)
version=$(sh "$top/include/version.sh")
built=$top/out/built.txt
name=$1
fail() {
    echo "$name: $*: run ./libblink" >&2
    exit 1
}

[ -e "$top/out/libblink.a" ] && [ -e "$top/out/libblink.so.$version" ] || fail "out/ has no library of version $version"
(cd "$top/out" && sed '1,2d' "$built" | sha256sum --check --status --strict) 2>/dev/null || fail "./libblink didn't build the library in out/"
[ "$(sed -n 's/^sources: //p' "$built")" = "$(sh "$top/tools/sources.sh")" ] || fail "the library in out/ is of other sources"

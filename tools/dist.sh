#!/bin/sh
# Makes out/dist/blink-VERSION-linux-x86_64.tar.gz of the library in out/: what include/install.sh installs, the crate, a wheel for Python, the
# example programs, the documents for users, PROOF.txt, and SHA256SUMS. Its README.md is tools/release.txt. Of the same sources and library it
# has the same bytes: names are sorted, owners and modes are fixed, and times are that of SOURCE_DATE_EPOCH, or of the last commit without it.
#
# It is made beside its place, and takes it in the end. So where a file can't be written, or the library doesn't fit the sources, an archive
# that was there stays, and nothing else is left.
set -eu
LC_ALL=C
export LC_ALL
umask 022
top=$(cd "$(dirname "$0")/.." && pwd)
version=$(sh "$top/include/version.sh")
name=blink-$version-linux-x86_64
folder=$top/out/dist

fail() {
    echo "dist: $*" >&2
    exit 1
}

commit=$(git -C "$top" rev-parse HEAD 2>/dev/null) || commit=
if [ -z "${SOURCE_DATE_EPOCH-}" ]; then
    [ -n "$commit" ] || fail "SOURCE_DATE_EPOCH has to name a time, since this is no clone of the repository"
    SOURCE_DATE_EPOCH=$(git -C "$top" log -1 --format=%ct)
fi
export SOURCE_DATE_EPOCH

sh "$top/tools/built.sh" dist
built=$top/out/built.txt
shared=$top/out/libblink.so.$version
mkdir -p "$folder"
work=$(mktemp -d "$folder/.new.XXXXXX")
trap 'rm -rf "$work"' EXIT
trap 'exit 130' HUP INT TERM
stage=$work/$name
mkdir "$stage"
sh "$top/include/install.sh" "" "$stage" >"$work/told" 2>&1 || { cat "$work/told" >&2; fail "it could not be installed"; }

# The files of folders: those that git knows, or without it those of sources.
files() {
    if [ -n "$commit" ]; then
        git -C "$top" ls-files -- "$@"
    else
        (cd "$top" && find "$@" \( -name target -o -name out -o -name __pycache__ \) -prune -o -type f \
            \( -name '*.[ch]' -o -name '*.cpp' -o -name '*.py' -o -name '*.rs' -o -name '*.toml' -o -name Makefile -o -name .gitignore \) -print)
    fi
}
copy() {
    while read -r it; do
        mkdir -p "$stage/$(dirname "$it")"
        cp "$top/$it" "$stage/$it"
    done
}
{
    files rust/blink examples/c examples/cpp examples/python examples/rust examples/sqlite
    echo examples/first.csv
    for it in GUIDE CHOOSING FULL KEYS FORMATS PROMISES BELIEVE GLOSSARY; do
        [ ! -e "$top/docs/$it.md" ] || echo "docs/$it.md"
    done
    echo SECURITY.md
    echo CHANGELOG.md
} >"$work/list"
copy <"$work/list"
mkdir "$stage/python"
python3 "$top/tools/wheel.py" "$version" "$shared" "$stage/python" >"$work/wheel"
sed "s/@version@/$version/" "$top/tools/release.txt" >"$stage/README.md"

# PROOF.txt. out/gate.txt has the commit for which the gate passed here, and its last line.
{
    echo "What proof this release rests on"
    echo
    echo "Version:   $version"
    if [ -z "$commit" ]; then
        echo "Commit:    not known: it was made outside a clone of the repository"
    elif [ -n "$(git -C "$top" status --porcelain)" ]; then
        echo "Commit:    $commit, and changes that aren't committed"
    else
        echo "Commit:    $commit"
    fi
    sed -n 's/^sources: /Sources:   /p; s/^toolchain: /Toolchain: /p' "$built"
    if [ -n "$commit" ] && [ "$(sed -n 1p "$top/out/gate.txt" 2>/dev/null)" = "$commit" ]; then
        echo "Gate:      $(sed -n 2p "$top/out/gate.txt")"
    else
        echo "Gate:      not run where this release was made, for this commit"
    fi
    (cd "$stage" && sha256sum lib/libblink.a "lib/libblink.so.$version") | sed 's/^/SHA-256:   /'
    cat <<'TEXT'

./libblink built these two files of these sources, whose sum tools/sources.sh prints, and proved them first: every function of crates/blink_c
and of the crates below it, by this toolchain. The gate proves all crates anew, and tries the tests, the programs and the wrong bodies. What it
said last stands above, if it was run.

docs/PROMISES.md has each call by its proved clauses, and docs/BELIEVE.md what has to be believed. Not proved, but tested, are the inline
functions of blink.h, blink.hpp, the Rust crate and blink.py.
TEXT
} >"$stage/PROOF.txt"

# Links of the documents to what isn't in a release become words. README.md has none.
python3 - "$stage" <<'END'
import pathlib
import re
import sys

top = pathlib.Path(sys.argv[1])
for page in sorted(top.rglob("*.md")):
    def linked(found):
        target = found[2].split("#")[0]
        if "://" in target or not target or (page.parent / target).exists():
            return found[0]
        if page == top / "README.md":
            sys.exit(f"dist: tools/release.txt names {target}, which isn't in a release")
        return found[1]
    page.write_text(re.sub(r"\[([^][]*)\]\(([^() ]*)\)", linked, page.read_text()))
END

(cd "$stage" && find . -type f ! -name SHA256SUMS | sed 's|^\./||' | sort | xargs sha256sum >"$work/sums" && mv "$work/sums" SHA256SUMS)
tar --sort=name --format=gnu --owner=0 --group=0 --numeric-owner --mode=u+rwX,go=rX --mtime="@$SOURCE_DATE_EPOCH" -C "$work" -cf "$work/tar" "$name"
gzip -n -9 <"$work/tar" >"$work/gz"
mv -fT "$work/gz" "$folder/$name.tar.gz"
echo "dist: out/dist/$name.tar.gz, $(sha256sum <"$folder/$name.tar.gz" | cut -d' ' -f1)" >&2

#!/bin/sh
# Makes a crate of the programs in some folders, beside copies of the crates of the repository that it stands on:
#
#     crate.sh NAME COPY FOLDER ..
#
# COPY/crates/NAME gets each FILE.rt.txt of the folders as src/FILE.rt. What it stands on is what these files name: each crate of
# crates.txt and each library of the kit. COPY gets these crates, those that they stand on, and their lines of crates.txt. With PARTS in the
# environment, as `src specs proofs`, it gets these folders of each alone; else all, so that what checks kept in out/ goes with them.
set -eu
top=$(cd "$(dirname "$0")/.." && pwd)
kit=$(dirname "$(rt doc)")
name=$1
copy=$2
shift 2

mkdir -p "$copy/crates/$name/src"
cp "$top/HANDLES" "$copy/"
for folder; do
    for file in "$folder"/*.rt.txt; do
        cp "$file" "$copy/crates/$name/src/$(basename "$file" .txt)"
    done
done

# What a crate's line of crates.txt names.
named() {
    sed -n "s/^$1\( staticlib\)\{0,1\}: *//p" "$top/crates.txt"
}

# The words before `::`, and after `Rattle.`, that are crates or libraries.
grep -hoE '\b[a-z_0-9]+::|\bRattle\.[a-z_0-9]+' "$copy/crates/$name"/src/*.rt | sed 's/::$//; s/^Rattle\.//' | sort -u | while read -r it; do
    if [ "$it" != std ] && { grep -q "^$it[ :]" "$top/crates.txt" || [ -e "$kit/rlibs/$it.rlib" ]; }; then
        echo "$it"
    fi
done >"$copy/stands_on"
echo "$name: $(tr '\n' ' ' <"$copy/stands_on")" >"$copy/crates.txt"

# Each crate below, once.
left=$(cat "$copy/stands_on")
while [ -n "$left" ]; do
    next=
    for it in $left; do
        if grep -q "^$it[ :]" "$top/crates.txt" && ! grep -q "^$it[ :]" "$copy/crates.txt"; then
            grep "^$it[ :]" "$top/crates.txt" >>"$copy/crates.txt"
            next="$next $(named "$it")"
            if [ -z "${PARTS-}" ]; then
                cp -R "$top/crates/$it" "$copy/crates/"
                continue
            fi
            mkdir "$copy/crates/$it"
            for part in $PARTS; do
                [ ! -d "$top/crates/$it/$part" ] || cp -R "$top/crates/$it/$part" "$copy/crates/$it/"
            done
        fi
    done
    left=$next
done
rm "$copy/stands_on"

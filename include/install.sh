#!/bin/sh
# Installs what ./libblink has built in a folder: the headers into include; the archive, and the shared library with its two links, into lib,
# and the archive's name alone into lib/blink-static; blink.pc into lib/pkgconfig; what CMake's find_package(blink) reads into lib/cmake/blink;
# and python/blink.py with its types into share/blink. No file names the prefix, so the folder may be moved. Each file is copied beside its
# place first, and all take their places in the end. So where one can't be written, none is changed, and no new folder is left. `make dist`
# and `make deb` take their files from here too.
#
#     install.sh DESTDIR PREFIX [LIBDIR]              PREFIX is where programs find them, and DESTDIR, which may be empty, stands before it;
#                                                     LIBDIR is another name for lib, as lib64 or lib/x86_64-linux-gnu
#     install.sh --uninstall DESTDIR PREFIX [LIBDIR]  takes these files away, and their folders and PREFIX where nothing else is in them
set -eu
top=$(cd "$(dirname "$0")/.." && pwd)
uninstall=
if [ "$1" = --uninstall ]; then
    uninstall=yes
    shift
fi
prefix=$(realpath -ms -- "$2")
root=$1$prefix
lib=${3:-lib}
case /$lib/ in
*//* | */../* | */./* | *[!A-Za-z0-9/._-]*)
    echo "install: LIBDIR is a path below the prefix, of letters, digits and ._-, and is '$lib'" >&2
    exit 1
    ;;
esac
# From lib back to the prefix.
up=$(echo "$lib" | sed 's|[^/][^/]*|..|g')
version=$(sh "$top/include/version.sh")
headers="blink.h blink_bindings.h blink.hpp blink_tsan.h"
modules="blink.py blink.pyi"
shared=libblink.so.$version
soname=libblink.so.${version%%.*}

if [ -n "$uninstall" ]; then
    for it in $headers; do
        rm -f "$root/include/$it"
    done
    for it in libblink.a "$shared" "$soname" libblink.so blink-static/libblink.a pkgconfig/blink.pc cmake/blink/blinkConfig.cmake \
        cmake/blink/blinkConfigVersion.cmake; do
        rm -f "$root/$lib/$it"
    done
    for it in $modules; do
        rm -f "$root/share/blink/$it"
    done
    for it in "/$lib/pkgconfig" "/$lib/blink-static" "/$lib/cmake/blink" "/$lib/cmake" "/$lib" "/${lib%%/*}" /include /share/blink /share ''; do
        rmdir "$root$it" 2>/dev/null || true
    done
    exit 0
fi

work=$(mktemp -d)
placed=
: >"$work/made"
undo() {
    for it in $placed; do
        rm -f "$root/$it.new"
    done
    while read -r it; do
        rmdir "$it"
    done <"$work/made"
    rm -rf "$work"
}
trap undo EXIT

# Makes a folder, and those above it; what is made is noted, the last one first.
folder() {
    if [ ! -d "$1" ]; then
        folder "$(dirname "$1")"
        mkdir "$1"
        { echo "$1" && cat "$work/made"; } >"$work/made.new"
        mv "$work/made.new" "$work/made"
    fi
}
# Notes a file, whose place must not be a folder's.
note() {
    if [ -d "$root/$1" ] && [ ! -L "$root/$1" ]; then
        echo "install: $root/$1 is a folder" >&2
        exit 1
    fi
    placed="$placed $1"
}
place() {
    note "$2"
    install -m "$3" "$1" "$root/$2.new"
}
link() {
    note "$2"
    ln -sfn "$1" "$root/$2.new"
}

for it in include "$lib" "$lib/pkgconfig" "$lib/blink-static" "$lib/cmake/blink" share/blink; do
    folder "$root/$it"
done
for it in $headers; do
    place "$top/include/$it" "include/$it" 644
done
place "$top/out/libblink.a" "$lib/libblink.a" 644
place "$top/out/$shared" "$lib/$shared" 755
link "$shared" "$lib/$soname"
link "$soname" "$lib/libblink.so"
link ../libblink.a "$lib/blink-static/libblink.a"
sh "$top/include/pc.sh" "\${pcfiledir}/../$up" "$lib" >"$work/pc"
place "$work/pc" "$lib/pkgconfig/blink.pc" 644
for it in blinkConfig blinkConfigVersion; do
    sed "s/@version@/$version/; s/@major@/${version%%.*}/; s|@up@|$up|" "$top/include/$it.cmake.in" >"$work/$it"
    place "$work/$it" "$lib/cmake/blink/$it.cmake" 644
done
for it in $modules; do
    place "$top/python/$it" "share/blink/$it" 644
done
for it in $placed; do
    mv -fT "$root/$it.new" "$root/$it"
done
: >"$work/made"
echo "install:$placed in $root" >&2
placed=

#!/bin/sh
# Makes Debian packages of the library in out/, in out/deb: libblink0 has libblink.so.0; libblink-dev has the headers, the archive, blink.pc, and
# what CMake reads; python3-blink has the module with its types. Their files are those of include/install.sh. It needs dpkg-deb and
# dpkg-shlibdeps (dpkg-dev). DEBFULLNAME and DEBEMAIL name the maintainer. Of the same sources and library the packages have the same bytes, with
# the time of SOURCE_DATE_EPOCH, or of the last commit without it.
#
# They are made beside their place, and take it in the end, so where one can't be made those that were there stay.
set -eu
LC_ALL=C
export LC_ALL
umask 022
top=$(cd "$(dirname "$0")/.." && pwd)
version=$(sh "$top/include/version.sh")
major=${version%%.*}
folder=$top/out/deb
maintainer="${DEBFULLNAME:-Yamzerts} <${DEBEMAIL:-yamzerts@packages.invalid}>"

fail() {
    echo "deb: $*" >&2
    exit 1
}
for it in dpkg-deb dpkg-shlibdeps strip; do
    command -v "$it" >/dev/null 2>&1 || fail "there is no $it: apt-get install dpkg-dev binutils"
done
if [ -z "${SOURCE_DATE_EPOCH-}" ]; then
    SOURCE_DATE_EPOCH=$(git -C "$top" log -1 --format=%ct 2>/dev/null) || fail "SOURCE_DATE_EPOCH has to name a time, since this is no clone of the repository"
fi
export SOURCE_DATE_EPOCH
sh "$top/tools/built.sh" deb
arch=$(dpkg --print-architecture)
[ "$arch" = amd64 ] || fail "the library is for amd64, and this is $arch"
lib=usr/lib/x86_64-linux-gnu
mkdir -p "$folder"
work=$(mktemp -d "$folder/.new.XXXXXX")
trap 'rm -rf "$work"' EXIT
trap 'exit 130' HUP INT TERM

# Each file to its package.
all=$work/all
sh "$top/include/install.sh" "$all" /usr "${lib#usr/}" >"$work/told" 2>&1 || { cat "$work/told" >&2; fail "it could not be installed"; }
runtime=$work/libblink$major
python=$work/python3-blink
develop=$work/libblink-dev
mkdir -p "$runtime/$lib" "$python/usr/lib/python3/dist-packages/blink"
mv "$all/$lib/libblink.so.$version" "$all/$lib/libblink.so.$major" "$runtime/$lib"
for it in py pyi; do
    mv "$all/usr/share/blink/blink.$it" "$python/usr/lib/python3/dist-packages/blink/__init__.$it"
done
cp "$top/python/py.typed" "$python/usr/lib/python3/dist-packages/blink"
rmdir "$all/usr/share/blink" "$all/usr/share"
# A program of a system takes the shared library, so blink.pc names that one, and the folder of the archive alone goes.
sh "$top/include/pc.sh" /usr "${lib#usr/}" shared >"$all/$lib/pkgconfig/blink.pc"
rm -r "$all/$lib/blink-static"
mv "$all" "$develop"
chmod 644 "$runtime/$lib/libblink.so.$version"
strip --strip-unneeded --remove-section=.comment "$runtime/$lib/libblink.so.$version"
strip --strip-debug --remove-section=.comment --enable-deterministic-archives "$develop/$lib/libblink.a"

describe() {
    case $1 in
    libblink*-dev) echo "proved ordered map that threads share - headers and archive" ;;
    libblink*) echo "proved ordered map that threads share - shared library" ;;
    python3-*) echo "proved ordered map that threads share - Python module" ;;
    esac
    cat <<'TEXT'
 blink is an ordered map from 64-bit keys to 64-bit pointers, in memory, which
 many threads search and change together without a global lock. It is a B-link
 tree. Every function of the library is proved by machine to meet its contract.
 .
TEXT
    case $1 in
    libblink*-dev) echo " This package has the headers for C and C++, the static library, and what" && echo " pkg-config and CMake need." ;;
    libblink*) echo " This package has the shared library. It needs a processor of x86-64-v2." ;;
    python3-*) echo " This package has the Python module blink, with its types." ;;
    esac
}
# Makes a package of its folder: NAME SECTION DEPENDS [FIELD ..].
package() {
    name=$1
    section=$2
    depends=$3
    shift 3
    stage=$work/$name
    doc=$stage/usr/share/doc/$name
    mkdir -p "$doc" "$stage/DEBIAN"
    cat >"$doc/copyright" <<TEXT
Format: https://www.debian.org/doc/packaging-manuals/copyright-format/1.0/
Upstream-Name: blink

Files: *
Copyright: $(date -u -d "@$SOURCE_DATE_EPOCH" +%Y), the authors of Yamzerts
License: none-yet
 There is no licence yet: all rights reserved. Nobody may copy these files
 without leave.
TEXT
    {
        echo "blink ($version) unstable; urgency=medium"
        echo
        echo "  * Release $version. CHANGELOG.md of its sources says what is new."
        echo
        echo " -- $maintainer  $(date -u -R -d "@$SOURCE_DATE_EPOCH")"
    } | gzip -n -9 >"$doc/changelog.gz"
    {
        echo "Package: $name"
        echo "Source: blink"
        echo "Version: $version"
        echo "Architecture: amd64"
        echo "Maintainer: $maintainer"
        echo "Installed-Size: $(du -k -s --apparent-size "$stage/usr" | cut -f1)"
        echo "Depends: $depends"
        echo "Section: $section"
        echo "Priority: optional"
        for it in "$@"; do
            echo "$it"
        done
        printf 'Description: '
        describe "$name"
    } >"$stage/DEBIAN/control"
    (cd "$stage" && find usr -type f | sort | xargs md5sum) >"$stage/DEBIAN/md5sums"
    find "$stage" -depth -exec touch -h -d "@$SOURCE_DATE_EPOCH" {} +
    dpkg-deb --root-owner-group -Zxz --build "$stage" "$work/${name}_${version}_$arch.deb" >/dev/null
}

# What the shared library needs, of which it tells others the versions.
mkdir -p "$work/debian" "$runtime/DEBIAN"
printf 'Source: blink\n\nPackage: libblink%s\nArchitecture: any\n' "$major" >"$work/debian/control"
needs=$(cd "$work" && dpkg-shlibdeps -O -xlibblink"$major" "$runtime/$lib/libblink.so.$version" 2>"$work/told" | sed -n 's/^shlibs:Depends=//p') || needs=
[ -n "$needs" ] || { cat "$work/told" >&2; fail "dpkg-shlibdeps doesn't say what the library needs"; }
echo "libblink $major libblink$major (>= $version)" >"$runtime/DEBIAN/shlibs"
echo "activate-noawait ldconfig" >"$runtime/DEBIAN/triggers"
{
    echo "libblink.so.$major libblink$major #MINVER#"
    echo "* Build-Depends-Package: libblink-dev"
    nm -D --defined-only "$runtime/$lib/libblink.so.$version" | awk -v version="$version" '{ sub(/@.*/, "", $3); print " " $3 "@Base " version }' | sort
} >"$runtime/DEBIAN/symbols"
package "libblink$major" libs "$needs" "Multi-Arch: same"
package libblink-dev libdevel "libblink$major (= $version)" "Multi-Arch: same"
package python3-blink python "python3 (>= 3.8), libblink$major (= $version)"
for it in "libblink$major" libblink-dev python3-blink; do
    mv -fT "$work/${it}_${version}_$arch.deb" "$folder/${it}_${version}_$arch.deb"
done
echo "deb: out/deb/: libblink$major, libblink-dev and python3-blink, version $version" >&2

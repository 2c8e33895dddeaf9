#!/bin/sh
# Tries the release that `make dist` makes, as somebody without the toolchain takes it: unpacked outside the repository, with an empty home and
# the system's programs alone. It runs the lines of the release's README.md, and links C and C++ by CMake and with the shared library, the crate
# without a network, the wheel, and the table of SQLite. Before that it looks whether two copies of the sources make the same bytes, also as the
# Debian packages of `make deb`; whether these can be used; and what is refused: a library of another version, of other sources, or of somebody
# else, and a full disk. It is for a library that is built. It says nothing where all is well, and names what it left out, as a tool isn't there.
set -eu
top=$(cd "$(dirname "$0")/.." && pwd)
work=$(mktemp -d)
trap 'rm -rf "$work"' EXIT
cd "$work"
version=$(sh "$top/include/version.sh")
name=blink-$version-linux-x86_64

wrong() {
    echo "$0: $*" >&2
    exit 1
}
# Runs a command, which has to end well. What it writes is shown only where it doesn't.
quietly() {
    if ! "$@" >told 2>&1; then
        cat told >&2
        wrong "failed: $*"
    fi
}
# Runs a command, which has to fail, and to say this.
refuses() {
    why=$1
    shift
    if "$@" >told 2>&1 || ! grep -q "$why" told; then
        cat told >&2
        wrong "doesn't say '$why': $*"
    fi
}

# Two copies of the sources, with the library, at other paths, with other times and modes.
copy() {
    mkdir -p "$1/out"
    if git -C "$top" rev-parse --git-dir >/dev/null 2>&1; then
        (cd "$top" && git ls-files -z --cached --others --exclude-standard | xargs -0 tar --ignore-failed-read -cf - 2>/dev/null) | tar -C "$1" -xmf -
    else
        (cd "$top" && tar --exclude=./out --exclude='./crates/*/out' --exclude=target -cf - .) | tar -C "$1" -xmf -
    fi
    cp "$top/out/libblink.a" "$top/out/libblink.so.$version" "$top/out/built.txt" "$1/out"
    ln -s "libblink.so.$version" "$1/out/libblink.so.0"
    ln -s libblink.so.0 "$1/out/libblink.so"
}
if ! command -v python3 >/dev/null 2>&1; then
    echo "$0: no Python, so no release was made" >&2
    exit 0
fi
echo 'The cat sees the dog, the dog sees a cat.' >text
copy one
(umask 077 && copy a/longer/path)
other=a/longer/path
export SOURCE_DATE_EPOCH=1764633600
quietly sh one/tools/dist.sh
(umask 077 && TZ=Asia/Tokyo LANG=C.UTF-8 && export TZ LANG && quietly sh "$other/tools/dist.sh")
cmp "one/out/dist/$name.tar.gz" "$other/out/dist/$name.tar.gz" >&2 || wrong "two copies of the same sources make other bytes"

# The same of Debian packages, unpacked elsewhere: what lintian says of them, and whether they are used.
if command -v dpkg-deb >/dev/null 2>&1 && command -v dpkg-shlibdeps >/dev/null 2>&1; then
    quietly sh one/tools/deb.sh
    (umask 077 && quietly sh "$other/tools/deb.sh")
    [ "$(ls -A one/out/deb)" = "$(printf '%s\n' "libblink-dev_${version}_amd64.deb" "libblink${version%%.*}_${version}_amd64.deb" "python3-blink_${version}_amd64.deb")" ] ||
        wrong "other packages: $(ls -A one/out/deb)"
    for it in one/out/deb/*; do
        cmp "$it" "$other/out/deb/${it##*/}" >&2 || wrong "two copies of the same sources make other packages"
        dpkg-deb -x "$it" root
    done
    if command -v lintian >/dev/null 2>&1; then
        lintian --allow-root --fail-on error,warning one/out/deb/*.deb >told 2>&1 || { cat told >&2; wrong "lintian doesn't accept the packages"; }
    else
        echo "$0: no lintian, so the packages weren't looked at by it" >&2
    fi
    lib=$work/root/usr/lib/x86_64-linux-gnu
    if command -v pkg-config >/dev/null 2>&1; then
        # shellcheck disable=SC2046
        quietly "${CC:-cc}" -std=c11 -pthread "$top/examples/c/word_count.c" $(PKG_CONFIG_SYSROOT_DIR=$work/root PKG_CONFIG_LIBDIR=$lib/pkgconfig \
            PKG_CONFIG_ALLOW_SYSTEM_CFLAGS=1 PKG_CONFIG_ALLOW_SYSTEM_LIBS=1 pkg-config --cflags --libs blink) -o by_package
        [ "$(LD_LIBRARY_PATH=$lib ./by_package text)" = '10 words, 5 different, "the" 3 times' ] || wrong "a program by libblink-dev doesn't run"
        ! LD_LIBRARY_PATH='' ./by_package text >told 2>&1 || wrong "blink.pc of libblink-dev doesn't name the shared library"
    fi
    [ "$(cd / && LD_LIBRARY_PATH=$lib PYTHONPATH=$work/root/usr/lib/python3/dist-packages PYTHONDONTWRITEBYTECODE=1 python3 -c 'import blink
print(blink._library._name, blink.Index({1: 10}))' 2>&1)" = "libblink.so.${version%%.*} Index({1: 10})" ] || wrong "python3-blink doesn't take libblink${version%%.*}"
else
    echo "$0: no dpkg-dev, so no Debian package was made" >&2
fi

# What is refused leaves the release that was there, and nothing else.
sum=$(sha256sum <"one/out/dist/$name.tar.gz")
stays() {
    [ "$(ls -A one/out/dist)" = "$name.tar.gz" ] && [ "$(sha256sum <"one/out/dist/$name.tar.gz")" = "$sum" ] || wrong "$1 leaves other files: $(ls -A one/out/dist)"
}
# Files have room for some KB: for the shared library or not, for the archive of all files, for the compressed one.
trap '' XFSZ
for room in 0 1 "$(($(stat -c %s "$top/out/libblink.so.$version") / 1024 + 1))" "$(($(stat -c %s "one/out/dist/$name.tar.gz") / 1024 - 1))"; do
    if (ulimit -f "$((2 * room))" && exec sh one/tools/dist.sh) >/dev/null 2>&1; then
        wrong "a release is made where files have room for $room KB"
    fi
    stays "a full disk"
done
trap - XFSZ
refuses "SOURCE_DATE_EPOCH has to name a time" env -u SOURCE_DATE_EPOCH sh one/tools/dist.sh
echo '# one more line' >>one/crates.txt
refuses "the library in out/ is of other sources: run ./libblink" sh one/tools/dist.sh
cp "$top/crates.txt" one
cp "$other/out/libblink.a" other.a
printf 'more' >>one/out/libblink.a
refuses "./libblink didn't build the library in out/: run ./libblink" sh one/tools/dist.sh
cp other.a one/out/libblink.a
refuses "deb: out/ has no library" sh -c 'mv one/out/libblink.a a.a; sh one/tools/deb.sh; status=$?; mv a.a one/out/libblink.a; exit $status'
mv one/out/built.txt built
refuses "./libblink didn't build the library in out/: run ./libblink" sh one/tools/dist.sh
mv built one/out/built.txt
sed -i 's/^#define BLINK_VERSION_PATCH .*/#define BLINK_VERSION_PATCH 9/' one/include/blink.h
refuses "include/blink.h, by numbers: the version is .*, and include/blink.h has $version" sh one/tools/dist.sh
later=${version%.*}.9
sed -i "s/^#define BLINK_VERSION \".*/#define BLINK_VERSION \"$later\"/" one/include/blink.h
sed -i "s/^version = .*/version = \"$later\"/" one/rust/blink/Cargo.toml
sed -i "s/^__version__ = .*/__version__ = \"$later\"/" one/python/blink.py
refuses "out/ has no library of version $later: run ./libblink" sh one/tools/dist.sh
stays "a refused release"

# Somebody without the toolchain. Cargo and Python may stand outside the system's folders, so their own folders are added where they are used.
mkdir home elsewhere
tar -C elsewhere -xzf "$other/out/dist/$name.tar.gz"
mv "elsewhere/$name" elsewhere/blink
cd elsewhere/blink
! find . -name '*.rt' -o -name '*.antt' -o -name target -o -name __pycache__ | grep . >&2 || wrong "the release has files that aren't for users"
alone() {
    env -i PATH="/usr/bin:/bin$more" HOME="$work/home" LANG=C CARGO_NET_OFFLINE=true PYTHONDONTWRITEBYTECODE=1 ${CC:+CC="$CC"} "$@"
}
# Runs a program so, which has to end with this line.
ends_with() {
    line=$1
    shift
    if ! alone "$@" >"$work/told" 2>&1 || [ "$(tail -n 1 "$work/told")" != "$line" ]; then
        cat "$work/told" >&2
        wrong "doesn't end with '$line': $*"
    fi
}
does() {
    if ! alone "$@" >"$work/told" 2>&1; then
        cat "$work/told" >&2
        wrong "failed: $*"
    fi
}
more=
does sha256sum --check --strict --quiet SHA256SUMS
[ "$(find . -type f | wc -l)" = $(($(wc -l <SHA256SUMS) + 1)) ] || wrong "SHA256SUMS doesn't name each file"
grep -q "^Version:   $version$" PROOF.txt || wrong "PROOF.txt has another version"

# The lines of its README.md, without what needs a tool that isn't there.
can_rust=yes
can_python=yes
if command -v cargo >/dev/null 2>&1 && command -v rustc >/dev/null 2>&1; then
    more=$more:$(rustc --print sysroot)/bin
else
    can_rust=
    echo "$0: no cargo, so the release's crate wasn't tried" >&2
fi
python=$(python3 -c 'import sys; print(sys.base_prefix)')/bin
if alone "$python/python3" -c 'import ensurepip, venv' >/dev/null 2>&1; then
    [ "$python" = /usr/bin ] || more=:$python$more
else
    can_python=
    echo "$0: this Python has no venv, so the wheel wasn't installed" >&2
fi
awk '$0 == "```sh" { on = 1; next } /^```/ { on = 0 } on' README.md >"$work/lines"
[ -n "$can_rust" ] || sed -i '/cargo/d' "$work/lines"
[ -n "$can_python" ] || sed -i '/venv/d' "$work/lines"
command -v pkg-config >/dev/null 2>&1 || { sed -i '/pkg-config\|word_count\|all_calls/d' "$work/lines" && echo "$0: no pkg-config, so blink.pc of the release wasn't tried" >&2; }
[ -s "$work/lines" ] || wrong "the release's README.md has no lines"
does sh -eu "$work/lines"

# What these lines leave out.
does make -s -C examples/c word_count
ends_with '10 words, 5 different, "the" 3 times' examples/c/word_count "$work/text"
does cc -std=c11 -pthread -I include examples/c/word_count.c -Llib -lblink -o by_shared
ends_with '10 words, 5 different, "the" 3 times' env LD_LIBRARY_PATH="$PWD/lib" ./by_shared "$work/text"
if alone sh -c 'command -v cmake' >/dev/null; then
    mkdir cmake
    cat >cmake/CMakeLists.txt <<'CMAKE'
cmake_minimum_required(VERSION 3.13)
project(programs C CXX)
find_package(blink REQUIRED)
find_package(Threads REQUIRED)
foreach(it blink shared)
  add_executable(c_${it} ${CMAKE_SOURCE_DIR}/../examples/c/word_count.c)
  add_executable(cpp_${it} ${CMAKE_SOURCE_DIR}/../examples/cpp/all_calls.cpp)
  set_target_properties(cpp_${it} PROPERTIES CXX_STANDARD 17)
  target_link_libraries(c_${it} blink::${it} Threads::Threads)
  target_link_libraries(cpp_${it} blink::${it} Threads::Threads)
endforeach()
CMAKE
    does cmake -S cmake -B built -DCMAKE_PREFIX_PATH="$PWD"
    does cmake --build built
    for it in blink shared; do
        ends_with '10 words, 5 different, "the" 3 times' "built/c_$it" "$work/text"
        ends_with 'all calls are as expected' "built/cpp_$it"
    done
else
    echo "$0: no cmake, so the release wasn't found by it" >&2
fi
if [ -n "$can_rust" ]; then
    mkdir -p "$work/program/src"
    cat >"$work/program/src/main.rs" <<'RUST'
fn main() {
    let map = blink::Map::default();
    let mut session = map.session().unwrap();
    session.put(7, 70).unwrap();
    drop(session);
    println!("{:?}", map.close().unwrap());
}
RUST
    printf '[package]\nname = "program"\nversion = "0.1.0"\nedition = "2021"\n[dependencies]\nblink = { path = "%s" }\n' "$PWD/rust/blink" >"$work/program/Cargo.toml"
    ends_with '{7: 70}' cargo run --quiet --offline --manifest-path "$work/program/Cargo.toml"
fi
if [ -n "$can_python" ]; then
    ends_with 'all calls are as expected' venv/bin/python examples/python/all_calls.py include
    site=$(alone venv/bin/python -c 'import os, blink; print(os.path.dirname(blink.__file__))')
    [ -e "$site/py.typed" ] && [ -e "$site/__init__.pyi" ] || wrong "the wheel has no types"
    (cd "$work" && ends_with "$site/libblink.so.${version%%.*}" "$PWD/elsewhere/blink/venv/bin/python" -c 'import blink; print(blink._library._name)')
    does venv/bin/pip uninstall --yes blink
    [ ! -e "$site" ] || wrong "a wheel that is taken away leaves $site"
    ends_with "$version" env PYTHONPATH="$PWD/share/blink" venv/bin/python -c 'import blink; print(blink.version())'
fi
if alone sh -c 'printf "#include <sqlite3ext.h>\nint main(void) { return 0; }\n" | cc -x c - -lsqlite3 -o "$HOME/there"' >/dev/null 2>&1; then
    does make -s -C examples/sqlite blink.so random_sql
    ends_with '500 statements: each as of a rowid table' sh -c 'cd examples/sqlite && ./random_sql 500 1'
else
    echo "$0: no libsqlite3-dev, so the release's examples/sqlite wasn't tried" >&2
fi

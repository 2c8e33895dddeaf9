#!/bin/sh
# Looks at out/libblink.a and out/libblink.so as who ships or links them does: their names, SONAME, needs and version; a program linked by
# blink.pc, with the archive, with `--static`, and with the shared library, from out/ and after an install, also where its folder was moved, and
# by CMake, and whether each starts; what refuses another major version; two libraries in one program; which library blink.py takes; and what an install, a refused one, and `make uninstall` leave. It says nothing
# where all is well, and names what it left out: without pkg-config the programs by blink.pc, without readelf the shared library's head,
# without Python blink.py.
set -eu
top=$(cd "$(dirname "$0")/.." && pwd)
cc=${CC:-cc}
work=$(mktemp -d)
trap 'rm -rf "$work"' EXIT
cd "$work"

wrong() {
    echo "$0: $*" >&2
    exit 1
}
# Runs a command, which has to end well. What it writes is shown only where it doesn't.
quietly() {
    if ! "$@" >told 2>&1; then
        cat told >&2
        wrong "failed: $*"
    fi
}
is() {
    [ "$2" = "$3" ] || wrong "$1: '$2' in place of '$3'"
}

# Names: only those of the header, and one version everywhere.
quietly sh "$top/crates/blink_c/link/compare.sh" "$top/out/libblink.a" "$top/out/libblink.so"
version=$(sh "$top/include/version.sh")
is libblink.so.0 "$(readlink "$top/out/libblink.so.0")" "libblink.so.$version"
is libblink.so "$(readlink "$top/out/libblink.so")" libblink.so.0
if command -v readelf >/dev/null 2>&1; then
    readelf -dW "$top/out/libblink.so" >dynamic
    is SONAME "$(sed -n 's/.*(SONAME).*\[\(.*\)\]/\1/p' dynamic)" libblink.so.0
    is NEEDED "$(sed -n 's/.*(NEEDED).*\[\(.*\)\]/\1/p' dynamic)" libc.so.6
    ! grep -E 'RPATH|RUNPATH|TEXTREL' dynamic >&2 || wrong "a path or a text relocation in libblink.so"
    is "the stack's flags" "$(readelf -lW "$top/out/libblink.so" | awk '$1 == "GNU_STACK" { print $7 }')" RW
else
    echo "$0: no readelf, so libblink.so's head wasn't looked at" >&2
fi

# An install below a relative folder; with DESTDIR; one that is refused; and none.
listing() {
    (cd "$1" && find . | LC_ALL=C sort)
}
mkdir prefix refused folder
quietly sh "$top/include/install.sh" "" prefix/blink
quietly sh "$top/include/install.sh" "$work/staged" /opt/blink
is "the staged install" "$(listing staged/opt/blink)" "$(listing prefix/blink)"
is "the staged prefix" "$(grep '^prefix=' staged/opt/blink/lib/pkgconfig/blink.pc)" 'prefix=${pcfiledir}/../..'
listing prefix/blink >before
touch refused/lib
mkdir -p folder/lib/pkgconfig/blink.pc
for it in refused folder; do
    listing "$it" >there
    if sh "$top/include/install.sh" "" "$it" >told 2>&1; then
        wrong "an install into a folder that can't be written isn't refused: $it"
    fi
    is "what a refused install leaves" "$(listing "$it")" "$(cat there)"
done
quietly sh "$top/include/install.sh" "" prefix/blink
is "a second install" "$(listing prefix/blink)" "$(cat before)"
quietly sh "$top/include/install.sh" "" prefix/multi lib/x86_64-linux-gnu
is "the libraries' folder" "$(listing prefix/multi/lib/x86_64-linux-gnu)" "$(listing prefix/blink/lib)"
! sh "$top/include/install.sh" "" prefix/multi ../lib >told 2>&1 || wrong "a LIBDIR above the prefix isn't refused"

# A program that starts: it tells the version that it runs with.
cat >program.c <<'C'
#include <blink.h>
#include <stdio.h>
/* names that the library has, and keeps to itself */
void *rattle_alloc(void) { return NULL; }
int main(void) {
    blink_index index = {NULL};
    if (blink_index_new(32, &index) != BLINK_DONE) return 1;
    blink_index_free(index);
    return rattle_alloc() || puts(blink_version()) < 0;
}
C
starts() {
    what=$1
    shift
    quietly "$cc" program.c "$@" -o program
    is "$what" "$(./program 2>&1)" "$version"
}
if command -v pkg-config >/dev/null 2>&1; then
    mv staged/opt/blink moved
    for it in "$top/out" "$work/prefix/blink/lib/pkgconfig" "$work/moved/lib/pkgconfig" "$work/prefix/multi/lib/x86_64-linux-gnu/pkgconfig"; do
        export PKG_CONFIG_PATH="$it"
        is "the version of $it" "$(pkg-config --modversion blink)" "$version"
        # shellcheck disable=SC2046
        starts "by $it" $(pkg-config --cflags --libs blink)
        # shellcheck disable=SC2046
        starts "by $it, static" -static $(pkg-config --static --cflags --libs blink)
        lib=$(pkg-config --variable=libdir blink)
        # shellcheck disable=SC2046
        LD_LIBRARY_PATH=$lib starts "by $it, shared" $(pkg-config --cflags blink) -L"$lib" -lblink
        ! LD_LIBRARY_PATH='' ./program >told 2>&1 || wrong "the shared library wasn't what the program took"
    done
else
    echo "$0: no pkg-config, so no program was linked by blink.pc" >&2
fi

# CMake links the archive and the shared library by find_package, and the archive by pkg-config, of a folder that was moved. A later version
# isn't found.
if command -v cmake >/dev/null 2>&1; then
    mkdir cmake
    cp program.c cmake
    cat >cmake/CMakeLists.txt <<'CMAKE'
cmake_minimum_required(VERSION 3.13)
project(program C)
find_package(blink 0.1 REQUIRED)
foreach(it blink shared)
  add_executable(by_${it} program.c)
  target_link_libraries(by_${it} blink::${it})
endforeach()
find_package(blink 0.2 QUIET)
if(blink_FOUND)
  message(FATAL_ERROR "version 0.2 is found")
endif()
find_package(PkgConfig)
if(PkgConfig_FOUND)
  pkg_check_modules(blink_pc REQUIRED IMPORTED_TARGET blink)
  add_executable(by_pkgconfig program.c)
  target_link_libraries(by_pkgconfig PkgConfig::blink_pc)
endif()
CMAKE
    [ -d moved ] || mv staged/opt/blink moved
    quietly env PKG_CONFIG_PATH="$work/moved/lib/pkgconfig" cmake -S cmake -B built -DCMAKE_PREFIX_PATH="$work/moved" -DCMAKE_C_COMPILER="$cc"
    quietly cmake --build built
    quietly env PKG_CONFIG_PATH="$work/moved/lib/pkgconfig" cmake -S cmake -B multi -DCMAKE_PREFIX_PATH="$work/prefix/multi" -DCMAKE_C_COMPILER="$cc" \
        -DCMAKE_LIBRARY_ARCHITECTURE=x86_64-linux-gnu
    quietly cmake --build multi
    printf 'set(CMAKE_SYSTEM_NAME Linux)\nset(CMAKE_SYSTEM_PROCESSOR aarch64)\n' >other.cmake
    if cmake -S cmake -B other_processor -DCMAKE_PREFIX_PATH="$work/moved" -DCMAKE_C_COMPILER="$cc" -DCMAKE_TOOLCHAIN_FILE="$work/other.cmake" >told 2>&1 ||
        ! grep -q "libblink is for Linux on x86-64, and this is aarch64" told; then
        cat told >&2
        wrong "CMake finds the library for another processor"
    fi
    for it in built/by_* multi/by_*; do
        [ ! -x "$it" ] || [ -d "$it" ] || is "$it" "$("./$it" 2>&1)" "$version"
    done
else
    echo "$0: no cmake, so no program was linked by it" >&2
fi

# Another major version is refused: by the crate, before it links, and by blink.py.
if command -v cargo >/dev/null 2>&1; then
    mkdir other
    touch other/libblink.a
    echo 'Version: 1.0.0' >other/blink.pc
    if BLINK_LIB_DIR=$work/other CARGO_TARGET_DIR=$work/target cargo check --offline --manifest-path "$top/rust/blink/Cargo.toml" >told 2>&1 ||
        ! grep -q "has version 1.0.0, and the crate $version: take both from one release" told; then
        cat told >&2
        wrong "the crate takes a library of another major version"
    fi
    if BLINK_LIB_DIR=$top/out CARGO_TARGET_DIR=$work/target cargo check --offline --target aarch64-unknown-linux-gnu \
        --manifest-path "$top/rust/blink/Cargo.toml" >told 2>&1 || ! grep -q "the library is for Linux on x86-64, and the target is linux on aarch64" told; then
        cat told >&2
        wrong "the crate takes a target that the library isn't for"
    fi
fi
if command -v python3 >/dev/null 2>&1; then
    mkdir later
    echo 'const char *blink_version(void) { return "1.0.0"; }' >later.c
    quietly "$cc" -shared -fPIC later.c -o later/libblink.so.0
    if BLINK_LIB_DIR=$work/later PYTHONPATH=$top/python PYTHONDONTWRITEBYTECODE=1 python3 -c 'import blink' >told 2>&1 ||
        ! grep -q "^ImportError: .* has version 1.0.0, and blink.py $version: take both from one release" told; then
        cat told >&2
        wrong "blink.py takes a library of another major version"
    fi
    mkdir lacking
    echo "const char *blink_version(void) { return \"$version\"; }" >lacking.c
    quietly "$cc" -shared -fPIC lacking.c -o lacking/libblink.so.0
    if BLINK_LIB_DIR=$work/lacking PYTHONPATH=$top/python PYTHONDONTWRITEBYTECODE=1 python3 -c 'import blink' >told 2>&1 ||
        ! grep -q "^ImportError: .* lacks blink_.*: take it and blink.py from one release" told; then
        cat told >&2
        wrong "blink.py takes a library that lacks functions"
    fi
fi

# An installed blink.py takes the library beside it, or that of the folder which BLINK_LIB_DIR names, and no other.
loads() {
    PYTHONPATH=$work/prefix/blink/share/blink PYTHONDONTWRITEBYTECODE=1 python3 -c 'import blink; print(blink._library._name)' 2>&1
}
if command -v python3 >/dev/null 2>&1; then
    is "blink.py's library" "$(unset BLINK_LIB_DIR; loads)" "$(cd prefix/blink/lib && pwd -P)/libblink.so.0"
    is "the library in LIBDIR" "$(unset BLINK_LIB_DIR; PYTHONPATH=prefix/multi/share/blink PYTHONDONTWRITEBYTECODE=1 python3 -c 'import blink; print(blink._library._name)' 2>&1)" \
        "$(cd prefix/multi/lib/x86_64-linux-gnu && pwd -P)/libblink.so.0"
    is "the library that is named" "$(BLINK_LIB_DIR=$top/out loads)" "$top/out/libblink.so.0"
    if BLINK_LIB_DIR=$work/none loads >told || ! grep -q "^ImportError: .*BLINK_LIB_DIR names the folder $work/none " told; then
        cat told >&2
        wrong "blink.py doesn't say that there is no library in the folder that is named"
    fi
else
    echo "$0: no Python, so no blink.py was started" >&2
fi

# An uninstall leaves what others put there, and no empty folder.
touch prefix/blink/share/other
quietly sh "$top/include/install.sh" --uninstall "" prefix/blink
is "what an uninstall leaves of others" "$(listing prefix/blink)" "$(printf '.\n./share\n./share/other')"
quietly sh "$top/include/install.sh" "" prefix/blink
rm prefix/blink/share/other
quietly sh "$top/include/install.sh" --uninstall "" prefix/blink
quietly sh "$top/include/install.sh" --uninstall "" prefix/multi lib/x86_64-linux-gnu
is "what an uninstall leaves" "$(listing prefix)" .

# The same as a release, and as Debian packages.
sh "$top/.ci/dist.sh"

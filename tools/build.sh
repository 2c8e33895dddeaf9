#!/bin/sh
# Proves and builds a crate, and before it each crate that it stands on, side by side. What is built already of the same sources by the
# same toolchain is kept, so a build that was stopped goes on where it was. Standard error is told how it gets on.
#
#     build.sh CRATE NAME             a program as crates/CRATE/out/CRATE, a static library as libCRATE.a there, another library as
#                                     rlib/CRATE.rlib there; NAME is what the lines begin with
#     build.sh --after-ci CRATE NAME  the same over the libraries that `rt ci` left, which has just passed here with the same sources, so that
#                                     CRATE alone is proved; where one of them isn't there, as without the word
#
# It calls `rattle` and not `rt lib`, for one flag: with --statements a library holds what it states and not its proofs, as under `rt ci`,
# and what stands above it loads a fraction.
set -eu
top=$(cd "$(dirname "$0")/.." && pwd)
after_ci=
if [ "$1" = --after-ci ]; then
    after_ci=yes
    shift
fi
crate=$1
name=$2
if ! command -v rt >/dev/null; then
    echo "$name: to build it the toolchain's program \`rt\` has to be in PATH" >&2
    exit 1
fi
kit=$(cd "$(dirname "$(rt doc)")" && pwd)
version=$(rt version)
processors=$(nproc)
cd "$top/crates"

# What a crate's line in crates.txt names, and which of it are crates of the repository.
named() {
    sed -n "s/^$1\( staticlib\)\{0,1\}: //p" ../crates.txt
}

below() {
    for it in $(named "$1"); do
        if [ -d "$it" ]; then
            echo "$it"
        fi
    done
}

# All crates that one stands on, and what these stand on, each once.
all_below() {
    for it in $(below "$1"); do
        echo "$it"
        all_below "$it"
    done | sort -u
}

# A sum of all that a crate is made from, once what it stands on is there.
sum_of() {
    {
        echo "$version"
        grep "^$1[ :]" ../crates.txt
        find "$1/src" "$1/specs" "$1/proofs" -type f -exec sha256sum {} + 2>/dev/null | LC_ALL=C sort
        for it in $(below "$1"); do
            cat "$it/out/rlib/made"
        done
    } | sha256sum
}

# What is made of a crate: a program, a static library, or another library.
output_of() {
    if [ -f "$1/src/main.rt" ]; then
        echo "out/$1"
    elif grep -q "^$1 staticlib" ../crates.txt; then
        echo "out/lib$1.a"
    else
        echo "out/rlib/$1.rlib"
    fi
}

# How many processes prove a crate. Each more costs processor time: it loads the libraries once more, and works out again what the others
# have worked out. `blink_machine` took 79 processor seconds by one in 77 seconds, and 98 by two in 52. So there are several only where
# processors would be idle, since all other crates that are left wait for this one or are few: bench/README.md tells what other numbers gave.
jobs_of() {
    case $1 in
    blink_c | blink_map | blink_live | blink_generation | blink_handles | blink_run | index_main) echo "$processors" ;;
    blink_machine) echo $(((processors + 1) / 2)) ;;
    *) echo 1 ;;
    esac
}

# Proves and builds a crate. No word of rattle's has a space in it: each path is the toolchain's or begins at crates/.
make_crate() {
    set -- "$1" --jobs "$(jobs_of "$1")" --extern "std=$kit/rlibs/std.rlib" -L "dependency=$kit/rlibs"
    for it in $(named "$1"); do
        if [ -d "$it" ]; then
            set -- "$@" --extern "$it=../$it/out/rlib/$it.rlib"
        else
            set -- "$@" --extern "$it=$kit/rlibs/$it.rlib"
        fi
    done
    for it in $(all_below "$1"); do
        set -- "$@" -L "dependency=../$it/out/rlib"
    done
    set -- "$@" --antt-project "$kit/rattle/logic/antt-project.json" --logic-built "$kit/logic_built" --links "$1="
    output=$(output_of "$1")
    compiled="--toolchain $kit/toolchain --backend llvm"
    # shellcheck disable=SC2086
    case $output in
    *.rlib) (cd "$1" && rattle build --crate-name "$@" --statements -o "$output" src/lib.rt) ;;
    *.a) (cd "$1" && rattle build --crate-name "$@" $compiled --crate-type staticlib -o "$output" src/lib.rt) ;;
    *)
        (cd "$1" && rattle build --crate-name "$@" $compiled -o "$output.o" src/main.rt) &&
            "$kit/bin/rattle-link" --target x86_64-unknown-linux-gnu --toolchain "$kit/toolchain" -o "$1/$output" "$1/$output.o" \
                "$kit/c/libos_c.a" "$kit/c/liblibc_c.a"
        ;;
    esac
}

# Waits for what a crate stands on, and makes it, unless it was made of the same. The file `made` has the sum, and a word that no other
# build has, since a library fits only those that it was built over.
build() {
    for it in $(below "$1"); do
        while [ ! -e "$room/$it.done" ]; do
            sleep 0.2
        done
    done
    made=$1/out/rlib/made
    sum=$(sum_of "$1")
    if [ "$(head -n 1 "$made" 2>/dev/null)" != "$sum" ] || [ ! -e "$1/$(output_of "$1")" ]; then
        rm -rf "$1/out/rlib"
        mkdir -p "$1/out/rlib"
        : >"$room/$1.begun"
        if ! make_crate "$1" >"$room/$1.log" 2>&1 || [ "$(sum_of "$1")" != "$sum" ]; then
            mv "$room/$1.log" "$room/failed"
            return
        fi
        printf '%s\n%s\n' "$sum" "$room" >"$made"
        rm "$room/$1.begun"
    fi
    : >"$room/$1.done"
}

# How many crates are there, and which are being proved.
tell() {
    begun=
    ready=0
    for it in $crates; do
        [ ! -e "$room/$it.begun" ] || begun="$begun $it"
        [ ! -e "$room/$it.done" ] || ready=$((ready + 1))
    done
    if [ -n "$begun" ] && { [ "$begun" != "$told" ] || [ $(($(date +%s) - told_at)) -ge 30 ]; }; then
        told=$begun
        told_at=$(date +%s)
        echo "$name: $ready of $count crates after $((told_at - began)) seconds, now$begun" >&2
    fi
}

# Lets `rt` in a crate's folder take these libraries. It takes what has the stamp that its own module gives; without that module it builds
# its own.
offer() {
    # shellcheck disable=SC2086
    python3 - "$kit/bin" $crates 2>/dev/null <<'END' || true
import os, sys

sys.dont_write_bytecode = True
sys.path.insert(0, sys.argv[1])
import rtlib

for name in sys.argv[2:]:
    crate = rtlib.Crate(os.path.abspath(name), os.path.abspath(".."), {})
    if crate.makes_rlib():
        with open(f"{name}/out/rlib/stamp", "w", encoding="utf-8") as it:
            it.write(crate.stamp())
END
}

# Stops a process, and first all that it started.
stop() {
    for it in $(pgrep -P "$1"); do
        stop "$it"
    done
    kill "$1" 2>/dev/null || true
}

# Whether each library below a crate is there. Their times say nothing: what `rt ci` kept from an earlier run is older than a new clone.
is_proved_below() {
    for it in $(all_below "$1"); do
        if [ ! -e "$it/out/rlib/$it.rlib/format" ]; then
            return 1
        fi
    done
}

if [ -n "$after_ci" ] && is_proved_below "$crate"; then
    log=$(mktemp)
    mkdir -p "$crate/out"
    if ! make_crate "$crate" >"$log" 2>&1; then
        cat "$log" >&2
        rm "$log"
        echo "$name: it could not be built" >&2
        exit 1
    fi
    rm "$log"
    exit 0
fi

crates="$(all_below "$crate") $crate"
count=$(echo "$crates" | wc -w)
room=$(mktemp -d)
began=$(date +%s)
told=
told_at=$began
(
    for it in $crates; do
        build "$it" &
    done
    wait
) </dev/null &
building=$!
trap 'stop "$building"; rm -rf "$room"; exit 130' HUP INT TERM
while kill -0 "$building" 2>/dev/null && [ ! -e "$room/failed" ]; do
    sleep 1
    tell
done
if [ -e "$room/failed" ]; then
    stop "$building"
    cat "$room/failed" >&2
    rm -rf "$room"
    echo "$name: it could not be built" >&2
    exit 1
fi
trap - HUP INT TERM
rm -rf "$room"
offer

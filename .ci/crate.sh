#!/bin/sh
# Tries rust/blink as cargo is used on it before a program is linked: clippy and the documentation, where the library isn't built yet, which is
# told in one line; the oldest Rust; a relative BLINK_LIB_DIR; and the crate as it is packaged, with the library that BLINK_LIB_DIR names. It
# says nothing where all is well, and names what it left out: without clippy its findings, without Rust 1.70 all of the oldest Rust but what
# clippy knows of it.
set -eu
top=$(cd "$(dirname "$0")/.." && pwd)
crate=$top/rust/blink/Cargo.toml
work=$(mktemp -d)
trap 'rm -rf "$work"' EXIT
export CARGO_TARGET_DIR="${CARGO_TARGET_DIR:-$work/cargo}" CARGO_NET_OFFLINE=true RUSTDOCFLAGS='-D warnings'

# Runs cargo, which has to end well. What it writes is shown only where it doesn't.
quietly() {
    if ! cargo "$@" >"$work/told" 2>&1; then
        cat "$work/told" >&2
        echo "$0: failed: cargo $*" >&2
        exit 1
    fi
}
# The same without the library.
before() {
    BLINK_LIB_DIR=$work/none quietly "$@"
    if [ "$(grep -c "^warning: .*no $work/none/libblink.a: " "$work/told")" != 1 ] || [ "$(grep -c '^warning\|panicked' "$work/told")" != 1 ]; then
        cat "$work/told" >&2
        echo "$0: without the library one line says so: cargo $*" >&2
        exit 1
    fi
}

if cargo clippy --version >/dev/null 2>&1; then
    before clippy --all-targets --manifest-path "$crate" -- -D warnings
    quietly clippy --all-targets --manifest-path "$top/examples/rust/Cargo.toml" -- -D warnings
else
    echo "$0: no clippy, so rust/blink wasn't looked at by it" >&2
fi
before doc --manifest-path "$crate"
oldest=$(sed -n 's/^rust-version = "\(.*\)"$/\1/p' "$crate")
if rustup toolchain list 2>/dev/null | grep -q "^$oldest"; then
    for it in "$crate" "$top/examples/rust/Cargo.toml"; do
        quietly "+$oldest" check --all-targets --target-dir "$work/oldest" --manifest-path "$it"
    done
else
    echo "$0: no Rust $oldest, so of the oldest Rust only what clippy knows was tried" >&2
fi
if BLINK_LIB_DIR=out cargo check --manifest-path "$crate" >"$work/told" 2>&1 ||
    ! grep -q 'BLINK_LIB_DIR has to be an absolute path, and is out$' "$work/told"; then
    cat "$work/told" >&2
    echo "$0: a relative BLINK_LIB_DIR isn't refused" >&2
    exit 1
fi
BLINK_LIB_DIR=$top/out quietly package --allow-dirty --manifest-path "$crate"

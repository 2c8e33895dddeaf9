#!/bin/sh
# Looks at each frame of the tour in a browser, as wide as a desk and as a phone. It says nothing where all is well. Without a browser nothing
# is looked at, and it says so.
set -eu
top=$(cd "$(dirname "$0")/.." && pwd)
if ! command -v "${CHROMIUM:-chromium}" >/dev/null 2>&1; then
    echo "$0: no Chromium, so the tour wasn't looked at" >&2
    exit 0
fi
if ! told=$(sh "$top/examples/tools/see.sh" --look 2>&1); then
    echo "$told" >&2
    echo "$0: a page of the tour is out of order" >&2
    exit 1
fi

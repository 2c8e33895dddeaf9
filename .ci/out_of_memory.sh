#!/bin/sh
# Refuses the built program each request for memory of a whole run, one a run, the starts of its threads among them, by either driver. The
# script has two batches with a scan between them. Whatever is refused, the program writes the lines of the parts before, and ends with
# the status and the line of that refusal; or it writes all, where the C library does without. It says nothing where all is well.
# Without a C compiler nothing is tried, and it says so.
set -eu
program=$1
if ! command -v cc >/dev/null 2>&1; then
    echo "$0: no C compiler, so no request for memory was refused" >&2
    exit 0
fi
work=$(mktemp -d)
trap 'rm -rf "$work"' EXIT
cc -shared -fPIC -O2 -o "$work/refuse.so" "$(dirname "$0")/../bench/refuse.c"
printf 'insert,1,10\ninsert,2,20\ninsert,3,30\ninsert,5,50\nscan,1,0\ninsert,6,60\nfind,5,\n' >"$work/script"
printf 'inserted\ninserted\ninserted\ninserted\nend 0\ninserted\nfound 50\n' >"$work/right"

# Runs it by a driver with the request of this number refused. `end` is then the status and the line on standard error, and `lines` how
# many lines were written.
run() {
    status=0
    REFUSED=$2 REFUSED_CALL=all LD_PRELOAD=$work/refuse.so timeout 60 "$program" run --driver "$1" --workers 2 --fan 4 \
        <"$work/script" >"$work/written" 2>"$work/told" || status=$?
    end="$status $(grep -v -e '^[0-9]* all$' -e '^refused$' "$work/told" || true)"
    lines=$(wc -l <"$work/written")
}

# Whether the refusal leaves so many lines: a batch's those of the parts before it, and one of memory those of some parts.
is_right() {
    head -n "$lines" "$work/right" | cmp -s - "$work/written" || return 1
    case "$end, $lines" in
    '0 , 7' | '3 script: out of memory, 0' | '4 run: out of memory, '[045]) ;;
    '4 run: batch 1: out of memory, 0' | '4 run: batch 1: worker '[01]' not started, 0') ;;
    '4 run: batch 2: out of memory, 5' | '4 run: batch 2: worker '[01]' not started, 5') ;;
    *) return 1 ;;
    esac
}

for driver in locked live; do
    number=1
    while run "$driver" "$number" && is_right && grep -q '^refused$' "$work/told"; do
        number=$((number + 1))
    done
    # The last run made fewer requests, and is right. Where it isn't the first by far, nothing was refused.
    if ! is_right || [ "$number" -lt 50 ]; then
        echo "$program, $driver, request $number refused: '$end', $lines lines" >&2
        cat "$work/written" "$work/told" >&2
        exit 1
    fi
done

#!/bin/sh
# Runs the built `blink` and `blink-show`, since `rt ci` runs each only on one script that it takes: `blink` by either driver and as a
# replay, with room for all that it writes and with too little; and both on input that can't be read, and on words and a script that they
# have to refuse. Of each run the status, what is told on standard error, and all that is written are compared. It says nothing where all
# is well. Without prlimit no output is cut short, and it says so.
set -eu
blink=$1
show=$2
work=$(mktemp -d)
trap 'rm -rf "$work"' EXIT
# A write beyond a file's room is refused, and doesn't end the program by a signal.
trap '' XFSZ
can_limit=yes
if ! command -v prlimit >/dev/null 2>&1; then
    echo "$0: no prlimit, so no output was cut short" >&2
    can_limit=no
fi

printf 'insert,5,50\nscan,9,1\nfind,5,\n' >"$work/script"
printf 'inserted\nend 0\nfound 50\n' >"$work/answers"
printf '1 P\n0 idle\ninserted\nend 0\nfound 50\n0 1 - 18446744073709551615 - 5:50\n' >"$work/replayed"
printf 'find,5,\n' >"$work/find"
printf 'insert,05,1\n' >"$work/refused"
: >"$work/nothing"
# What is written of this one is longer than the buffer of `blink`, 65,536 bytes.
{ seq 1000 | sed 's/.*/insert,&,&/' && seq 10 | sed 's/.*/scan,0,9999/'; } >"$work/long"

# Runs a program on this input. It has to end with this status, this line on standard error, and what this file has written. The line goes
# through a pipe, since a limit on the length of files would cut it short too.
ends() {
    input=$1
    status=$2
    line=$3
    expected=$4
    shift 4
    ended=0
    told=$(timeout 60 "$@" <"$input" 2>&1 >"$work/written") || ended=$?
    if [ "$ended" -ne "$status" ] || [ "$told" != "$line" ] || ! cmp -s "$expected" "$work/written"; then
        echo "$*: status $ended, '$told' in place of $status, '$line'; and what is written, as it has to be and as it is:" >&2
        diff "$expected" "$work/written" >&2 || true
        exit 1
    fi
}

# Runs a program on this input, where its output has room for so many bytes of the text in this file.
ends_in_room() {
    room=$1
    input=$2
    whole=$3
    shift 3
    head -c "$room" "$whole" >"$work/first"
    ends "$input" 5 'output: write failed' "$work/first" prlimit --fsize="$room" "$@"
}

# Writes all of a script, and with too little room the first bytes: of this text each number of them, of a longer one some.
writes() {
    text=$1
    shift
    ends "$work/script" 0 '' "$text" "$@"
    [ "$can_limit" = yes ] || return 0
    for bytes in $(seq 0 $(($(wc -c <"$text") - 1))); do
        ends_in_room "$bytes" "$work/script" "$text" "$@"
    done
    if ! timeout 60 "$@" <"$work/long" >"$work/longer"; then
        echo "$*: refused a long script" >&2
        exit 1
    fi
    for bytes in 0 65535 65536 65537 $(($(wc -c <"$work/longer") - 1)); do
        ends_in_room "$bytes" "$work/long" "$work/longer" "$@"
    done
}

writes "$work/answers" "$blink" run --driver locked --workers 2 --fan 4 --cut residue
writes "$work/answers" "$blink" run --driver live --workers 2 --fan 4 --cut residue
writes "$work/replayed" "$blink" replay --schedule 1,0 --workers 2 --fan 4

# A folder can be opened and not read.
ends / 3 'script: read failed' "$work/nothing" "$blink" run --workers 2 --fan 4
ends / 3 'script: read failed' "$work/nothing" "$blink" replay --workers 2 --fan 4
ends / 3 'script: read failed' "$work/nothing" "$show" --workers 2 --fan 4

ends "$work/refused" 3 'script: row 1: bad number' "$work/nothing" "$blink" run
ends "$work/find" 2 'usage: bad value' "$work/nothing" "$show" --workers 65
ends "$work/find" 2 'usage: bad value' "$work/nothing" "$show" --fan 3
ends "$work/find" 2 'usage: bad value' "$work/nothing" "$show" --schedule 0,,1
ends "$work/find" 4 'run: no worker 4' "$work/nothing" "$show" --schedule 4

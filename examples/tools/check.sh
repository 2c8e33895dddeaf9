#!/bin/sh
# Runs each example, and with `run` by each driver, and compares what it prints with the output beside it; and makes each page, and
# compares. The commands are those of examples/README.md. At the end the program's output is closed early.
set -eu
cd "$(dirname "$0")/.."

# Runs the command that follows on the script of this name.
check() {
    name=$1
    shift
    if ../blink "$@" <"$name.csv" | cmp -s - "$name.out"; then
        echo "$name, $*: as expected"
    else
        echo "$name, $*: another output" >&2
        exit 1
    fi
}

# Runs the script of this name by threads, with these options and each driver.
check_run() {
    script=$1
    shift
    for driver in locked live; do
        check "$script" run "$@" --driver $driver
    done
}

check_run first --workers 2
check_run scripts/shared_key
check_run scripts/deletions
check_run scripts/replacements
check_run scripts/scans --workers 3 --cut ranges
check_run scripts/pages --workers 2 --fan 4
check_run scripts/splits --workers 3 --fan 4
check tour/half_a_split replay --workers 2 --fan 4 --schedule 1,0,0,0,0,0,0,1,1
check scripts/waiting replay --workers 3 --fan 4 --schedule 1,1,1,0,0,0,2
check scripts/replaced replay --workers 2 --fan 4 --schedule 1,1,1,0,0,0,1,1

# Makes the page of this name, of its script and its schedule, and compares.
# The notes that tour.sh put into a page aren't the program's, so they are taken out before the page is compared; its style and script are
# put in.
check_page() {
    page=$(mktemp)
    sh tools/whole.sh "tour/$1.html" | awk -v empty='<script type="text/plain" id="notes"></script>' '
        $0 == "<script type=\"text/plain\" id=\"notes\">" { noted = 1; print empty; next }
        noted { noted = $0 != "</script>"; next }
        { print }
    ' >"$page"
    same=0
    ../blink-show --workers "$2" --fan 4 --schedule "$(cat "tour/$1.schedule")" <"tour/$1.csv" | cmp -s - "$page" || same=1
    rm -f "$page"
    if [ "$same" != 0 ]; then
        echo "$1, the page: another output" >&2
        exit 1
    fi
    echo "$1, the page: as expected"
}

check_page half_a_split 2
check_page overtaking 3
check_page root_grows 2
check_page inner_split 2

# 40,000 finds, whose lines are more than the program's buffer and a pipe hold: whoever reads them takes the first and goes. The
# program is then ended by the pipe, or tells that its output failed; it never goes on for ever.
check_closed() {
    first=$1
    shift
    work=$(mktemp -d)
    trap 'rm -rf "$work"' EXIT
    awk 'BEGIN { for (i = 1; i <= 40000; i++) { print "find,5,"; if (i % 4000 == 0) print "scan,1,0" } }' >"$work/script.csv"
    { timeout 60 ../blink "$@" <"$work/script.csv" 2>"$work/told" || echo $? >"$work/status"; } | head -n 1 >"$work/first"
    if [ "$(cat "$work/first")" != "$first" ]; then
        echo "output closed early, $*: another first line" >&2
        exit 1
    fi
    case $(cat "$work/status" 2>/dev/null) in
    5) [ "$(cat "$work/told")" = "output: write failed" ] ;;
    141) [ ! -s "$work/told" ] ;;
    *) false ;;
    esac || {
        echo "output closed early, $*: another end, $(cat "$work/status" "$work/told")" >&2
        exit 1
    }
    echo "output closed early, $*: status $(cat "$work/status")"
    rm -rf "$work"
}

check_closed absent run --workers 1
check_closed absent run --driver live
check_closed "0 P" replay --workers 1 --schedule 0,0

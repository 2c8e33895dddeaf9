#!/bin/sh
# Refuses each request for memory that a public call makes, one a run: proves and builds the tests of refuse/ over
# copies of the crates that they stand on, and runs each with refuse.c loaded before the C library. First it runs without a refusal, which
# tells how many requests each call makes; then each of them is refused in turn. Where a call starts threads its requests vary
# with their schedule, so the numbers go to twice that count, each in several runs, and the start of a thread counts as a
# request too.
#
# A test checks itself that the answer of a call is right or the error that is named for it, and that what is said of
# afterwards holds; it tells the end of each call by a line. For each call this prints how many of its requests were refused,
# and how the runs ended. It exits with 1 where a run ended in another way, or where a request that a run without a refusal
# makes was never refused. The names of some tests may be given, and then only these are tried.
#
# It needs a C compiler, cc, and the GNU C library. The copies take along what checks of the crates kept in out/, and then it
# takes some 18 minutes; where nothing was kept, each is proved from nothing first, which takes far longer. Run it while no
# check of them runs.
set -eu
here=$(cd "$(dirname "$0")" && pwd)
tries=10
most_tries=200
all='read_script cuts index replay world deal close serve_replay run_batch serve'
work=$(mktemp -d)
trap 'rm -rf "$work"' EXIT
trap 'exit 1' HUP INT TERM
cd "$work"
cc -shared -fPIC -O2 -o refuse.so "$here/refuse.c"
sh "$here/crate.sh" refusals . "$here/refuse"
tests=crates/refusals/out/refusals_tests
if ! (cd crates/refusals && rt test >tests.log 2>&1); then
    cat crates/refusals/tests.log >&2
    exit 1
fi

# Runs a test with the request of this number refused to the call of this name, and sets `end` to how that ended: `right` or
# the error, with `refused` before it where the request came. Another end is told, and ends this script.
run() {
    status=0
    timeout 60 env "REFUSED=$2" "REFUSED_CALL=$3" "LD_PRELOAD=$work/refuse.so" \
        "$tests" "$1::all_is_right" >told 2>counted || status=$?
    end=$(awk -v call="$3" '
        FILENAME == "counted" {
            if ($0 == "refused") {
                refused = 1
            } else if ($0 !~ /^[0-9]+ /) {
                other = 1
            }
            next
        }
        /: (error [0-9]+|AllocError)$/ {
            errors++
            if (index($0, call ": ") == 1) {
                error = substr($0, length(call) + 3)
            } else {
                other = 1
            }
            next
        }
        !/: right$/ && !/^call / && $0 != "back" {
            other = 1
        }
        END {
            if (other || errors > 1 || (errors == 1 && !refused)) {
                print "other"
            } else {
                print (refused ? "refused " : "") (errors == 1 ? error : "right")
            }
        }' counted told)
    if [ "$status" -ne 0 ] || [ "$end" = other ]; then
        echo "$1, request $2 of $3 refused: status $status" >&2
        cat told counted >&2
        exit 1
    fi
}

# Runs a test so often with a request of a call refused, and on until it came, where a run without a refusal made it.
refuse_one() {
    number=$2
    call=$3
    count=$4
    runs=$5
    try=0
    came=
    while [ "$try" -lt "$runs" ]; do
        try=$((try + 1))
        run "$1" "$number" "$call"
        echo "$number $end" >>ends
        case $end in
        refused*) came=yes ;;
        esac
        if [ "$try" -eq "$runs" ] && [ -z "$came" ] && [ "$number" -le "$count" ] && [ "$runs" -lt "$most_tries" ]; then
            runs=$((runs + 1))
        fi
    done
}

# Tells how many of a call's requests were refused, and how the runs ended. Each stands in the file `ends`, after its request's
# number.
tell() {
    awk -v call="$1" -v count="$2" '
        function tell(end, words) {
            if (ends[end] > 0) {
                printf "%s%d %s", between, ends[end], words
                between = ", "
            }
        }
        $2 != "refused" {
            ends["unreached"]++
            next
        }
        {
            if ($1 <= count && !($1 in seen)) {
                numbers++
            }
            seen[$1] = 1
            sub(/^[0-9]+ refused /, "")
            ends[$0]++
        }
        END {
            printf "%s: %d of %d requests refused; runs: ", call, numbers, count
            for (code = 0; code < 256; code++) {
                tell("error " code, "error " code)
            }
            tell("AllocError", "AllocError")
            tell("right", "right all the same")
            tell("unreached", "ended before the request")
            print ""
            exit (numbers == count ? 0 : 1)
        }' ends
}

# Refuses each request of the calls of a test, in so many runs each, and up to so many times the count.
refuse() {
    run "$1" 0 none
    cp counted calls
    while read -r count call; do
        : >ends
        for number in $(seq 1 $((count * $3))); do
            refuse_one "$1" "$number" "$call" "$count" "$2"
        done
        tell "$call" "$count" || missed=yes
    done <calls
}

missed=
for name in ${*:-$all}; do
    case $name in
    run_batch | serve) refuse "$name" $tries 2 ;;
    *) refuse "$name" 1 1 ;;
    esac
done
if [ -n "$missed" ]; then
    echo 'a request was never refused' >&2
    exit 1
fi

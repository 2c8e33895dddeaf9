#!/bin/sh
# Times what the library can't show, by the program of inside/ and by `blink`:
#
# - a batch of 4,096 insertions through `World::finish`, by one worker, on an empty index and on 200,000 entries, against BTreeMap
# - `run_batch` by threads with either driver, against `World::finish`; and a small batch on a large index, against a copy of it
# - finds at a table by `find_all`, 64 keys by a call, against `find`
# - `blink run` on a script of 40,000 rows in ten batches with a scan after each, against a program on a BTreeMap (beside/src/script.rs)
# - ways to search the entries of one page
#
# It proves and builds the program first, over copies of the crates that take along what checks of them kept in out/, which takes some
# twelve processor minutes; where nothing was kept, each is proved from nothing first, which takes far longer. It needs cargo and
# out/libblink.a too.
# Run it while no check runs, on a machine that has little else to do.
set -eu
here=$(cd "$(dirname "$0")" && pwd)
rows=40000
rounds=9
work=$(mktemp -d)
trap 'rm -rf "$work"' EXIT
trap 'exit 1' HUP INT TERM
beside() {
    sh "$here/beside.sh" "$@"
}
"$here/../blink" run </dev/null
beside script make >"$work/rows"
beside script run <"$work/rows" >"$work/expected"
sh "$here/crate.sh" inside "$work" "$here/inside"
cd "$work/crates/inside"
if ! rt run -- finish 0 16 >run.log 2>&1; then
    cat run.log >&2
    exit 1
fi
inside=$work/crates/inside/out/inside
cd "$work"

# The number in the middle of those on standard input.
median() {
    sort -n | sed -n "$(((rounds + 1) / 2))p"
}

# The hundredths of one number in another, as a ratio.
ratio() {
    awk -v one="$1" -v other="$2" 'BEGIN { printf "%.2f", one / other }'
}

for fan in 16 32; do
    for entries in 0 200000; do
        ours=$("$inside" finish $entries $fan)
        theirs=$(beside batch $entries)
        [ "${ours% *}" = "${theirs% *}" ] || { echo "finish: other entries" >&2; exit 1; }
        echo "fan $fan, an insertion on $entries entries by finish: $((${ours#* } / 4096)) ns, $(ratio "${ours#* }" "${theirs#* }") of BTreeMap"
    done
    for entries in 40000 1000000; do
        for threads in 1 4; do
            for _ in $(seq 1 $rounds); do
                "$inside" finds $threads $fan $entries >>finds
                "$inside" find_all $threads $fan $entries >>find_all
            done
            one=$(cut -d' ' -f3 finds | median)
            many=$(cut -d' ' -f3 find_all | median)
            echo "fan $fan, a find among $entries by $threads threads, by find_all: $(ratio "$many" "$one") of find"
            rm finds find_all
        done
    done
done
"$inside" drivers

# The median nanoseconds a row of a command that reads the script.
time_of() {
    for _ in $(seq 1 $rounds); do
        start=$(date +%s%N)
        "$@" <rows >printed
        end=$(date +%s%N)
        cmp -s printed expected || { echo "$*: another output" >&2; exit 1; }
        echo $(((end - start) / rows))
    done | median
}
map=$(time_of "$here/beside/target/release/beside" script run)
for driver in locked live; do
    for workers in 1 4; do
        blink=$(time_of "$here/../out/blink" run --driver $driver --workers $workers)
        echo "a row of a script, $driver by $workers: $blink ns, $(ratio "$blink" "$map") of BTreeMap"
    done
done
"$inside" page_search

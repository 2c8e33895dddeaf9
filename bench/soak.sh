#!/bin/sh
# Searches for faults for a given time: proves and builds the program of bench/soak over copies of the repository's crates,
# and runs it. It makes batches at random, and their cuts, fans, workers and drivers, and compares their answers and entries
# with those of the plain map that one thread keeps; it replays random schedules; and it lets threads insert, delete and
# glance at one table, each with a plain map of its own keys.
#
#     bench/soak.sh SECONDS [SEED]
#
# It prints the seed, and stops at the first difference with the seed of that round, which comes first where SEED is that
# one; of a schedule also with a command that replays it. 0 seconds are one round. What threads do in a round has the seed's
# choices, but not its schedule: that is another each time.
#
# It exits with 1 where something differs, or where a round hangs: the seed that was told last is that of a round before it.
# The copies take along what checks of the crates kept in out/, and then the building takes some seven processor minutes, which
# are not counted; where nothing was kept, each is proved from nothing first, which takes far longer. Run it while no check of
# the crates runs.
set -eu
here=$(cd "$(dirname "$0")" && pwd)
case $# in
1) seed=$(od -An -N8 -tu8 /dev/urandom | tr -d ' ') ;;
2) seed=$2 ;;
*)
    echo 'bench/soak.sh SECONDS [SEED]' >&2
    exit 2
    ;;
esac
seconds=$1
work=$(mktemp -d)
trap 'rm -rf "$work"' EXIT
trap 'exit 1' HUP INT TERM
cd "$work"
sh "$here/crate.sh" soak . "$here/soak"
mkdir -p crates/soak/proofs/tables/carried_out
cd crates/soak
cp "$here/soak/carried_out.antt.txt" proofs/tables/carried_out/Invariants.antt
if ! rt run -- 0 "$seed" >run.log 2>&1; then
    cat run.log >&2
    exit 1
fi
status=0
timeout -k 10 "$((seconds + 60))" out/soak "$seconds" "$seed" || status=$?
case $status in
0) ;;
124 | 137)
    echo 'a round hangs' >&2
    exit 1
    ;;
*) exit 1 ;;
esac

#!/usr/bin/env bash
# Moves per second: a loop of true, 10,000 commands one after the other again and again, and yes until the paper is full.
set -eu
cd "$(dirname "${BASH_SOURCE[0]}")/../.."
./zibkora --help > /dev/null
program=crates/zibkora/out/zibkora
if [ "$("$program" -n -c true 2>&1)" != 'ended 0' ]; then
    echo "texts are not run yet" >&2
    exit 1
fi
# NAME MOVES TEXT: the time of a run that is stopped after so many moves, three times, the best
row() {
    best=
    for _ in 1 2 3; do
        begin=$(date +%s%N)
        "$program" -n --moves "$2" -c "$3" > /dev/null 2>&1 || true
        end=$(date +%s%N)
        t=$((end - begin))
        if [ -z "$best" ] || [ "$t" -lt "$best" ]; then best=$t; fi
    done
    awk -v name="$1" -v moves="$2" -v ns="$best" 'BEGIN { printf "%-28s %12d moves %8.3f s %8.1f million moves a second\n", name, moves, ns / 1e9, moves / ns * 1e3 }'
}
commands=$(for _ in $(seq 2000); do printf 'true;'; done)
row 'loop of true' 100000000 'while true; do true; done'
row 'loop over 2,000 times true' 100000000 "while true; do $commands done"
row 'yes, 1 MiB of paper' 2097160 'yes'
row 'start-up alone' 1 'true'

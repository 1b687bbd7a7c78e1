#!/usr/bin/env bash
# Counts the instructions of the proved program `silkit pipe` for a step: one announcement read and one
# written. Two runs, of 1,000 and 11,000 steps, so that what a run takes once doesn't count. Needs valgrind.
. "$(dirname "$0")/program.sh"
count() {
    python3 bench/stream.py "$1" >"$room/$1" || exit 1
    valgrind --tool=callgrind --callgrind-out-file=/dev/null "$program" pipe A 1000 $(($1 * 1000)) \
        <"$room/$1" 2>&1 >/dev/null | sed -n 's/.*Collected : *//p'
}
few=$(count 1000) many=$(count 11000)
echo "$(((many - few) / 10000)) instructions a step"

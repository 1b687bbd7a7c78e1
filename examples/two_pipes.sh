#!/usr/bin/env bash
# Two `silkit pipe` whose standard input and output are joined by two pipes.
# usage: two_pipes.sh [STEP_A STEP_B DURATION], in nanoseconds of virtual time
cd "$(dirname "$0")/.." || exit 1
step_a=${1:-1000000} step_b=${2:-1000000} duration=${3:-3000000}
program=crates/silkit/out/silkit
# Builds the program where it isn't there or is old.
(cd crates/silkit && rt run -- pipe A 1 0 </dev/null >/dev/null 2>&1)
room=$(mktemp -d) || exit 1
trap 'rm -rf "$room"' EXIT
mkfifo "$room/to_a" "$room/to_b" || exit 1
"$program" pipe A "$step_a" "$duration" <"$room/to_a" >"$room/to_b" &
a=$!
"$program" pipe B "$step_b" "$duration" >"$room/to_a" <"$room/to_b" &
b=$!
wait "$a"; ended_a=$?
wait "$b"; ended_b=$?
echo "A (step $step_a ns) ended with $ended_a, B (step $step_b ns) with $ended_b"
[ "$ended_a" -eq 0 ] && [ "$ended_b" -eq 0 ]

#!/usr/bin/env bash
# Counts the instructions of the proved program `silkit simulate` for a journal entry, and its peak of memory: 2, 8 and 32
# participants of 2,000 steps each, all coordinated and of one step size. Instructions are those of two runs, of 200 and of
# 2,000 steps, so that what a run takes once doesn't count; the peak is that of the longer. Then the same of a whole run of a generated
# scenario, `silkit generate 7 PARTICIPANTS 2000 --run`, in which each participant publishes in each step. Needs valgrind and GNU time, and minutes.
. "$(dirname "$0")/program.sh"
set -o pipefail
scenario() { # PARTICIPANTS STEPS
    printf '{"duration":%d,"participants":[%s]}' $(($2 * 1000)) \
        "$(seq -f '{"name":"N%02.0f","step":1000}' -s , "$1")" >"$room/$1.$2"
}
entries() { # PARTICIPANTS STEPS
    /usr/bin/time -f %M -o "$room/peak" "$program" simulate "$room/$1.$2" | awk '$1 == "journal" {sum += $3} END {print sum}'
}
count() { # PARTICIPANTS STEPS
    valgrind --tool=callgrind --callgrind-out-file=/dev/null "$program" simulate "$room/$1.$2" \
        2>&1 >/dev/null | sed -n 's/.*Collected : *//p'
}
for participants in 2 8 32; do
    scenario "$participants" 200 && scenario "$participants" 2000 || exit 1
    few=$(entries "$participants" 200) && many=$(entries "$participants" 2000) || exit 1
    took=$(($(count "$participants" 2000) - $(count "$participants" 200)))
    printf '%2d participants: %d entries, %d instructions an entry, peak %d MB\n' \
        "$participants" "$many" $((took / (many - few))) $(($(cat "$room/peak") / 1024))
done
for participants in 8 32; do
    "$program" generate 7 "$participants" 2000 >"$room/made" || exit 1
    entries=$("$program" simulate "$room/made" | awk '$1 == "journal" {sum += $3} END {print sum}') || exit 1
    line=$(/usr/bin/time -f %M -o "$room/peak" "$program" generate 7 "$participants" 2000 --run) || exit 1
    took=$(valgrind --tool=callgrind --callgrind-out-file=/dev/null "$program" generate 7 "$participants" 2000 --run \
        2>&1 >/dev/null | sed -n 's/.*Collected : *//p')
    printf '%2d generated participants: %s; %d entries, %d million instructions, %d an entry, peak %d MB\n' \
        "$participants" "$line" "$entries" $((took / 1000000)) $((took / entries)) $(($(cat "$room/peak") / 1024))
done

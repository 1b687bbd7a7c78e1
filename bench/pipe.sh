#!/usr/bin/env bash
# Times the proved program `silkit pipe` on streams of 1, 10 and 100 MB, in seconds per MB.
. "$(dirname "$0")/program.sh"
declare -A per
for megabytes in 1 10 100; do
    python3 bench/stream.py $((megabytes * 1000000 / 22)) >"$room/$megabytes" || exit 1
    best=
    for _ in 1 2 3; do
        start=$(date +%s%N)
        "$program" pipe A 1000 $((megabytes * 1000000 / 22 * 1000)) <"$room/$megabytes" >/dev/null || exit 1
        took=$(($(date +%s%N) - start))
        if [ -z "$best" ] || [ "$took" -lt "$best" ]; then best=$took; fi
    done
    per[$megabytes]=$((best / megabytes))
    printf '%3d MB: 0.%06d s per MB\n' "$megabytes" $((per[$megabytes] / 1000))
done
printf 'ratio of 100 MB to 1 MB, per MB: %d %%\n' $((per[100] * 100 / per[1]))

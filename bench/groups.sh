#!/bin/sh
# How the time of groups grows: 16,384, 32,768 and 65,535 declarations with eight uses each, of the next declarations (a chain),
# of the next ones where the first follow the last (one group), and of no declaration; as ratios to the first, start-up
# taken off.
. "$(dirname -- "$0")/program.sh"
: >"$folder/empty"
idle=$(milliseconds "$program" groups-nothing "$folder/empty" 1)
for part in groups-chain groups-ring groups-nothing; do
    first=
    line="$part:"
    for count in 16384 32768 65535; do
        took=$(($(milliseconds "$program" "$part" "$folder/empty" "$count") - idle)) || exit 1
        [ -n "$first" ] || first=$took
        line="$line $count in $took ms ($(awk -v t="$took" -v f="$first" 'BEGIN { printf "%.2f", t / (f > 0 ? f : 1) }'))"
    done
    echo "$line"
done

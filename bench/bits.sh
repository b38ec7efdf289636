#!/bin/sh
# How the time of a hundred checks grows where two constructors with inner layouts have no number in common, but no given bits that
# differ. Free bits before the inner layouts are cut off from them. Free bits inside of inner layouts, or of layouts that stand
# one deeper, are read along both constructors, for each range that is looked at: the time grows with a power of their number. In the last case a number fits both, and the least is found.
. "$(dirname -- "$0")/program.sh"
: >"$folder/empty"
idle=$(milliseconds "$program" bits-before "$folder/empty" 1)

# A line of times, as ratios to the first, start-up taken off.
grows() {
    part=$1
    shift
    first=
    line="$part:"
    for free in "$@"; do
        took=$(($(milliseconds "$program" "$part" "$folder/empty" "$free") - idle)) || exit 1
        [ -n "$first" ] || first=$took
        line="$line $free bits $took ms ($(awk -v t="$took" -v f="$first" 'BEGIN { printf "%.2f", t / (f > 0 ? f : 1) }'))"
    done
    echo "$line"
}
grows bits-before 31 62 124
grows bits-inside 31 62 124
grows bits-deeper 31 62 124
grows bits-shared 31 62 124

#!/bin/sh
# How the time of the solver grows: a chain of variables, each an array of another, and a tower of them, each a map from
# another to itself, whose outermost type written out would have 2^height parts. Each is built in both orders: every
# variable made of the next, or of the one before. Last two towers of maps whose outermost variables are made equal: they
# have 2^height paths, and as many pairs of variables as they are high. Their time is told as a share of that of one
# tower of the same height too, where that takes long enough.
. "$(dirname -- "$0")/program.sh"
: >"$folder/empty"
idle=$(milliseconds "$program" chain "$folder/empty" 1)
for part in chain chain-up doublings doublings-up; do
    line="$part:"
    for height in 64 10000 100000 400000; do
        took=$(milliseconds "$program" "$part" "$folder/empty" "$height") || exit 1
        line="$line $height $((took - idle)) ms"
    done
    echo "$line"
done
for order in "" -up; do
    line="equal-towers$order:"
    for height in 16 64 10000 100000 400000; do
        one=$(milliseconds "$program" "doublings$order" "$folder/empty" "$height") || exit 1
        two=$(milliseconds "$program" "equal-towers$order" "$folder/empty" "$height") || exit 1
        line="$line $height $((two - idle)) ms"
        if [ "$one" -gt "$idle" ]; then line="$line ($(((two - idle) * 10 / (one - idle))) tenths of one tower)"; fi
    done
    echo "$line"
done

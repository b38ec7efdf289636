#!/bin/sh
# How the time of check grows: modules of 16,384, 32,768 and 65,535 declarations that each use the one before, of one value
# that uses as many, and of one block with as many names that each hide the one before; as ratios to the first. Start-up, timed
# with no words, is taken off; reading, tokens and the tree are in these times.
without_bench=yes
. "$(dirname -- "$0")/program.sh"
ddl=$top/ddl
"$ddl" >/dev/null 2>&1

# A module with so many uses, of a kind.
module() {
    awk -v kind="$1" -v count="$2" 'BEGIN {
        if (kind == "declarations") {
            print "def a0 = 0"
            for (i = 1; i < count; i++) print "def a" i " = a" (i - 1)
        } else if (kind == "uses") {
            printf "def b = 0\ndef a = [b"
            for (i = 1; i < count; i++) printf ", b"
            print "]"
        } else {
            printf "def Main = block { let x = 0"
            for (i = 1; i < count; i++) printf "; let x = x"
            print " }"
        }
    }'
}

start_up() { "$ddl" || true; }
start=$(microseconds start_up)
for kind in declarations uses locals; do
    first=
    line="$kind:"
    for count in 16384 32768 65535; do
        module "$kind" "$count" >"$folder/A.ddl"
        took=$(($(microseconds "$ddl" check "$folder/A") - start)) || exit 1
        [ -n "$first" ] || first=$took
        line="$line $count in $((took / 1000)) ms ($(awk -v t="$took" -v f="$first" 'BEGIN { printf "%.2f", t / (f > 0 ? f : 1) }'))"
    done
    echo "$line"
done

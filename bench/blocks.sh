#!/bin/sh
# Times runs of the program: a short block on a file of 100 MB beside the reading of that file, and a block of 2,000 items
# on 2,000 bytes beside one of 1,000 on 1,000. Prints ratios; start-up, timed with no words, is taken off.
without_bench=yes
. "$(dirname -- "$0")/program.sh"
ddl=$top/ddl
"$ddl" >/dev/null 2>&1

# The microseconds of a run of module $1 on input $2, without start-up.
run_of() { echo $(($(microseconds "$ddl" run "$folder/$1" "$folder/$2") - start)); }

block_of() {
    printf 'def Main = block {'
    i=1
    while [ "$i" -lt "$1" ]; do printf ' UInt8;'; i=$((i + 1)); done
    printf ' UInt8 }'
}

start_up() { "$ddl" || true; }
start=$(microseconds start_up)

printf 'def Main = block { UInt8; UInt8 }' >"$folder/pair.ddl"
head -c 100000000 /dev/zero >"$folder/large"
once=$(microseconds cksum "$folder/large")
pair=$(run_of pair large)
echo "a block of two bytes on 100 MB: $((pair / 1000)) ms, $((pair * 100 / once)) % of reading the file once with cksum ($((once / 1000)) ms)"

for n in 1000 2000; do
    block_of "$n" >"$folder/block$n.ddl"
    head -c "$n" /dev/zero >"$folder/bytes$n"
done
small=$(run_of block1000 bytes1000)
great=$(run_of block2000 bytes2000)
echo "a block of 2,000 items: $great us, $((great * 100 / small)) % of one of 1,000 ($small us)"

#!/bin/sh
# Bytes a second of Class::run_length, and of a loop over a table of 256 entries in C, on one text of small letters.
. "$(dirname -- "$0")/program.sh"
bytes=10000000
rounds=50
head -c "$bytes" /dev/zero | tr '\0' 'q' >"$folder/text"
cat >"$folder/table.c" <<'C'
#include <stdio.h>
#include <stdlib.h>
static unsigned char in[256];
static size_t run_length(const unsigned char *text, size_t length) {
    size_t n = 0;
    while (n < length && in[text[n]]) n++;
    return n;
}
int main(int count, char **words) {
    FILE *file = fopen(words[1], "rb");
    unsigned long rounds = strtoul(words[2], 0, 10), sum = 0;
    unsigned char *text = malloc(10000000);
    if (count < 3 || !file || !text) return 1;
    size_t length = fread(text, 1, 10000000, file);
    for (int byte = 'a'; byte <= 'z'; byte++) in[byte] = 1;
    for (unsigned long i = 0; i < rounds; i++) {
        sum += run_length(text, length);
        __asm__ volatile("" ::: "memory");
    }
    printf("%lu\n", sum);
    return 0;
}
C
cc -O2 -o "$folder/table" "$folder/table.c" || exit 1
[ "$("$program" class "$folder/text" 3)" = "$("$folder/table" "$folder/text" 3)" ] || { echo "the two runs differ" >&2; exit 1; }
idle=$(milliseconds "$program" class "$folder/text" 1)
ours=$(($(milliseconds "$program" class "$folder/text" $((rounds + 1))) - idle))
theirs_idle=$(milliseconds "$folder/table" "$folder/text" 1)
theirs=$(($(milliseconds "$folder/table" "$folder/text" $((rounds + 1))) - theirs_idle))
awk -v b="$bytes" -v r="$rounds" -v o="$ours" -v t="$theirs" 'BEGIN {
    printf "run_length: %.0f MB/s, the table in C: %.0f MB/s, ratio %.2f\n", b * r / o / 1000, b * r / t / 1000, t / o }'

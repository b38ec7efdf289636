#!/bin/sh
# How the time of the lexer and of the layout grows: texts of 1, 2 and 4 MiB, as ratios to the first, start-up taken off.
. "$(dirname -- "$0")/program.sh"

# A text of so many bytes, of a kind: whole lines of 128 or 32 bytes.
text() {
    case $1 in
    code) yes 'def Main = block { first = UInt8; let second = Match "ab"; ^ (first + 0x1f) } -- a comment that fills the line to its end, here' | head -c "$2" ;;
    comment) printf -- '{-'; yes 'what a comment holds' | head -c "$(($2 - 4))"; printf -- '-}' ;;
    nested) yes '{- {- one in another -} -}     ' | head -c "$2" ;;
    literal) printf '"'; yes 'a text that goes on and on' | tr '\n' ' ' | head -c "$(($2 - 2))"; printf '"' ;;
    esac
}

: >"$folder/empty"
idle=$(milliseconds "$program" lex "$folder/empty" 1)
for kind in code comment nested literal; do
    first=
    line="$kind:"
    for mebibytes in 1 2 4; do
        text "$kind" "$((mebibytes * 1048576))" >"$folder/text" 2>/dev/null
        took=$(milliseconds "$program" lex "$folder/text" 1) || { echo "$kind: no tokens" >&2; exit 1; }
        took=$((took - idle))
        [ -n "$first" ] || first=$took
        line="$line $(awk -v m="$mebibytes" -v t="$took" -v f="$first" 'BEGIN { printf "%d MiB %d ms (%.2f)", m, t, t / (f ? f : 1) }')"
    done
    echo "$line"
done

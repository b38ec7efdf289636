# Sourced by the scripts beside it: builds ddl_bench, unless $without_bench is set, names it in $program, and gives a folder
# that goes at the end.
top=$(CDPATH='' cd -- "$(dirname -- "$0")/.." && pwd) || exit 1
program=$top/crates/ddl_bench/out/ddl_bench
if [ -z "${without_bench-}" ]; then
    (cd "$top/crates/ddl_bench" && rt run >/dev/null 2>&1)
    [ -x "$program" ] || { echo "ddl_bench does not build: try rt check in crates/ddl_bench" >&2; exit 1; }
fi
folder=$(mktemp -d) || exit 1
trap 'rm -rf "$folder"' EXIT

# The microseconds that a command takes, the least of five runs; its output goes to a file.
microseconds() {
    least=
    for _ in 1 2 3 4 5; do
        begin=$(date +%s%N)
        "$@" >"$folder/output" || exit 1
        took=$((($(date +%s%N) - begin) / 1000))
        if [ -z "$least" ] || [ "$took" -lt "$least" ]; then least=$took; fi
    done
    echo "$least"
}

# The same in milliseconds.
milliseconds() { echo $(($(microseconds "$@") / 1000)); }

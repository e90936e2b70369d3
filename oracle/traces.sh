#!/bin/sh
# Runs every stored trace of a folder through a program and compares its output with the stored answer, byte for byte.
#   traces.sh [DIR [COMMAND...]]    DIR: NNN.bin with NNN.out beside it (default ../shared/oracle/traces/dev beside the project)
#                                   COMMAND reads the trace on standard input (default target/bin/trace)
# Prints each trace that differs and the count. Exit status 0 only if all agree, and there was at least one.
set -u
root=$(cd "$(dirname "$0")/.." && pwd)
dir=${1:-$root/../shared/oracle/traces/dev}
[ $# -eq 0 ] || shift
[ $# -gt 0 ] || set -- "$root/target/bin/trace"
got=$(mktemp)
trap 'rm -f "$got"' EXIT
agree=0
differ=0
for bin in "$dir"/*.bin; do
    [ -f "$bin" ] || continue
    if "$@" < "$bin" > "$got" && cmp -s "$got" "${bin%.bin}.out"; then
        agree=$((agree + 1))
    else
        differ=$((differ + 1))
        echo "differs: $(basename "$bin")"
    fi
done
echo "traces: $agree agree, $differ differ"
[ "$agree" -gt 0 ] && [ "$differ" -eq 0 ]

#!/usr/bin/env bash
# Checks examples/range: a run checks itself, and prints the table and writes the plot that are in the
# examples, each time.
#
# Usage: tests/range.sh BUILT, the folder with the program range.
set -euo pipefail

examples=$(cd "$(dirname "$0")/../examples" && pwd)
built=$1
checks=0

# Two files are the same.
same() {
    cmp "$1" "$2"
    checks=$((checks + 1))
}

# With these arguments the program ends with that status, and prints what is in a file.
ends() {
    local expected=$1 printed=$2 status=0
    shift 2
    "$built/range" "$@" > "$built/printed" 2> /dev/null || status=$?
    [ "$status" = "$expected" ] || { tail -n 1 "$built/printed"; echo "range $*: status $status, not $expected"; exit 1; }
    same "$printed" "$built/printed"
}

# Twice with a plot, and once without.
for run in first second; do
    rm -f "$built/$run.svg"
    ends 0 "$examples/range.expected" "$built/$run.svg"
    same "$examples/range.svg" "$built/$run.svg"
done
ends 0 "$examples/range.expected"

# 360 rows, each with its angle, in order.
grep -E '^ *[0-9]+ ' "$examples/range.expected" | awk '{ print $1 }' > "$built/angles"
seq 0 359 > "$built/expected_angles"
same "$built/expected_angles" "$built/angles"

# Two plots, and an option, are refused.
ends 2 /dev/null "$built/first.svg" "$built/second.svg"
ends 2 /dev/null --help

echo "range: $checks checks, 0 failed"

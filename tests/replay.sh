#!/usr/bin/env bash
# Checks tests/replay.c: on every script of crates/replay the C functions answer as the proved program
# does, all in one run and each alone, and on examples/sweep.replay.
#
# Usage: tests/replay.sh BUILT, the folder with the program replay.
set -euo pipefail

root=$(cd "$(dirname "$0")/.." && pwd)
built=$(cd "$1" && pwd)
crate=$root/crates/replay
checks=0

# Two files are the same.
same() {
    cmp "$1" "$2"
    checks=$((checks + 1))
}

# With these arguments and on standard input the program prints what is in a file.
prints() {
    local expected=$1
    shift
    "$built/replay" "$@" > "$built/replay.printed" 2> "$built/replay.errors"
    same "$expected" "$built/replay.printed"
}

mapfile -t scripts < "$crate/args"
cd "$crate/data"

prints "$crate/stdout" "${scripts[@]}" < "$crate/stdin"
same /dev/null "$built/replay.errors"

# Each script alone. Its trace is the next part of the whole, up to its line of events.
from=1
for script in "${scripts[@]}"; do
    sed -n "$from,\${p;/^events /q}" "$crate/stdout" > "$built/replay.expected"
    prints "$built/replay.expected" "$script" < "$crate/stdin"
    from=$((from + $(wc -l < "$built/replay.expected")))
done
sed -n "$from,\$p" "$crate/stdout" > "$built/replay.expected"
same /dev/null "$built/replay.expected"

prints "$root/examples/sweep.trace" < "$root/examples/sweep.replay"

# Lines may end in a carriage return.
sed 's/$/\r/' "$root/examples/sweep.replay" > "$built/replay.crlf"
prints "$root/examples/sweep.trace" "$built/replay.crlf" < /dev/null

# A script that is not there is left out, and standard input has nothing when it is named again.
printf 'events 2\nevents 0\n' > "$built/replay.expected"
prints "$built/replay.expected" - not-there - < <(echo 'tick 2')

# The longest line is kept: 600,000 characters, where blanks after a blank do not count. One more is a
# bad line.
long=$(printf '  00%.0s' {1..199998})
printf 'events 199998\n' > "$built/replay.expected"
prints "$built/replay.expected" < <(printf '\tbyte%s\r\n' "$long")
printf 'bad line 1\nevents 0\n' > "$built/replay.expected"
prints "$built/replay.expected" < <(printf '\tbyte%s \r\n' "$long")

echo "replay: $checks checks, 0 failed"

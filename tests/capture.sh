#!/usr/bin/env bash
# Checks examples/capture: on the sample capture, which must be what the generator makes, and on
# what it writes itself.
#
# Usage: tests/capture.sh BUILT, the folder with the programs capture and make_capture.
set -euo pipefail

examples=$(cd "$(dirname "$0")/../examples" && pwd)
built=$1
checks=0

# Two files are the same.
same() {
    cmp "$1" "$2"
    checks=$((checks + 1))
}

# On standard input the program prints what is in a file.
prints() {
    "$built/capture" > "$built/printed"
    same "$1" "$built/printed"
}

# With these arguments the program says how it is used, and ends with status 2.
refuses() {
    local status=0
    "$built/capture" "$@" < /dev/null > /dev/null 2>&1 || status=$?
    [ "$status" = 2 ] || { echo "capture $*: status $status, not 2"; exit 1; }
    checks=$((checks + 1))
}

"$built/make_capture" "$built/capture.bin" "$built/capture.expected"
same "$examples/capture.bin" "$built/capture.bin"
same "$examples/capture.expected" "$built/capture.expected"
prints "$examples/capture.expected" < "$examples/capture.bin"

"$built/capture" --ping 0001 > "$built/ping.bin"
printf '\x03\x01\x01\x03\x9D\xC8\x00' > "$built/ping.expected"
same "$built/ping.expected" "$built/ping.bin"
printf 'good 1\ndamaged 0\ntail 0\n' > "$built/one.expected"
prints "$built/one.expected" < "$built/ping.bin"

# No input, and an unfinished run that is longer than any frame.
printf 'good 0\ndamaged 0\ntail 0\n' > "$built/none.expected"
prints "$built/none.expected" < /dev/null
printf '%0300d' 0 > "$built/tail.bin"
printf 'good 0\ndamaged 0\ntail 300\n' > "$built/tail.expected"
prints "$built/tail.expected" < "$built/tail.bin"

refuses --ping 0
refuses --ping 10001
refuses --ping 1g
refuses --ping
refuses FILE

echo "capture: $checks checks, 0 failed"

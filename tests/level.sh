#!/usr/bin/env bash
# Checks examples/level: on the sample capture, which must be what the generator makes, and on the
# TX frames that it writes.
#
# Usage: tests/level.sh BUILT, the folder with the programs level and make_level.
set -euo pipefail

examples=$(cd "$(dirname "$0")/../examples" && pwd)
built=$1
checks=0

# Two files are the same.
same() {
    cmp "$1" "$2"
    checks=$((checks + 1))
}

# On standard input the program prints what is in a file.
prints() {
    "$built/level" > "$built/printed"
    same "$1" "$built/printed"
}

# On standard input the program prints the heading and this line.
prints_line() {
    { head -n 1 "$examples/level.expected"; echo "$1"; } > "$built/lines"
    prints "$built/lines"
}

# With a tag and a packet in hex the program writes the frame that is in a file.
writes() {
    "$built/level" --tx "$2" "$3" > "$built/written"
    same "$1" "$built/written"
}

# With these arguments the program ends with that status, and writes nothing.
ends() {
    local expected=$1 status=0
    shift
    "$built/level" "$@" < /dev/null > "$built/printed" 2> /dev/null || status=$?
    [ "$status" = "$expected" ] || { echo "level $*: status $status, not $expected"; exit 1; }
    same /dev/null "$built/printed"
}

"$built/make_level" "$built/level.bin" "$built/level.expected" "$built/longest.bin"
same "$examples/level.bin" "$built/level.bin"
same "$examples/level.expected" "$built/level.expected"
prints "$examples/level.expected" < "$examples/level.bin"

# P's TX frames of C.2.4 and C.5.1, and the longest packet.
printf '\x03\x04\x04\x01\x08\x48\x65\x6C\x6C\x6F\x26\x40\x00' > "$built/hello.bin"
writes "$built/hello.bin" 0004 48656C6C6F
printf '\x03\x04\x28\x01\x05\x68\x69\x24\x7D\x00' > "$built/hi.bin"
writes "$built/hi.bin" 28 6869
longest=$(printf '%02x' {1..255})
writes "$built/longest.bin" FFFE "$longest"
cat "$built/hello.bin" "$built/longest.bin" > "$built/two.bin"
prints_line '0 RX, 0 lost, 0 TX_DONE, 2 other, 0 wrong, 0 damaged, tail 0' < "$built/two.bin"

# No input, and an unfinished run that is longer than any frame.
prints_line '0 RX, 0 lost, 0 TX_DONE, 0 other, 0 wrong, 0 damaged, tail 0' < /dev/null
printf '%0300d' 0 > "$built/tail.bin"
prints_line '0 RX, 0 lost, 0 TX_DONE, 0 other, 0 wrong, 0 damaged, tail 300' < "$built/tail.bin"

# The library refuses tag 0, no bytes and 256 bytes.
ends 1 --tx 0 6869
ends 1 --tx 1 ''
ends 1 --tx 1 "${longest}00"
ends 2 --tx 10001 6869
ends 2 --tx -1 6869
ends 2 --tx 1 686
ends 2 --tx 1 6g
ends 2 --tx 1 "$longest$longest"
ends 2 --tx 1
ends 2 FILE

echo "level: $checks checks, 0 failed"

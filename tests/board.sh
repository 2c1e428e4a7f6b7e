#!/usr/bin/env bash
# Checks the library for a microcontroller, as tools/cross builds it, on an emulated board: the C tests of
# the header, of the dongle, and, with fewer calls, of frames, of the ledger and of the time on air; the names that
# the archive asks its program for; the traces of tests/replay.c, which must be those of the proved program on its
# scripts, and those of the library for this machine on random ones; and the stack that each function takes. The
# board of the two targets for ARM has a Cortex-M4, which runs the code for a Cortex-M0 too.
#
# Usage: tests/board.sh BUILT TARGET: the folder with the program replay, to which all output goes, and
# thumbv7em, thumbv6m or riscv32. It needs QEMU, gcc and picolibc for the target.
set -euo pipefail

root=$(cd "$(dirname "$0")/.." && pwd)
built=$(cd "$1" && pwd)
target=$2
out=$built/$target
seeds=(1 2 3 4 5 6 7 8)
events=50000
checks=0

fail() {
    echo "board $target: $*"
    exit 1
}

. "$root/tests/emulated.sh"
emulate "$target"
[ -f "$built/replay" ] || fail "there is no $built/replay"

# What the archive asks its program for: docs/FIRMWARE.md has these names.
asked=$("${tools}nm" -u "$library" | awk '$1 == "U" { print $2 }' | LC_ALL=C sort | tr '\n' ' ')
case $target in
    thumbv7em) wanted='__aeabi_memclr __aeabi_memclr4 __aeabi_memcpy __aeabi_uldivmod ' ;;
    thumbv6m)
        wanted='__aeabi_llsl __aeabi_lmul __aeabi_memclr __aeabi_memclr4 __aeabi_memcpy __aeabi_uidiv __aeabi_uldivmod '
        ;;
    riscv32) wanted='__udivdi3 memcpy memset ' ;;
esac
[ "$asked" = "$wanted" ] || fail "the archive asks for $asked"

# A Cortex-M0 has no loads and stores of words that are not aligned. With a bit of its CCR a Cortex-M4
# has none either.
start=()
if [ "$target" = thumbv6m ]; then
    start=("$out-start.c")
    echo '__attribute__((constructor)) static void start(void) { *(volatile unsigned *)0xE000ED14 |= 8; }' \
        > "${start[0]}"
fi

# Builds a test.
build() { # NAME
    "${cc[@]}" "$root/tests/$1.c" "${start[@]}" "$library" -o "$out-$1.elf"
}

# Runs a test with these arguments. It must end with 0, and in time; what it prints goes to $out.printed.
run() { # NAME ARGUMENT ..
    local name=$1 status=0
    shift
    run_emulated "$out-$name.elf" "$out.printed" "$@" > "$out.said" 2>&1 || status=$?
    if [ "$status" != 0 ] || [ -s "$out.said" ]; then
        tail -n 20 "$out.said" "$out.printed" || true
        fail "$name${*:+ $*} ends with $status"
    fi
}

# The last line that a test printed says that nothing failed.
passed() {
    tail -n 1 "$out.printed" | grep -qE '[1-9][0-9]* (checks|functions), 0 failed' || {
        cat "$out.printed"
        fail "a check failed"
    }
    checks=$((checks + 1))
}

# Two files are the same.
same() {
    cmp "$1" "$2"
    checks=$((checks + 1))
}

for name in header dongle frame ledger ledger_words airtime replay; do build $name; done
run header
passed
run dongle
passed
run frame 10000 # runs of bytes
passed
run ledger 1 # round of the tags
passed
run ledger_words 60000 # calls
passed
run airtime 32 # of the lengths every 32nd
passed

# The scripts of the proved program, in one run. What it reads from standard input is in a file.
mapfile -t scripts < <(sed 's|^-$|../stdin|' "$root/crates/replay/args")
cd "$root/crates/replay/data"
run replay "${scripts[@]}"
same "$root/crates/replay/stdout" "$out.printed"
cd "$root/examples"
run replay sweep.replay
same sweep.trace "$out.printed"

# Random scripts: the trace is whole, and the same as on this machine.
cd "$built"
echo "events $events" > "$out.last"
: > "$out.traces"
for seed in "${seeds[@]}"; do
    "$root/tests/random_script" "$seed" $events > "$target.replay"
    "$built/replay" "$target.replay" > "$out.trace"
    same "$out.last" <(tail -n 1 "$out.trace")
    run replay "$target.replay"
    same "$out.trace" "$out.printed"
    cat "$out.trace" >> "$out.traces"
done

# They have lines of every kind: each number and each order, and each message as the first of an answer.
# Messages are as they are encoded where no byte of the tag is zero, unless they have none.
while IFS=: read -r kind pattern; do
    grep -qE -- "$pattern" "$out.traces" || fail "no line of the random traces has $kind"
    checks=$((checks + 1))
done << 'END'
ROOM:^[0-9]+ 1 none -$
STALL:^[0-9]+ 2 none -$
PLACE:^[0-9]+ 3 none -$
standby: 0 standby
receive: 0 receive
transmit at once: 0 transmit/0/[0-9A-F]
transmit after listening: 0 transmit/1/[0-9A-F]
transmit with 255 bytes: 0 transmit/[01]/[0-9A-F]{510} 0
configure with LoRa: 0 configure/0/01[0-9A-F]{30} [-0]
configure with LoRa and LDRO: 0 configure/1/01[0-9A-F]{30} [-0]
configure with FSK: 0 configure/0/02[0-9A-F]{32,48} [-0]
OK: 0680[0-9A-F]{8}00$
OK to GET_INFO: 0580....010102
OK to SET_CONFIG: 0480....[0-9A-F]{2}010[12]
EPARAM: 0581....0103....00$
ELENGTH: 0581....0203....00$
ENOTCONFIGURED: 0581....0303....00$
EMODULATION: 0581....0403....00$
EUNKNOWN_CMD: 0581....0503....00$
EBUSY: 0581....0603....00$
ERADIO to SET_CONFIG: 0881....0101
ERADIO: 028101050101
EFRAME: 028101050201
TX_DONE transmitted: 04C1....
TX_DONE busy: 05C1....01010101
TX_DONE cancelled: 05C1....02010101
16 TX_DONE: configure/[01]/[0-9A-F]+ ([0-9A-F]{2}C1([0-9A-F]{2})*00){16}$
RX: 02C001
RX with 255 bytes: 02C001[0-9A-F]{558}00$
END

build stack
run stack
passed
cp "$out.printed" "$out.stack"

echo "board $target: $checks checks, 0 failed"

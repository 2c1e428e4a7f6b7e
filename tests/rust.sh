#!/usr/bin/env bash
# Runs the tests of the Rust wrapper, and the examples of its documentation where there is a rustdoc.
#
# Usage: tests/rust.sh BUILT LIBRARY, the folder with the test program rust and with libdonglora.rlib,
# and the static library.
set -euo pipefail

root=$(cd "$(dirname "$0")/.." && pwd)
built=$1
library=$2
tests=0

# The test program or rustdoc has run, and has said how many tests passed.
passed() {
    local count
    count=$(sed -n 's/^test result: ok\. \([0-9]*\) passed; 0 failed; 0 ignored;.*/\1/p' "$1")
    [ -n "$count" ] && [ "$count" -gt 0 ] || { cat "$1"; exit 1; }
    tests=$((tests + count))
}

"$built/rust" > "$built/rust.printed" 2>&1 || { cat "$built/rust.printed"; exit 1; }
passed "$built/rust.printed"

if command -v "${RUSTDOC:-rustdoc}" > /dev/null; then
    "${RUSTDOC:-rustdoc}" --test --edition 2021 --crate-name donglora "$root/rust/src/lib.rs" \
        --extern donglora="$built/libdonglora.rlib" -C link-arg="$library" \
        > "$built/rust.printed" 2>&1 || { cat "$built/rust.printed"; exit 1; }
    passed "$built/rust.printed"
fi

echo "rust: $tests tests, 0 failed"

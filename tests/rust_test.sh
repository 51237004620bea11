#!/bin/sh
# The Rust package: its layout against the header, its tests, the examples of its documentation, and the transfer. RIBSADDLE_LIB_DIR names the folder of
# libribsaddle.a; without it, the library is proved and built.
set -eu
here=$(cd "$(dirname "$0")/.." && pwd)
cd "$here/bindings/rust"
. "$here/tests/machine.sh"
if [ -n "$cross" ]; then
    echo "rust_test.sh: left out, $cross"
    exit 0
fi
if ! command -v cargo > /dev/null; then
    echo "rust_test.sh: left out, there is no cargo"
    exit 0
fi
if [ -z "${RIBSADDLE_LIB_DIR:-}" ]; then
    (cd "$here" && . tests/library.sh)
    export RIBSADDLE_LIB_DIR="$here/target/staticlib"
fi
export CARGO_TARGET_DIR="$here/target/cargo"
mkdir -p "$CARGO_TARGET_DIR"
if command -v cc > /dev/null; then
    $C_COMPILER -std=c11 -Wall -Wextra -pedantic -Werror -fsyntax-only tests/layout.c
    echo "rust_test.sh: layout: ok"
else
    echo "rust_test.sh: layout: left out, there is no cc"
fi
if ! $CARGO_COMMAND test --offline --quiet > "$CARGO_TARGET_DIR/said" 2>&1; then
    cat "$CARGO_TARGET_DIR/said"
    exit 1
fi
grep '^test result' "$CARGO_TARGET_DIR/said"
timeout 600 $CARGO_COMMAND run --offline --quiet --example transfer
if [ "$(wc -l < examples/transfer.rs)" -ge 100 ]; then
    echo "rust_test.sh: the example has 100 lines or more"
    exit 1
fi
# The build step says what is missing.
if RIBSADDLE_LIB_DIR=/nowhere $CARGO_COMMAND build --offline --quiet > "$CARGO_TARGET_DIR/said" 2>&1 ||
    ! grep -q 'RIBSADDLE_LIB_DIR names /nowhere, and there is no libribsaddle.a in it' "$CARGO_TARGET_DIR/said"; then
    echo "rust_test.sh: the build step did not say that the library is missing"
    exit 1
fi
echo "rust_test.sh: ok"

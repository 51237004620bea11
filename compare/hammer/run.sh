#!/bin/sh
# Tries the compiled library by itself, whose machine code the proofs do not reach: docs/PROOFS.md, "The comparison at scale". Each step says what it did;
# one whose tool is missing says so.
#
#     sh compare/hammer/run.sh [PERCENT [SEED]]     100 percent and seed 1 where they are not given; AFL++ runs at 100 only
#
# RIBSADDLE_LIB_DIR names the folder of libribsaddle.a; without it, the library is proved and built.
set -eu
root=$(cd "$(dirname "$0")/../.." && pwd)
cd "$root"
percent=${1:-100}
seed=${2:-1}
if [ -z "${RIBSADDLE_LIB_DIR:-}" ]; then
    . tests/library.sh
    RIBSADDLE_LIB_DIR=$root/target/staticlib
fi
library=$RIBSADDLE_LIB_DIR/libribsaddle.a
. tests/machine.sh
build=target/hammer
mkdir -p "$build"
caller="compare/hammer/hammer.c $library -std=c11 -Wall -Wextra -Werror -g -O1"

$C_COMPILER $caller -o "$build/plain"
timeout 3600 $emulated "$build/plain" $((5000 * percent)) "$seed"

if [ -n "$emulated" ]; then
    echo "hammer: sanitizers, memcheck and AFL++ are left out, they do not run under an emulator"
    exit 0
fi
cc $caller -fsanitize=address,undefined -fno-sanitize-recover=all -o "$build/sanitized"
printf 'with the C caller under address and undefined-behaviour sanitizers, '
timeout 3600 "$build/sanitized" $((2000 * percent)) $((seed + 1))

if command -v valgrind > /dev/null; then
    printf 'under memcheck, '
    timeout 3600 valgrind -q --error-exitcode=9 --undef-value-errors=yes "$build/plain" $((50 * percent)) $((seed + 2))
    cc $caller -DPLANTED -o "$build/planted"
    if valgrind -q --error-exitcode=9 "$build/planted" 5 "$seed" > "$build/planted.said" 2>&1 || ! grep -q 'Invalid read' "$build/planted.said"; then
        echo "hammer: a byte read past what was lent was not found"
        exit 1
    fi
else
    echo "hammer: memcheck is left out, there is no valgrind"
fi

if command -v cargo > /dev/null; then
    # The sanitizer of a Rust caller is not in the stable compiler's options: the variable lets it through.
    if (cd bindings/rust && RUSTC_BOOTSTRAP=1 RUSTFLAGS=-Zsanitizer=address RIBSADDLE_LIB_DIR=$RIBSADDLE_LIB_DIR CARGO_TARGET_DIR=$root/$build/cargo \
        cargo test --offline --quiet --tests --target x86_64-unknown-linux-gnu) > "$build/rust.said" 2>&1; then
        echo "with the Rust caller under the address sanitizer: $(grep -c '^test result: ok' "$build/rust.said") lists of tests pass"
    elif grep -q 'AddressSanitizer\|test result: FAILED' "$build/rust.said"; then
        cat "$build/rust.said"
        exit 1
    else
        echo "hammer: the Rust caller's sanitizer is left out, this compiler has none"
    fi
fi

if [ "$percent" -lt 100 ]; then
    exit 0
fi
if ! command -v afl-clang-fast > /dev/null; then
    echo "hammer: AFL++ is left out, there is no afl-clang-fast"
    exit 0
fi
# The caller is instrumented, the library is not; its allocations end at guarded pages.
afl-clang-fast $caller -o "$build/afl" > "$build/afl.said" 2>&1 || { cat "$build/afl.said"; exit 1; }
rm -rf "$build/seeds" "$build/found"
mkdir -p "$build/seeds"
for size in 200 700 2000; do head -c "$size" "$library" > "$build/seeds/$size"; done
AFL_SKIP_CPUFREQ=1 AFL_I_DONT_CARE_ABOUT_MISSING_CRASHES=1 AFL_NO_UI=1 AFL_NO_AFFINITY=1 AFL_PRELOAD=/usr/lib/afl/libdislocator.so \
    afl-fuzz -V "${AFL_SECONDS:-300}" -t 2000 -m none -s "$seed" -i "$build/seeds" -o "$build/found" -- "$build/afl" > "$build/afl.said" 2>&1 || { tail -20 "$build/afl.said"; exit 1; }
stats=$build/found/default/fuzzer_stats
of() { sed -n "s/^$1 *: //p" "$stats"; }
echo "AFL++: $(of execs_done) programs in $(of run_time) s, $(of corpus_count) kept, $(of saved_crashes) crashes, $(of saved_hangs) hangs"
[ "$(of saved_crashes)" = 0 ] && [ "$(of saved_hangs)" = 0 ]

#!/bin/sh
# Prints the table of the port beside the Rust: median nanoseconds of an operation, both built for release and run in one process on the same
# inputs, and instructions of an operation as callgrind counts them (left out with the word 'times'). On a processor that is not an x86-64 one
# the emulator counts the instructions (bench/count.c), and the nanoseconds are left out.
#
#     sh bench/run.sh [times]
#
# RIBSADDLE_LIB_DIR names the folder of libribsaddle.a; without it, the library is proved and built. UTP_RS_SRC: oracle/README.md.
set -eu
root=$(cd "$(dirname "$0")/.." && pwd)
cd "$root"
if [ -z "${RIBSADDLE_LIB_DIR:-}" ]; then
    . tests/library.sh
    RIBSADDLE_LIB_DIR=$root/target/staticlib
fi
. oracle/edit.sh
. tests/machine.sh
if [ -n "$cross" ]; then
    echo "bench: left out, $cross"
    exit 1
fi
mkdir -p target/bench
$RUST_COMPILER --edition 2021 -C opt-level=3 -L "$RIBSADDLE_LIB_DIR" -o target/bench/bench bench/bench.rs
if [ -n "$emulated" ]; then
    cc -O2 -Wall -Wextra -Werror -shared -fPIC bench/count.c -o target/bench/count.so
    $emulated target/bench/bench cases | sed 's/|.*/|0|0/' > target/bench/times
else
    target/bench/bench > target/bench/times
fi

# counted CASE SIDE: instructions of one round. A long copy by one repeated instruction would be counted byte by byte, so the C library is told to copy by vectors.
counted() {
    if [ -n "$emulated" ]; then
        $emulated -plugin target/bench/count.so target/bench/bench "$1" "$2" 2>&1 < /dev/null | sed -n 's/^Collected : //p'
        return
    fi
    GLIBC_TUNABLES=glibc.cpu.x86_rep_movsb_threshold=1000000000 valgrind --tool=callgrind --instr-atstart=no --callgrind-out-file=/dev/null target/bench/bench "$1" "$2" 2>&1 < /dev/null |
        sed -n 's/.*Collected : \([0-9]*\).*/\1/p'
}

if [ "${1:-}" = times ] || { [ -z "$emulated" ] && ! command -v valgrind > /dev/null; }; then
    awk -f bench/table.awk target/bench/times
    exit
fi
$emulated target/bench/bench cases | while IFS='|' read -r name operations; do
    times=$(awk -F'|' -v name="$name" '$1 == name { print $2 "|" $3 }' target/bench/times)
    echo "$name|$times|$operations|$(counted "$name" port)|$(counted "$name" rust)"
done | awk -f bench/table.awk

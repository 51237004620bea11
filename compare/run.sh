#!/bin/sh
# Compares the port with the Rust and with document 01 on the same inputs: docs/PROOFS.md, "The comparison at scale".
#
#     sh compare/run.sh [PERCENT [SEED [PART]]] 100 percent, seed 1 and every part where they are not given
#     sh compare/run.sh PART INDEX SEED         one case again
#
# RIBSADDLE_LIB_DIR names the folder of libribsaddle.a; without it, the library is proved and built. UTP_RS_SRC: oracle/README.md.
set -eu
root=$(cd "$(dirname "$0")/.." && pwd)
cd "$root"
if [ -z "${RIBSADDLE_LIB_DIR:-}" ]; then
    . tests/library.sh
    RIBSADDLE_LIB_DIR=$root/target/staticlib
fi
. oracle/edit.sh
. tests/machine.sh
mkdir -p target/compare
$RUST_COMPILER --edition 2021 -C opt-level=3 -L "$RIBSADDLE_LIB_DIR" -o target/compare/compare compare/src/main.rs
if [ $# -eq 3 ]; then
    exec $emulated target/compare/compare "$@"
fi
exec $emulated target/compare/compare "${1:-100}" "${2:-1}"

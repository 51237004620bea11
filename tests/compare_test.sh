#!/bin/sh
# A seeded share of the comparison with the Rust (compare/run.sh), and that a planted fault of each kind is found.
set -eu
here=$(cd "$(dirname "$0")/.." && pwd)
cd "$here"
. tests/machine.sh
if [ ! -f "${UTP_RS_SRC:-../shared/docs/src}/src/packet.rs" ] || ! command -v rustc > /dev/null; then
    echo "compare_test.sh: the live comparison is left out, the Rust source or rustc is not at hand"
    exit 0
fi
if [ -n "$cross" ]; then
    echo "compare_test.sh: the live comparison is left out, $cross"
    exit 0
fi
share=3
[ -z "$emulated" ] || share=1               # within three minutes there too
sh compare/run.sh "$share" "${COMPARE_SEED:-20261115}"
for plant in decode encode tracker receiver; do
    if COMPARE_PLANT=$plant $emulated target/compare/compare 1 7 "$plant" > target/compare/planted; then
        echo "compare_test.sh: the fault planted in $plant was not found"
        exit 1
    fi
    if ! grep -q 'DIFFERENCE in .*, seed 7, case ' target/compare/planted || ! grep -q '  smallest ' target/compare/planted; then
        cat target/compare/planted
        echo "compare_test.sh: the fault planted in $plant was not told as it should be"
        exit 1
    fi
done
echo "compare_test.sh: ok; a fault planted in decode, encode, tracker and receiver is found"

#!/bin/sh
# A share of the tries of the compiled library by itself (compare/hammer/run.sh).
set -eu
here=$(cd "$(dirname "$0")/.." && pwd)
. "$here/tests/machine.sh"
if [ -n "$cross" ]; then
    echo "hammer_test.sh: left out, $cross"
    exit 0
fi
if ! command -v cc > /dev/null; then
    echo "hammer_test.sh: left out, there is no cc"
    exit 0
fi
sh "$here/compare/hammer/run.sh" 1

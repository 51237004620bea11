#!/bin/sh
# Holds what `replay` prints against recorded sessions, and against document 02 for files that it refuses (tests/replay.py);
# then the statuses and messages of the script ./replay.
set -eu
here=$(cd "$(dirname "$0")/.." && pwd)
said=$(cd "$here/crates/replay" && rt run < /dev/null 2>&1) || { echo "$said"; exit 1; }
. "$here/tests/machine.sh"
python3 "$here/tests/replay.py" $run "$here/crates/replay/out/replay"
room=$(mktemp -d)
trap 'rm -rf "$room"' EXIT

failed=0
. "$here/tests/program.sh"
statuses replay "$here/crates/replay/data/sample.session" "$here/crates/replay/stdout"
case_of "a refused session is a result" 0 sh -c 'printf damaged | "$0"' "$here/replay"
held "its line" [ "$(cat "$room/wrote")" = "bad 20" ]
[ "$failed" -ne 0 ] || echo "replay_test.sh: statuses: ok"
exit "$failed"

#!/usr/bin/env bash
# Every public function of a library has no 'requires' and has its record in the crate's proofs/Promises.antt, each method of a public trait and each conversion too.
# Then the look itself is tried: a record that is taken out has to be missed.
set -euo pipefail
cd "$(dirname "$0")/.."
python3 tests/promises.py
room=$(mktemp -d)
trap 'rm -rf "$room"' EXIT
mkdir "$room/tree"
tar -c --exclude=out --exclude=must-fail crates docs tests | tar -x -C "$room/tree"
cd "$room/tree"
without() {
  cp "$1" "$room/kept"
  grep -v "$2" "$room/kept" > "$1"
  if cmp -s "$1" "$room/kept"; then
    echo "promises_test.sh: $1 has no $2"
    exit 1
  fi
  if python3 tests/promises.py > "$room/said"; then
    echo "promises_test.sh: a record without $2 in $1 is not missed"
    exit 1
  fi
  cp "$room/kept" "$1"
}
without crates/sent/proofs/Promises.antt 'SentPackets\.on_ack\.Reads'
without crates/sent_lent/proofs/Promises.antt 'PairsSamples\.put\.Reads'
without crates/controller/proofs/Promises.antt 'ArraySample1024Samples\.len\.Reads'
without crates/packet/proofs/Promises.antt 'ReasonFromPastEnd\.from\.Reads'
without crates/ribsaddle/proofs/Promises.antt 'HeaderFieldsFromHeader\.from\.Reads'
without docs/PROMISES.md 'controller::samples::Samples::len'
echo "promises_test.sh: a record that is taken out is missed"

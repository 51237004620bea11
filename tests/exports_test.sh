#!/usr/bin/env bash
# The promises of the exported functions and the walks are what tools/exports.py writes.
set -euo pipefail
cd "$(dirname "$0")/.."
. tests/toolchain.sh
copy=$(mktemp -d)
trap 'rm -rf "$copy"' EXIT
for part in ribsaddle/src ribsaddle/specs ribsaddle/proofs walks/src walks/specs; do
  mkdir -p "$copy/crates/$part"
  cp -a "crates/$part/." "$copy/crates/$part/"
done
cp -a tools "$copy/"
printf 'walks:\nribsaddle staticlib:\n' > "$copy/crates.txt"
cd "$copy"
python3 tools/exports.py
for crate in walks ribsaddle; do (cd "crates/$crate" && rt fmt > /dev/null); done
cd - > /dev/null
for part in ribsaddle/proofs walks/specs; do diff -r "crates/$part" "$copy/crates/$part"; done

#!/bin/sh
# Compiles the driver with rustc alone, over the files of utp-rs with their one edit (edit.sh).
set -eu
root=$(cd "$(dirname "$0")/.." && pwd)
. "$root/oracle/edit.sh"
rustc -O --edition 2021 -o "$ORACLE_BUILD/oracle" "$root/oracle/src/main.rs"

#!/bin/sh
# Builds the driver and makes every list again: each in its place (lists.txt), or all in the folder given.
set -eu
here=$(cd "$(dirname "$0")" && pwd)
sh "$here/build.sh"
grep -v '^#' "$here/lists.txt" | while read -r list place; do
    to=$here/../$place
    [ $# -eq 0 ] || to=$1/$(basename "$place")
    mkdir -p "$(dirname "$to")"
    "$here/../target/oracle/oracle" "$list" "$to"
done

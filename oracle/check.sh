#!/bin/sh
# Makes the capture's sample and every list again, and compares each byte for byte with the stored one. Where the capture
# (UTP_CAPTURES), the Rust source (UTP_RS_SRC) or rustc is not at hand, what hangs on it stands as it is stored.
set -eu
here=$(cd "$(dirname "$0")" && pwd)
captures=${UTP_CAPTURES:-$here/../../shared/captures}/lt-tr-mild
if [ -f "$captures.dgrams" ]; then
    mkdir -p "$here/../target/oracle"
    sample=$here/../target/oracle/capture-sample
    python3 "$here/tshark.py" sample "$captures.dgrams" "$captures.tshark.tsv" "$sample.dgrams" "$sample.lines"
    cmp "$sample.dgrams" "$here/../crates/inspect/data/capture-sample.dgrams"
    cmp "$sample.lines" "$here/../crates/inspect/stdout"
fi
if [ ! -f "${UTP_RS_SRC:-$here/../../shared/docs/src}/src/packet.rs" ] || ! command -v rustc > /dev/null; then
    echo "check.sh: the Rust source or rustc is not at hand: nothing compared"
    exit 0
fi
again=$here/../target/oracle/data
sh "$here/make.sh" "$again"
grep -v '^#' "$here/lists.txt" | while read -r list place; do
    cmp "$again/$(basename "$place")" "$here/../$place"
done
echo "check.sh: every list made again is the stored one"

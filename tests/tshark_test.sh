#!/bin/sh
# Holds every line that `inspect` prints for the recorded traffic against tshark's reading of the same datagrams, field by
# field. UTP_CAPTURES names the folder of the captures (default: ../shared/captures beside the repository).
set -eu
here=$(cd "$(dirname "$0")/.." && pwd)
capture=${UTP_CAPTURES:-$here/../shared/captures}/lt-tr-mild
if [ ! -f "$capture.dgrams" ] || [ ! -f "$capture.tshark.tsv" ]; then
    echo "tshark.sh: left out, there is no $capture.dgrams with its .tshark.tsv"
    exit 0
fi
said=$(cd "$here/crates/inspect" && rt run < /dev/null 2>&1) || { echo "$said"; exit 1; }
. "$here/tests/machine.sh"
$run "$here/crates/inspect/out/inspect" "$capture.dgrams" | python3 "$here/oracle/tshark.py" compare - "$capture.tshark.tsv" "$capture.dgrams"

#!/bin/sh
# What `inspect` does with input that its own sample has not: standard input, no bytes, bytes left over, the longest
# datagram; then the statuses and messages of the script ./inspect.
set -eu
here=$(cd "$(dirname "$0")/.." && pwd)
said=$(cd "$here/crates/inspect" && rt run < /dev/null 2>&1) || { echo "$said"; exit 1; }
. "$here/tests/machine.sh"
inspect() { $run "$here/crates/inspect/out/inspect" "$@"; }
sample=$here/crates/inspect/data/capture-sample.dgrams
lines=$here/crates/inspect/stdout
room=$(mktemp -d)
trap 'rm -rf "$room"' EXIT
failed=0

# same NAME WANTED: what the case wrote, and what it must write
same() {
    if cmp -s "$room/wrote" "$2"; then echo "inspect_test.sh: $1: ok"; else echo "inspect_test.sh: $1: FAILED"; failed=1; fi
}

inspect < "$sample" > "$room/wrote"
same "standard input" "$lines"

inspect < /dev/null > "$room/wrote"
same "no bytes" /dev/null

printf 'cut\n' > "$room/cut"
printf '\000' | inspect > "$room/wrote"
same "half a length" "$room/cut"
printf '\000\003ab' | inspect > "$room/wrote"
same "a datagram one byte short" "$room/cut"

printf '0 1\n1 1\n' > "$room/short"
printf '\000\000\000\002ab' | inspect > "$room/wrote"
same "datagrams of 0 and 2 bytes" "$room/short"

(cat "$sample" && printf '\000\003ab') > "$room/longer"
(cat "$lines" && echo cut) > "$room/wanted"
inspect "$room/longer" > "$room/wrote"
same "bytes left over behind the sample" "$room/wanted"

# 65,535 bytes: a State whose chain is extension 1 of 0 bytes over and over. One byte is left for the last head.
python3 -c 'import sys; sys.stdout.buffer.write(b"\xff\xff\x21\x01" + bytes(18) + b"\x01\x00" * 32757 + b"\x01")' > "$room/longest"
printf '0 4\n' > "$room/wanted"
inspect "$room/longest" > "$room/wrote"
same "65,535 bytes of extension 1 with length 0" "$room/wanted"

# More text than one buffer holds: 8,192 datagrams of 0 bytes
head -c 16384 /dev/zero > "$room/many"
seq 0 8191 | sed 's/$/ 1/' > "$room/wanted"
inspect "$room/many" > "$room/wrote"
same "8,192 lines" "$room/wanted"

. "$here/tests/program.sh"
statuses inspect "$sample" "$lines"
case_of "bytes left over" 0 sh -c 'printf "\000" | "$0"' "$here/inspect"
same "bytes left over are a result" "$room/cut"
# A program that needs two files, as one that compares would.
case_of "one file of two" 2 bash -c '. "$0/tools/program.sh"; program inspect "FIRST SECOND" none none "$@"' "$here" "$sample"
held "it is said" grep -q "1 files are named, and it takes 2" "$room/said"
[ "$failed" -ne 0 ] || echo "inspect_test.sh: statuses: ok"
exit "$failed"

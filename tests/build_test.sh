#!/usr/bin/env bash
# The first run of a script says how far its build is, a second one at the same time waits, and a build that fails ends with 3.
# In place of rt a script that prints the same lines: what is tried is tools/program.sh, not the prover.
set -euo pipefail
cd "$(dirname "$0")/.."
room=$(mktemp -d)
trap 'rm -rf "$room"' EXIT
mkdir "$room/bin" "$room/copy"
cp -r tools tests crates.txt "$room/copy/"
mkdir -p "$room/copy/crates/replay" "$room/copy/crates/inspect"
cat > "$room/bin/rt" <<END
#!/bin/sh
case \$1 in
  version) exec "$(command -v rt)" version ;;
  run)
    [ ! -e "$room/running" ] || touch "$room/twice"
    touch "$room/running"
    echo 'rt: chose --jobs 2 for seq' >&2
    echo 'logic=proved functions=6' >&2
    sleep 6
    echo 'rt: chose --jobs 4 for packet' >&2
    echo 'logic=proved functions=43' >&2
    rm "$room/running"
    [ ! -e "$room/fails" ] || { echo "logic=not-proved" >&2; exit 1; }
    ;;
esac
END
chmod +x "$room/bin/rt"
build() { (cd "$room/copy" && PATH="$room/bin:$PATH" timeout 60 bash -c '. tools/program.sh; build "$1"' build "$1") > "$room/$1.said" 2>&1; }
fail() { echo "build_test.sh: $*"; cat "$room"/*.said; exit 1; }

build replay &
first=$!
until [ -e "$room/running" ]; do sleep 0.1; done
build inspect || fail "the second build failed"
wait "$first" || fail "the first build failed"
all=$(cd "$room/copy" && bash -c '. tools/program.sh; crates_of replay' | wc -l)
grep -qx "replay: the first run proves what it is built from: $all of $all crates, some minutes on two cores" "$room/replay.said" || fail "the first line"
grep -q "^replay: 2 of $all crates proved, [0-9]* s (packet)$" "$room/replay.said" || fail "how far it is"
grep -q '^inspect: another program is being built in this folder; waiting for it$' "$room/inspect.said" || fail "the second does not say that it waits"
[ ! -e "$room/twice" ] || fail "two builds at once"
touch "$room/fails"
status=0
build replay || status=$?
[ "$status" -eq 3 ] || fail "a build that fails ends with $status, not 3"
grep -q 'logic=not-proved' "$room/replay.said" || fail "what rt said is not shown"
echo "build_test.sh: the first run says how far it is, a second one waits, a failed one ends with 3"

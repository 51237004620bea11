#!/usr/bin/env bash
# Every code block of README.md, by its language:
#   sh       each line is run, and has to end with status 0; `./test` is left out: it is what runs this test
#   console  the command is run, and has to print the lines that stand there, and no other
#   c, rust  compiled with no warning and run by tests/readme/take.*: a State before the Data of the same number, a Fin, bytes that are
#            no packet, and 8,400 bytes that become ready at once
#   rattle   proved, compiled, and run on the datagram that the text names, whole and without its last byte
#   text     a picture: it is not checked
# Of the text, the commands that start with ./ and have an argument are run, and each `ensures` has to be a line of the source. What
# else the text says is not checked. The samples that README once had, which were wrong, are tried as well, and have to be found out.
set -euo pipefail
cd "$(dirname "$0")/.."
here=$PWD
. tests/toolchain.sh
. tests/machine.sh
room=$(mktemp -d)
made=transfer                       # what a command of README leaves in this folder
[ ! -e transfer ] || made=''
trap 'rm -rf "$room" $made' EXIT
mkdir "$room/blocks" "$room/bin"
python3 tests/readme/blocks.py README.md "$room/blocks"

fail() { echo "readme_test.sh: $*"; exit 1; }
blocks() { find "$room/blocks" -name "*.$1" | sort; }

# A command of README, as a user types it, with a time limit.
typed() { PATH="$room/bin:$PATH" timeout 900 bash -euo pipefail -c "$1" < /dev/null; }

for kind in sh console c rust rattle; do [ -n "$(blocks $kind)" ] || fail "README has no block of $kind any more: is one without its language?"; done

# ---- Rattle
rattle() {
  local part deps
  deps=$(sed -n 's/^packet://p' crates.txt)
  mkdir -p "$room/rattle/crates/readme/src"
  for part in packet $deps; do
    cp -a "crates/$part" "$room/rattle/crates/"
    grep "^$part:" crates.txt >> "$room/rattle/crates.txt"
  done
  echo 'readme: packet' >> "$room/rattle/crates.txt"
  {
    printf '#![tactic(auto)]\n\nuse packet::decode::Decoded;\nuse packet::decode::Packet;\n'
    cat "$1"
    printf 'fn main(rt: HostRuntime) -> std::io::Result<()> {\n    let whole = [%s];\n    let cut = [%s];\n' "$(bytes)" "$(bytes | sed 's/, [^,]*$//')"
    printf '    for byte in payload(&whole) {\n        println!(rt; "{byte}")?;\n    }\n    println!(rt; "|")?;\n'
    printf '    for byte in payload(&cut) {\n        println!(rt; "{byte}")?;\n    }\n    Ok(())\n}\n'
  } > "$room/rattle/crates/readme/src/main.rt"
  (cd "$room/rattle/crates/readme" && timeout 900 rt run) > "$room/wrote" 2> "$room/said" || { cat "$room/said"; fail "the Rattle sample"; }
  [ "$(cat "$room/wrote")" = "$(printf '65\n|')" ] || fail "the Rattle sample printed $(cat "$room/wrote")"
}
bytes() { sed 's/\([0-9a-f][0-9a-f]\)/0x\1u8/g; s/ /, /g' "$room/blocks/datagram"; }
for block in $(blocks rattle); do rattle "$block"; done
while read -r promise; do
  grep -rqF "$promise" crates/*/src || fail "no source has the promise: $promise"
done < "$room/blocks/promises"
echo "readme_test.sh: the Rattle sample is proved, and gives the payload; the promises are the source's"

# ---- C and Rust
if [ -n "$cross" ]; then
  echo "readme_test.sh: the C and Rust samples and their commands are left out, $cross"
else
  . tests/library.sh
  # tried_c FILE: compiles and runs a C sample; `found` has what it was found to do wrong.
  tried_c() {
    cat "$1" tests/readme/take.c > "$room/sample.c"
    $C_COMPILER -std=c11 -Wall -Wextra -Werror -O1 -Iinclude "$room/sample.c" "$library" -o "$room/sample" || fail "$1 does not compile"
    found=$(timeout 300 $emulated "$room/sample" 2>&1) || found=${found:-status $?}
  }
  for block in $(blocks c); do
    tried_c "$block"
    [ -z "$found" ] || fail "the C sample: $found"
  done
  tried_c tests/readme/wrong.c
  [ "$found" = 'take.c: it does not hold that after State 1 and Data 1 "chart" five bytes are read' ] || fail "the wrong C sample is not found out: $found"

  export CARGO_TARGET_DIR="$here/target/cargo" RIBSADDLE_LIB_DIR="$here/target/staticlib"
  mkdir -p "$room/rust/src"
  printf '[package]\nname = "sample"\nversion = "0.1.0"\nedition = "2021"\n\n[dependencies]\n' > "$room/rust/Cargo.toml"
  sed "s|\.\./ribsaddle/|$here/|" "$room/blocks/dependency" >> "$room/rust/Cargo.toml"
  tried_rust() {
    (echo '#![deny(warnings)]' && cat "$1" tests/readme/take.rs) > "$room/rust/src/main.rs"
    (cd "$room/rust" && timeout 900 $CARGO_COMMAND build --offline --quiet) || fail "$1 does not compile"
    found=$(cd "$room/rust" && timeout 300 $CARGO_COMMAND run --offline --quiet 2>&1) || found=${found:-status $?}
  }
  for block in $(blocks rust); do
    tried_rust "$block"
    [ -z "$found" ] || fail "the Rust sample: $found"
  done
  tried_rust tests/readme/wrong.rs
  for fault in 'after State 1 and Data 1 "chart" five bytes are read' '8,400 bytes that become ready at once are read'; do
    case $found in *"it does not hold that $fault"*) ;; *) fail "the wrong Rust sample is not found out: $found" ;; esac
  done
  echo "readme_test.sh: the C and Rust samples lose nothing; the wrong ones are found out"
fi

# ---- commands. On another processor cc and cargo are those of tests/machine.sh, and what cc links is a script that runs the program under the emulator.
if [ -n "$emulated" ]; then
  cat > "$room/bin/cc" <<END
#!/usr/bin/env bash
set -eu
$C_COMPILER "\$@"
while [ \$# -gt 0 ]; do
  if [ "\$1" = -o ]; then
    mv "\$2" "$room/linked"
    printf '#!/bin/sh\nexec $emulated $room/linked "\$@"\n' > "\$2"
    chmod +x "\$2"
  fi
  shift
done
END
  printf '#!/bin/sh\nPATH="%s" exec %s "$@"\n' "$PATH" "$CARGO_COMMAND" > "$room/bin/cargo"
  chmod +x "$room/bin/cc" "$room/bin/cargo"
fi
cat $(blocks sh) "$room/blocks/commands" > "$room/typed"
while read -r line; do
  case $line in
    ./test | './test '*) continue ;;
    *cc\ * | *cargo\ *) [ -z "$cross" ] || continue ;;
  esac
  line=${line#sh tools/library.sh && }       # tests/library.sh runs that, and once is enough: it proves the library anew
  typed "$line" > "$room/said" 2>&1 || { cat "$room/said"; fail "this failed: $line"; }
  echo "readme_test.sh: ran ${line%%  *}"
done < "$room/typed"
for block in $(blocks console); do
  line=$(sed -n '1s/^\$ //p' "$block")
  python3 tests/readme/blocks.py --printed "$block" > "$room/wanted"
  typed "$line" > "$room/wrote" || fail "this failed: $line"
  diff "$room/wanted" "$room/wrote" || fail "README ('<') and the program ('>') differ: $line"
  echo "readme_test.sh: $line prints what README says, $(wc -l < "$room/wanted") lines"
done

#!/usr/bin/env bash
# include/ribsaddle.h against the static library: the names, and, through a C program, sizes, alignment, the place of every field and what is left untouched.
# Then the C example: a whole transfer between two ends.
set -euo pipefail
cd "$(dirname "$0")/.."
. tests/machine.sh
if [ -n "$cross" ]; then
  echo "header_test.sh: left out, $cross"
  exit 0
fi
if ! command -v cc >/dev/null 2>&1; then
  echo "header_test.sh: left out, there is no cc"
  exit 0
fi
room=$(mktemp -d)
trap 'rm -rf "$room"' EXIT
. tests/library.sh

# Every exported name is in the header, with a declaration and a comment near it, and every declared name is exported; both are what the source marks.
$NAMES --defined-only --extern-only "$library" | sed -n 's/.* T //p' | sort > "$room/exported"
grep -o '^uint32_t ribsaddle_[a-z_]*(' include/ribsaddle.h | sed 's/^uint32_t //; s/($//' | sort > "$room/declared"
grep -h -o '^pub extern "C" fn ribsaddle_[a-z_]*' crates/ribsaddle/src/*.rt | sed 's/.* //' | sort > "$room/marked"
for list in declared marked; do
  if ! diff "$room/exported" "$room/$list" > "$room/differ"; then
    echo "header_test.sh: the library's names ('<') and those $list ('>') differ:"
    cat "$room/differ"
    exit 1
  fi
done
echo "header_test.sh: $(wc -l < "$room/exported") names in the library, the header and the source"

# The library asks the C library for these alone.
$NAMES --undefined-only "$library" | sed -n 's/.* U //p' | sort -u > "$room/asked"
printf 'memcpy\nmemset\n' > "$room/allowed"
if comm -23 "$room/asked" "$room/allowed" | grep -q .; then
  echo "header_test.sh: the library asks for more than memcpy and memset:"
  comm -23 "$room/asked" "$room/allowed"
  exit 1
fi

strict="-std=c11 -Wall -Wextra -Werror -O2 -Iinclude"
$C_COMPILER $strict tests/c/header.c "$library" -o "$room/header"
$emulated "$room/header"
# transfer FLAGS...: the C example, compiled with these. Its stack is 256 KB: the header says how much a call takes.
transfer() {
  $C_COMPILER $strict "$@" examples/c/transfer.c "$library" -o "$room/transfer"
  if [ -n "$emulated" ]; then
    timeout 300 $emulated -s 262144 "$room/transfer"
  else
    (ulimit -s 256 && timeout 300 "$room/transfer")
  fi
}
transfer
# All up to the packet with number 0 is acknowledged, and the next one is lost: datagram 273 is that packet.
transfer -DTOTAL=137000 '-DIS_LOST(n)=((n) == 273)'
# The first packets are lost again and again: a timeout with no acknowledged run.
transfer -DTOTAL=137000 '-DIS_LOST(n)=((n) <= 5)'
# A channel that loses all: the example ends, and says so.
if transfer -DTOTAL=3000 '-DIS_LOST(n)=((n) > 0)' > "$room/said"; then
  echo "header_test.sh: a transfer of which nothing arrived ended well"
  exit 1
fi
grep -q WRONG "$room/said"
if [ "$(wc -l < examples/c/transfer.c)" -ge 100 ]; then
  echo "header_test.sh: examples/c/transfer.c has 100 lines or more"
  exit 1
fi
if command -v c++ >/dev/null 2>&1; then
  printf '#include "ribsaddle.h"\nint main() { return 0; }\n' > "$room/header.cc"
  c++ -Wall -Wextra -Werror -Iinclude "$room/header.cc" -o "$room/header_cc"
fi

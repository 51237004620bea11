# Read by the tests of the C interface and what is built on it, from the repository's root: $library is the static library, built where it is missing or older than a source.
library=target/staticlib/libribsaddle.a
if [ ! -f "$library" ] || [ -n "$(find crates.txt crates/common crates/seq crates/packet crates/congestion crates/controller crates/outgoing crates/sent crates/sent_lent crates/recv crates/ribsaddle -name out -prune -o -type f -newer "$library" -print | head -1)" ]; then
  sh tools/library.sh || exit 1
fi

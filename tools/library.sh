#!/bin/sh
# Proves the port and writes target/staticlib/libribsaddle.a, the static library for C and Rust. Where nothing has changed since, it is there already.
set -eu
cd "$(dirname "$0")/.."
. tests/toolchain.sh
mkdir -p target/staticlib
(cd crates/ribsaddle && rt lib) > target/staticlib.said 2>&1 || { cat target/staticlib.said >&2; exit 1; }
cp crates/ribsaddle/out/libribsaddle.a target/staticlib/libribsaddle.a

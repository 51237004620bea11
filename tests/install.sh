#!/bin/sh
# On a processor that is not an x86-64 one, installs what builds callers of the library and runs them, where this is Debian and the user is root. Elsewhere it does nothing, and
# the tests say what they leave out.
set -eu
cd "$(dirname "$0")/.."
. tests/machine.sh
if [ -z "$cross" ] || [ "$(id -u)" != 0 ] || ! command -v apt-get > /dev/null; then
    exit 0
fi
mkdir -p target
if ! (dpkg --add-architecture amd64 && apt-get update &&
    DEBIAN_FRONTEND=noninteractive apt-get install -y --no-install-recommends qemu-user gcc-x86-64-linux-gnu libc6-dev-amd64-cross cargo-web rustc-web libstd-rust-web-dev:amd64) > target/install.said 2>&1; then
    tail -3 target/install.said
    echo "install.sh: the cross compilers could not be installed"
fi

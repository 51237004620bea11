# Read by what runs the compiled programs or builds a caller of the library, which are for x86-64 Linux. On another processor
#   $run      is the emulator with which the Rattle toolchain runs a program of its own there (else empty);
#   $emulated is the emulator for a caller of the library (else empty);
#   $cross    is why no caller can be built and run there, or empty. It takes the Debian packages that tests/install.sh names;
# and cc, rustc and cargo are told to build for x86-64.
run='' emulated='' cross='' NAMES=nm C_COMPILER=${CC:-cc} RUST_COMPILER=${RUSTC:-rustc} CARGO_COMMAND=${CARGO:-cargo}
if [ "$(uname -m)" != x86_64 ]; then
  kit=$(dirname "$(dirname "$(readlink -f "$(command -v rt)")")")/on/$(uname -m)/toolchain
  emulated=qemu-x86_64
  run="$kit/bin/qemu-x86_64 $kit/lib/ld-linux-x86-64.so.2 --library-path $kit/lib"
  C_COMPILER=x86_64-linux-gnu-gcc
  RUST_COMPILER='/usr/bin/rustc --target x86_64-unknown-linux-gnu -C linker=x86_64-linux-gnu-gcc'
  CARGO_COMMAND='/usr/bin/cargo'
  NAMES=x86_64-linux-gnu-nm
  if ! command -v x86_64-linux-gnu-gcc >/dev/null 2>&1 || ! command -v qemu-x86_64 >/dev/null 2>&1 || [ ! -x /usr/bin/rustc ] || [ ! -x /usr/bin/cargo ] || ! ls /usr/lib/rustlib/x86_64-unknown-linux-gnu/lib/libstd-* >/dev/null 2>&1; then
    cross='the library is for x86-64, this processor is another, and a cross compiler or an emulator for it is not at hand'
  fi
  export RUSTC=/usr/bin/rustc RUSTDOC=/usr/bin/rustdoc CARGO_BUILD_TARGET=x86_64-unknown-linux-gnu CARGO_TARGET_X86_64_UNKNOWN_LINUX_GNU_LINKER=x86_64-linux-gnu-gcc \
    CARGO_TARGET_X86_64_UNKNOWN_LINUX_GNU_RUNNER="$emulated"
fi

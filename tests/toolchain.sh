# Read by ./replay, ./inspect and ./test: is the toolchain here, and is it the one that this repository is proved with?
wanted="rattle-kit-13f logic dac8208d650f15bf"
if ! command -v rt >/dev/null 2>&1; then
  echo "ribsaddle: the command 'rt' of the Rattle toolchain is not on the PATH; this repository needs $wanted" >&2
  exit 2
fi
found=$(rt version 2>/dev/null || true)
if [ "$found" != "$wanted" ]; then
  echo "ribsaddle: 'rt version' says '$found'; this repository is proved with '$wanted'" >&2
  exit 2
fi

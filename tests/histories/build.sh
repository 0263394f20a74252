#!/bin/sh
# Compiles the programs anew, with Debian's clang and lld: `apt-get install clang lld`. The results are stored beside their
# sources.
set -eu
cd "$(dirname "$0")"
for source in *.c; do
    clang --target=wasm32 -mcpu=mvp -Os -Wall -nostdlib -ffreestanding -fno-builtin -Wl,--entry=_start -Wl,--strip-all \
        -Wl,-z,stack-size=4096 -o "${source%.c}.wasm" "$source"
done

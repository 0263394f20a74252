#!/bin/sh
# Compiles the programs anew, with Debian's clang and lld: `apt-get install clang lld`. The results are stored beside their sources.
set -eu
cd "$(dirname "$0")"
for source in *.c; do
    clang --target=wasm32 -mcpu=mvp -msign-ext -O2 -nostdlib -ffreestanding -fno-builtin -Wl,--entry=_start -Wl,--strip-all \
        -o "${source%.c}.wasm" "$source"
done

#!/bin/sh
# Compiles the programs of the examples, each beside its source. It needs Debian's clang, lld, wasi-libc and
# libclang-rt-14-dev-wasm32.
set -eu
cd "$(dirname "$0")/.."
for source in */*.c; do
    clang --target=wasm32-wasi -Oz -Wall -Wextra -Werror -Wl,--strip-all -Wl,--stack-first \
        -lc-printscan-no-floating-point -o "${source%.c}.wasm" "$source"
    echo "${source%.c}.wasm $(wc -c <"${source%.c}.wasm") bytes"
done

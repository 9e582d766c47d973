#!/usr/bin/env bash
# Makes the modules on which the lowering is tested, with features that wmlab does not take.
set -euo pipefail
here=$(cd "$(dirname "${BASH_SOURCE[0]}")" && pwd)
room=$(mktemp -d)
trap 'rm -rf "$room"' EXIT

compile() {
    clang --target=wasm32 -mcpu=mvp -matomics -mbulk-memory -msign-ext -mthread-model posix -O2 -ffreestanding "$@"
}

for source in "$here"/*.c; do
    out=${source%.c}.wasm
    link=(--initial-memory=131072 -z stack-size=4096)
    case $(basename "$source") in
    growing.c) link+=(--max-memory=589824) ;;
    threads.c) link+=(--max-memory=131072 --shared-memory --import-memory) ;;
    initialized.c) link+=(--max-memory=131072 --shared-memory) ;;
    thread-locals.c) link+=(--max-memory=131072 --shared-memory --export=__wasm_init_tls) ;;
    *) link+=(--max-memory=131072) ;;
    esac
    compile -ftls-model=local-exec -c "$source" -o "$room/object.o"
    wasm-ld --no-entry "${link[@]}" "$room/object.o" -o "$out"
    chmod 644 "$out"
done
for source in "$here"/*.wat; do
    wat2wasm --enable-threads "$source" -o "${source%.wat}.wasm"
done
# The integer functions that take the place of arithmetic of floats. They use no memory.
clang --target=wasm32 -mcpu=mvp -mthread-model single -Os -ffreestanding -c "$here/../soft_floats/soft_floats.c" \
    -o "$room/floats.o"
wasm-ld --no-entry --strip-all -z stack-size=16 "$room/floats.o" -o "$here/../soft_floats/soft_floats.wasm"
chmod 644 "$here/../soft_floats/soft_floats.wasm"

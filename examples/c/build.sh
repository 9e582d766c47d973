#!/usr/bin/env bash
# Makes modules that wmlab takes out of C programs, with clang, wasm-ld, wasm-objdump and engines/lower.
#   examples/c/build.sh                                    each program here
#   examples/c/build.sh SOURCE.c OUT.wasm [OPTION..]       one program
# An OPTION is one of engines/lower, such as --stacks 2; a line `// lower: OPTIONS` of the source has further ones. Else
# each exported function has a stack and a block of thread-local variables of its own, if it needs them (--stacks auto
# --tls auto). CLANG and WASM_LD name another compiler and linker, such as clang-16 and wasm-ld-16. The status is 2 if a
# tool is missing, or if the compiler made the atomic accesses of a program plain ones; then there is no module.
set -euo pipefail
here=$(cd "$(dirname "${BASH_SOURCE[0]}")" && pwd)
clang=${CLANG:-clang}
wasm_ld=${WASM_LD:-wasm-ld}
room=$(mktemp -d)
trap 'rm -rf "$room"' EXIT

# Compiled and linked in two commands: `clang` alone would run wasm-opt if that is there, which drops fences.
compile() {
    local source=$1 object=$2
    shift 2
    "$clang" --target=wasm32 -mcpu=mvp -matomics -mthread-model posix -O2 -ffreestanding -I "$here/include" "$@" \
        -c "$source" -o "$object"
}

features_of() {
    wasm-objdump -x "$1" | sed -n '/name: "target_features"/,$p'
}

# Whether the atomic accesses of an object are plain ones. The compiler marks it: it was not made for a shared memory.
# The linker would refuse it too, but only with --shared-memory.
is_stripped() {
    grep -qE '\[-\] (shared-mem|atomics)' <<<"$(features_of "$1")"
}

refuse_stripped() {
    local source=$1 object=$2
    if is_stripped "$object"; then
        echo "build.sh: $source: the compiler made all its atomic accesses plain ones" \
            "(its object is marked -shared-mem or -atomics)" >&2
        exit 2
    fi
    if ! grep -qF '[+] atomics' <<<"$(features_of "$object")"; then
        echo "build.sh: $source: its object does not state that atomic accesses are kept" \
            "(no +atomics in target_features)" >&2
        exit 2
    fi
}

build() {
    local source=$1 out=$2 options link=()
    shift 2
    read -ra options < <(sed -n 's,^// lower: ,,p' "$source") || true
    options=(--stacks auto --tls auto "${options[@]}" "$@")
    compile "$source" "$room/object.o"
    # Thread-local variables need bulk memory, and a linker that knows of the threads; else the compiler strips the
    # object.
    if is_stripped "$room/object.o"; then
        compile "$source" "$room/object.o" -mbulk-memory -ftls-model=local-exec
        link=(--shared-memory --max-memory=1048576)
    fi
    refuse_stripped "$source" "$room/object.o"
    compile "$here/mem.c" "$room/mem.o"
    # The stack that the linker makes otherwise takes 16 pages alone. What is not reached is dropped (--gc-sections).
    "$wasm_ld" --no-entry --gc-sections -z stack-size=4096 "${link[@]}" "$room/object.o" "$room/mem.o" \
        -o "$room/linked.wasm"
    "$here/../../engines/lower" "$room/linked.wasm" -o "$out" "${options[@]}" | sed "s,^,$(basename "$source"): ,"
}

for tool in "$clang" "$wasm_ld" wasm-objdump node; do
    if ! command -v "$tool" >/dev/null; then
        echo "build.sh: there is no $tool: apt-get install clang lld wabt nodejs" >&2
        exit 2
    fi
done
if [ $# -ge 2 ]; then
    build "$@"
elif [ $# -eq 0 ]; then
    for source in "$here"/*.c; do
        [ "$source" = "$here/mem.c" ] || build "$source" "${source%.c}.wasm"
    done
else
    echo "usage: examples/c/build.sh [SOURCE.c OUT.wasm [OPTION..]]" >&2
    exit 2
fi

#!/usr/bin/env bash
# Makes modules that wmlab takes out of Rust programs, with Debian's rustc and libstd-rust-dev-wasm32, wasm-objdump and
# engines/lower.
#   examples/rust/build.sh                                    each program here
#   examples/rust/build.sh SOURCE.rs OUT.wasm [OPTION..]      one program
# An OPTION is one of engines/lower, such as --stacks 2; a line `// lower: OPTIONS` of the source has further ones. Else
# each exported function has a stack and a block of thread-local variables of its own, if it needs them (--stacks auto
# --tls auto). The compiler is /usr/bin/rustc, or the one that RUSTC names.
# Debian's standard library is made for one thread. For a program that needs its locks, thread_local! or its allocator,
# std is compiled for threads, once, from Debian's rust-src. It is kept in .built of the clone, or in the folder for
# caches (XDG_CACHE_HOME) if that cannot be written.
# The status is 2 if a tool is missing, or if the compiler made the atomic accesses of a program plain ones; then there
# is no module.
set -euo pipefail
here=$(cd "$(dirname "${BASH_SOURCE[0]}")" && pwd)
rustc=${RUSTC:-/usr/bin/rustc}
target=wasm32-unknown-unknown
room=$(mktemp -d)
trap 'rm -rf "$room"' EXIT

# One object of the program and what it uses of the library (lto=fat). Panics name files without their folder, so
# that the module is the same wherever it is made.
compile() {
    local source=$1 out=$2
    shift 2
    "$rustc" --edition 2021 --target "$target" --crate-type cdylib --crate-name program -O \
        -C target-cpu=mvp -C lto=fat -C codegen-units=1 -C panic=abort \
        -C strip=none -C save-temps=yes -C link-arg=-zstack-size=4096 -C link-arg=--gc-sections "$@" \
        --remap-path-prefix "$(dirname "$source")=." --out-dir "$out" "$source"
}

# Whether a source names something of std::sync: words with | between them.
uses_sync() {
    tr '\n' ' ' <"$1" | grep -qE "std::sync::(\{[^}]*)?\b($2)\b"
}

# What the library has for one thread alone, by its name in the source.
needs_threads() {
    uses_sync "$1" 'Mutex|RwLock|Condvar|Once|Barrier|mpsc' || grep -qE '\bthread_local!|std::thread\b' "$1"
}

# Sets `library`, the folder of std for threads by this compiler.
find_library() {
    local name
    name=rust-std/$("$rustc" --version | cut -d' ' -f2)
    library=$here/../../.built/$name
    [ ! -d "$library" ] || return 0
    if ! mkdir -p "${library%/*}" 2>/dev/null || [ ! -w "${library%/*}" ]; then
        library=${XDG_CACHE_HOME:-${HOME-}/.cache}/wmlab/$name
    fi
    if ! mkdir -p "${library%/*}" 2>/dev/null; then
        echo "build.sh: ${library%/*} cannot be made; name a folder for caches: XDG_CACHE_HOME=FOLDER" >&2
        exit 2
    fi
}

# The folder of the library's source.
source_of_library() {
    echo "$("$rustc" --print sysroot)/lib/rustlib/src/rust/library"
}

# Copies the library's source, with one change: mpsc wakes a thread by a compare-exchange of one byte, which has no
# lowering. That byte only ever becomes true, so a swap gives the same values. Later versions have no such file.
token=std/src/sync/mpsc/blocking.rs
copy_source() {
    local order=Ordering::SeqCst
    cp -rs "$1" "$2"
    [ -f "$1/$token" ] || return 0
    rm "$2/$token"
    sed -zE "s/\.compare_exchange\(false, true, $order, $order\)\s*\.is_ok\(\)/.swap(true, $order) == false/" \
        "$1/$token" >"$2/$token"
}

# Compiles std for threads: the other crates of the library have no state, and are taken as Debian has them.
make_library() {
    local rustlib made crate source args=()
    rustlib=$("$rustc" --print sysroot)/lib/rustlib
    source=$(source_of_library)
    [ ! -d "$library" ] || return 0
    if [ ! -f "$source/std/src/lib.rs" ]; then
        echo "build.sh: $1: it uses what the standard library of $rustc has for one thread only (locks," \
            "thread_local!, threads or the allocator); with its source std is compiled for threads:" \
            "apt-get install rust-src" >&2
        exit 2
    fi
    echo "build.sh: compiling std for threads, once" >&2
    copy_source "$source" "$room/source"
    made=$room/library/lib/rustlib/$target/lib
    mkdir -p "$made"
    for crate in "$rustlib/$target"/lib/*.rlib; do
        case $(basename "$crate") in
        libstd-* | libtest-* | libproc_macro-*) continue ;;
        esac
        # A copy: rt refuses a folder with links.
        cp -L "$crate" "$made"
    done
    for crate in alloc cfg_if compiler_builtins core dlmalloc hashbrown libc panic_abort rustc_demangle std_detect \
        unwind; do
        args+=(--extern "$crate=$(echo "$made/lib$crate"-*.rlib)")
    done
    RUSTC_BOOTSTRAP=1 STD_ENV_ARCH=wasm32 "$rustc" --crate-name std --edition 2021 --crate-type rlib \
        --target "$target" -O -C embed-bitcode=yes -C panic=abort -C codegen-units=1 -C target-cpu=mvp \
        -C target-feature=+atomics,+bulk-memory,+mutable-globals -C metadata=wmlab --cap-lints allow \
        -Z force-unstable-if-unmarked --cfg backtrace_in_libstd --remap-path-prefix "$room/source=./library" \
        -L "$made" "${args[@]}" --out-dir "$made" --sysroot "$room/none" "$room/source/std/src/lib.rs"
    mv -T "$room/library" "$library" 2>/dev/null || [ -d "$library" ]
}

# With std for threads the linker makes the memory shared. It refuses objects without atomics, which the rest of the
# library may have: they have no accesses to shared variables.
compile_for_threads() {
    find_library
    make_library "$1"
    RUSTC_BOOTSTRAP=1 compile "$1" "$2" -C target-feature=+atomics,+bulk-memory,+mutable-globals \
        --sysroot "$library" \
        -C link-arg=--no-check-features -C link-arg=--max-memory=1048576
}

# Refuses objects whose atomic accesses are plain ones: the compiler marks them, as for C.
refuse_stripped() {
    local source=$1 object features found=0
    for object in "$2"/*.o; do
        features=$(wasm-objdump -x "$object" 2>/dev/null | sed -n '/name: "target_features"/,$p')
        if grep -qE '\[-\] (shared-mem|atomics)' <<<"$features"; then
            echo "build.sh: $source: the compiler made all its atomic accesses plain ones" \
                "(its object is marked -shared-mem or -atomics)" >&2
            exit 2
        fi
        if grep -qF '[+] atomics' <<<"$features"; then found=1; fi
    done
    if [ $found = 0 ]; then
        echo "build.sh: $source: no object states that atomic accesses are kept (no +atomics in target_features)" >&2
        exit 2
    fi
}

build() {
    local source=$1 out=$2 options
    shift 2
    rm -rf "$room/program"
    mkdir "$room/program"
    if needs_threads "$source"; then
        compile_for_threads "$source" "$room/program"
    else
        compile "$source" "$room/program" -C target-feature=+atomics,-bulk-memory
        # The library's allocator takes no lock.
        if wasm-objdump -x "$room/program/program.wasm" | grep -q '<.*dlmalloc.*malloc'; then
            rm -r "$room/program"
            mkdir "$room/program"
            compile_for_threads "$source" "$room/program"
        fi
    fi
    refuse_stripped "$source" "$room/program"
    read -ra options < <(sed -n 's,^// lower: ,,p' "$source") || true
    options=(--stacks auto --tls auto "${options[@]}" "$@")
    if uses_sync "$source" mpsc && [ -f "$(source_of_library)/$token" ]; then
        echo "$(basename "$source"): std's mpsc: its compare-exchange of one byte is a swap, with the same values"
    fi
    "$here/../../engines/lower" "$room/program/program.wasm" -o "$out" "${options[@]}" |
        sed "s,^,$(basename "$source"): ,"
}

for tool in "$rustc" wasm-objdump node; do
    if ! command -v "$tool" >/dev/null; then
        echo "build.sh: there is no $tool: apt-get install rustc libstd-rust-dev-wasm32 wabt nodejs" >&2
        exit 2
    fi
done
if [ $# -ge 2 ]; then
    build "$@"
elif [ $# -eq 0 ]; then
    for source in "$here"/*.rs; do
        build "$source" "${source%.rs}.wasm"
    done
else
    echo "usage: examples/rust/build.sh [SOURCE.rs OUT.wasm [OPTION..]]" >&2
    exit 2
fi

# Lines for people, and the ends of a launcher that cannot print.
# shellcheck shell=bash

# Writes a line to standard error. If that fails, the line is lost, and nothing else changes.
note() {
    printf '%s\n' "$1" >&2 2>/dev/null || true
}

say() {
    note "wmlab: $*"
}

# Ends as the program does if its answer cannot be written.
end_unwritten() {
    note "cannot write"
    exit 3
}

print() {
    printf '%s\n' "$1" 2>/dev/null || end_unwritten
}

print_text() {
    cat "$1" 2>/dev/null || end_unwritten
    exit 0
}

# What is wrong with files and starts that the program refuses, beyond its own line, on standard error.
# shellcheck shell=bash disable=SC2154 # the launcher sets `program` and `scripts`

# Writes why `explain` refuses files, if its line begins so.
explain_refusal() {
    local expected=$1 text line
    shift
    text=$("$program" explain "$@" 2>/dev/null </dev/null || true)
    [[ $text =~ ^$expected && $text == *$'\n'* ]] || return 0
    while read -r line; do
        say "$line"
    done <<<"${text#*$'\n'}"
}

# Writes why a module or a document is refused: the command, the module and the document, of which one may be missing.
explain_files() {
    case $1:$2:$3 in
    # It has these sentences itself.
    explain:*) ;;
    # What it refuses behind the reading has another reason than what `explain` refuses there.
    migrate:*) [ ! -f "$3" ] || explain_refusal "refused document " "$3" ;;
    *)
        if [ -f "$3" ]; then
            explain_refusal "refused " ${2:+"$2"} "$3"
        elif [ -n "$2" ]; then
            explain_refusal "refused (decode|valid) " "$2" -
        fi
        ;;
    esac
}

# ---- files of another kind

# What a file is by its first bytes: `module`, `text` (a module as text), `log`, or nothing.
kind_of() {
    local first
    [ -f "$1" ] || return 0
    first=$(od -An -tx1 -N4 -- "$1" 2>/dev/null || true)
    if [ "$first" = " 00 61 73 6d" ]; then
        echo module
        return
    fi
    first=$(head -c 4096 -- "$1" 2>/dev/null | tr -d '\0 \t\r\n' | head -c 2 || true)
    case $first in
    '(m' | '(;' | ';;') echo text ;;
    '['*) echo log ;;
    esac
}

# The word of a command at the place of MODULE or DOC in its usage: the place, the usage, the words after the command.
word_at() {
    local place=$1 names name
    read -ra names <<<"${2#* }"
    shift 2
    for name in "${names[@]}"; do
        if [ "$name" = "$place" ]; then
            printf '%s\n' "$1"
            return
        fi
        shift
    done
}

# Writes that a module is text, or that a module and a log are at each other's place.
hint_at_kinds() {
    local usage=$1 module=$2 doc=$3
    case $(kind_of "$module"):$(kind_of "$doc") in
    log:module) say "MODULE is a log and DOC is a module. Expected: wmlab $usage" ;;
    log:*) say "MODULE begins as a log does. Expected: wmlab $usage" ;;
    text:*)
        say "MODULE is in the text format. Make a binary one of it:" \
            "wat2wasm --enable-threads $(printf '%q -o %q' "$module" "${module%.wa*t}.wasm")"
        ;;
    *:module | *:text) say "DOC is a module. Expected: wmlab $usage" ;;
    esac
}

# ---- starts

# The most functions that are listed.
most_listed=20

# The functions that a module exports, one on each line, as a START of each with types in place of arguments.
exported_functions() {
    od -An -v -tu1 -w1 -- "$1" | awk -f "$scripts/exports.awk" || true
}

# A word in quotes: its first characters, with question marks for control characters.
quoted() {
    local text=${1//[[:cntrl:]]/?}
    if [ "${#text}" -gt 60 ]; then text="${text:0:60}.."; fi
    printf "'%s'" "$text"
}

# How many arguments a start has, or parameters a function: those after its name, with colons between them.
arguments_of() {
    local colons=${1//[^:]/}
    if [ "${#colons}" -eq 1 ]; then echo "1 $2"; else echo "${#colons} $2s"; fi
}

# What is wrong with a start, by the name that the program has for it.
fault_of_start() {
    local kind=$1 start=$2 functions=$3 function
    case $kind in
    NoExport) echo "the module exports nothing of this name" ;;
    NotFunction) echo "this export is not a function" ;;
    ArgRange) echo "an argument is above 4294967295, and its parameter is an i32" ;;
    ArgCount)
        while read -r function; do
            if [ "${function%%:*}" = "${start%%:*}" ]; then
                echo "it has $(arguments_of "$start" argument), and the function $(arguments_of "$function" parameter)"
            fi
        done <<<"$functions"
        ;;
    esac
}

# Writes which functions there are.
list_functions() {
    local functions=$1 count listed
    if [ -z "$functions" ]; then
        say "the module exports no function"
        return
    fi
    count=$(wc -l <<<"$functions")
    listed=$(head -n "$most_listed" <<<"$functions" | paste -sd, | sed 's/,/, /g')
    if [ "$count" -gt "$most_listed" ]; then listed="$listed and $((count - most_listed)) more"; fi
    say "exported are, with the types of their arguments: $listed"
}

# Writes what is wrong with the first start that the module does not take, and which functions it exports. A script of
# one turn asks the program.
hint_at_starts() {
    local module=$1 line kind number functions fault
    shift 2
    line=$("$program" drive "$module" 0 "$@" 2>/dev/null </dev/null || true)
    [[ ${line%%$'\n'*} =~ ^refused\ start\ ([A-Za-z]+)\ thread\ ([0-9]+)$ ]] || return 0
    kind=${BASH_REMATCH[1]} number=$((BASH_REMATCH[2] + 1))
    functions=$(exported_functions "$module")
    fault=$(fault_of_start "$kind" "${!number}" "$functions")
    if [ -n "$fault" ]; then say "START $number is $(quoted "${!number}"): $fault"; fi
    list_functions "$functions"
}

# Writes which functions a module exports if a log starts one that it does not have: `explain` has only that.
hint_at_logged_starts() {
    local line
    line=$("$program" check "$1" "$2" 2>/dev/null </dev/null || true)
    [[ $line =~ ^broken\ replay\ thread\ [0-9]+\ start\  ]] || return 0
    list_functions "$(exported_functions "$1")"
}

# ---- all of them

# Writes what is known of the files and the starts of a refused command. A file that is not a plain one can't be read
# again.
give_hints() {
    local usage module doc
    usage=$(usage_for "$1" $# "${!#}")
    [ $# -ge "$(wc -w <<<"${usage%%..*}")" ] || return 0
    module=$(word_at MODULE "$usage" "${@:2}")
    doc=$(word_at DOC "$usage" "${@:2}")
    [ -z "$module" ] || [ -f "$module" ] || return 0
    explain_files "$1" "$module" "$doc"
    hint_at_kinds "$usage" "$module" "$doc"
    case $usage in *START*) hint_at_starts "${@:2}" ;; esac
}

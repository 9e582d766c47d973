# Words that are answered from texts: usage, versions, and the description of a command.
# shellcheck shell=bash disable=SC2154 # the launcher sets `texts`, `help` and `version`

# Prints the description of a command that the help text has.
describe() {
    local description
    description=$(awk -v name="$1" -f "$scripts/describe.awk" "$help" "$texts/help/limits" "$texts/help/$1.txt")
    print "$description"
    exit 0
}

# Whether a word asks for help.
asks_help() {
    case $1 in --help | -h) return 0 ;; esac
    return 1
}

# Ends with the description of a command if the words are `help COMMAND`, or a command and a word that asks for help.
answer_help() {
    local word name=$1
    if [ "$1" = help ] && [ $# -gt 1 ]; then
        [ $# -eq 2 ] || refuse_words "expected: wmlab help [COMMAND]"
        name=$2
        if asks_help "$2"; then name=help; fi
        [ -n "$(usage_of "$name")" ] || refuse_command "$name"
        describe "$name"
    fi
    for word in "${@:2}"; do
        if asks_help "$word" && [ -n "$(usage_of "$name")" ]; then describe "$name"; fi
    done
}

# Ends with the usage or the versions if the words ask for them.
answer_texts() {
    case $#:${1-} in
    0:)
        print "refused command words"
        cat "$help" >&2 2>/dev/null || true
        exit 2
        ;;
    1:--help | 1:-h | 1:help)
        [ -f "$help" ] || return 0
        cat "$help" 2>/dev/null || end_unwritten
        say "\`wmlab help COMMAND\` describes a command, with an example"
        exit 0
        ;;
    1:--version | 1:version) [ ! -f "$version" ] || print_text "$version" ;;
    esac
    answer_help "$@"
}

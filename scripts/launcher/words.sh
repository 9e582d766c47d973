# Words that need no program: an unknown command and a file that cannot be read are refused at once.
# shellcheck shell=bash disable=SC2154 # the launcher sets `help`

# The words of a command as the help text has them, `wmlab COMMAND WORD..`, without `wmlab`; nothing if it has none.
usage_of() {
    local line
    [[ $1 =~ ^[a-z]+$ ]] || return 0
    while read -r line; do
        line=${line#./}
        line=${line#wmlab }
        line=${line%%  *}
        if [[ $line =~ ^$1(\ \[[A-Z]+\])?(\ [A-Z]+(\.\.\.?)?)*(\ \[[A-Z]+\])?$ ]]; then
            printf '%s\n' "$line"
            return
        fi
    done <"$help"
}

# The same for several words, the command among them: with the word in brackets if there is room for it, or without. The
# last word decides between a module and a number of nodes.
usage_for() {
    local usage words
    usage=$(usage_of "$1")
    if [ "$1" = witness ] && [ -n "$usage" ]; then
        case $2:$3 in
        [12]:*) usage="witness DOC" ;;
        3:*[!0-9]*) usage="witness MODULE DOC" ;;
        3:*) usage="witness DOC NODES" ;;
        esac
    fi
    read -ra words <<<"$usage"
    if [ "$2" -lt "${#words[@]}" ]; then usage=${usage/ \[*\]/}; fi
    printf '%s\n' "${usage//[\[\]]/}"
}

# Refuses the command line as the program does, and says why.
refuse_words() {
    print "refused command words"
    say "$1"
    exit 2
}

# The same for a first word that is no command.
refuse_command() {
    case $1 in
    -?*)
        refuse_words "the word '$1' begins with a hyphen, as none of a command does; a file named -x is written ./-x"
        ;;
    *) refuse_words "there is no command '$1'; \`wmlab help\` lists them" ;;
    esac
}

# Refuses an unknown command, and a file that cannot be read, before a program is built. All other words are left to the
# program, which says why it refuses them.
look_at_words() {
    [ -f "$help" ] || return 0
    local LC_ALL=C usage count word
    usage=$(usage_for "$1" $# "${!#}")
    [ -n "$usage" ] || refuse_command "$1"
    count=$(wc -w <<<"${usage%%..*}")
    [ $# -ge "$count" ] || return 0
    for word in "${@:2}"; do
        case $word in -?*) return 0 ;; esac
    done
    look_at_files "$usage" "${@:2}"
}

# ---- files

# Why a file cannot be read, in the system's words; nothing if it can, or is not a plain file.
why_unreadable() {
    local name=$1 reason
    if [ -e "$name" ] && [ -r "$name" ] && [ ! -d "$name" ]; then return; fi
    if [ "$name" = - ]; then name=./-; fi
    reason=$(LC_ALL=C head -c 1 -- "$name" 2>&1 >/dev/null || true)
    printf '%s' "${reason##*: }"
}

# Refuses a file that cannot be read.
look_at_files() {
    local names name place reason
    read -r _ names <<<"$1"
    shift
    for place in $names; do
        name=$1
        shift
        case $place in
        MODULE | DOC) ;;
        *) break ;;
        esac
        if [ "$place $name" = "DOC -" ]; then continue; fi
        reason=$(why_unreadable "$name")
        [ -n "$reason" ] || continue
        note "cannot read $name"
        if [ "$name" = - ]; then reason="$reason; only DOC can be standard input"; fi
        say "$place: $reason"
        exit 3
    done
}

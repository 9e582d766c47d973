# The program's answer, and what people want to know beside it, on standard error.
# shellcheck shell=bash disable=SC2154 # the launcher sets `program`

# How many seconds pass from one line to the next about a command that takes long.
shows_every=10

# Tells now and then how long a process has run and how much memory it has, until it ends.
show_time() {
    local child=$1 command=$2 start=$SECONDS memory tick word amount
    exec {tick}<> <(:)
    while read -rt "$shows_every" -u "$tick" || kill -0 "$child" 2>/dev/null; do
        memory=""
        while read -r word amount _; do
            if [ "$word" = VmRSS: ]; then memory=", with $((amount / 1024)) MiB"; fi
        done 2>/dev/null <"/proc/$child/status" || true
        say "$command has run for $((SECONDS - start)) s$memory"
    done
}

# Shows on a terminal that a command of which the work isn't known beforehand goes on. Sets `shower`.
show_long() {
    shower=""
    if [ ! -t 2 ]; then return; fi
    case $2 in explore | witnesses)
        show_time "$1" "$2" &
        shower=$!
        ;;
    esac
}

# Runs the program as a child, and passes signals on, also one that comes while it starts. Sets `status`.
run_child() {
    local child="" is_ended="" shower=""
    status=0
    trap 'is_ended=yes; if [ -n "$child" ]; then kill -TERM "$child" 2>/dev/null || true; fi' INT TERM HUP QUIT
    "$program" "$@" <&0 &
    child=$!
    if [ -n "$is_ended" ]; then kill -TERM "$child" 2>/dev/null || true; fi
    show_long "$child" "$1"
    wait "$child" || status=$?
    if [ -n "$shower" ]; then kill "$shower" 2>/dev/null || true; fi
    trap - INT TERM HUP QUIT
}

# Ends as the program does. If it refuses, hints at the files and starts follow its answer; if `explain` tells of a
# start that the module does not have, those that there are.
answer() {
    local status
    case $1 in
    help | version) exec "$program" "$@" ;;
    stream | decide) answer_stream "$@" ;;
    *) run_child "$@" ;;
    esac
    if [ "$status" -eq 2 ]; then give_hints "$@" || true; fi
    if [ "$status:$1:$#" = 1:explain:3 ] && [ -f "$2" ] && [ -f "$3" ]; then hint_at_logged_starts "$2" "$3" || true; fi
    exit "$status"
}

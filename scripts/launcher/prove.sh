# The proved program: `./wmlab --prove` proves every crate, shows how far it is, and keeps the program as .built/wmlab.
# shellcheck shell=bash disable=SC2154 # the launcher sets `top`, `built` and `toolchain`

# How many seconds pass at most without a line of progress.
quiet=300

crates() {
    sed -n 's/^\([a-z_0-9]*\)[^#]*:.*/\1/p' "$top/crates.txt"
}

# The crates that are done, by the log of `rt all check`, each with the number of modules that were checked for it: 0
# if an earlier run had proved it.
crates_done() {
    awk '$1 == "==" && $2 != "summary" { name = $2; checked[name] = 0 }
         $1 == "crate" { split($5, count, "="); checked[name] = count[2] }
         END { for (name in checked) print name, checked[name] }' "$1"
}

# Of each crate the bytes of its sources and proofs, which its share of the work is taken to be.
declare -A bytes

measure_crates() {
    local name
    for name in $(crates); do
        bytes[$name]=$(
            { find "$top/crates/$name/src" "$top/crates/$name/proofs" -type f -printf '%s\n' 2>/dev/null || true; } |
                awk '{ sum += $1 } END { print sum + 0 }'
        )
    done
}

# Prints how many crates are proved and left. As soon as a tenth of the work is done, it adds an estimate by the crates
# that were proved in this many seconds. It starts no process, which an interrupt would end.
report_progress() {
    local seconds=$1 finished=$2 name left="" todo=0 done_now=0 at
    # shellcheck disable=SC2206 # the words are names and numbers
    local words=($finished)
    for ((at = 0; at < ${#words[@]}; at += 2)); do
        if [ "${words[at + 1]}" -gt 0 ]; then done_now=$((done_now + ${bytes[${words[at]}]-0})); fi
    done
    for name in "${!bytes[@]}"; do
        case $'\n'$finished in
        *$'\n'"$name "*) ;;
        *) todo=$((todo + ${bytes[$name]})) ;;
        esac
    done
    if [ "$done_now" -gt 0 ] && [ $((9 * done_now)) -ge "$todo" ]; then
        left="; about $(((seconds * todo / done_now + 59) / 60)) min left"
    fi
    say "$((at / 2)) crates proved, $((${#bytes[@]} - at / 2)) left after $((seconds / 60)) min$left"
}

# Reports the progress of a process whenever a crate has been proved, and now and then in between.
show_progress() {
    local tool=$1 log=$2 before=none finished said=$SECONDS start=$SECONDS
    while kill -0 "$tool" 2>/dev/null; do
        # An interrupt ends this too.
        finished=$(crates_done "$log") || break
        if [ "$finished" != "$before" ] || [ $((SECONDS - said)) -ge "$quiet" ]; then
            before=$finished
            said=$SECONDS
            report_progress $((SECONDS - start)) "$finished"
        fi
        sleep 1
    done
}

# `rt all check` keeps what it proved in crates/*/out, so that the next call goes on from there.
prove_crates() {
    local log=$1 tool="" is_stopped=""
    measure_crates
    : >"$log"
    trap 'is_stopped=yes; if [ -n "$tool" ]; then kill "$tool" 2>/dev/null || true; fi' INT TERM HUP
    (cd "$top" && exec rt all check --jobs "${RT_JOBS:-$(nproc)}") </dev/null >>"$log" 2>&1 &
    tool=$!
    if [ -n "$is_stopped" ]; then kill "$tool" 2>/dev/null || true; fi
    # What an interrupt ends here is no failure, and the shell need not tell of it.
    show_progress "$tool" "$log" || true
    wait "$tool" 2>/dev/null || true
    trap - INT TERM HUP
    if [ -n "$is_stopped" ]; then
        say "stopped; ./wmlab --prove goes on from here"
        exit 130
    fi
}

# `rt run` builds the program over what is proved, and runs it without words.
prove() {
    local made="$top/crates/wmlab/out/wmlab" log="$built/prove.log"
    command -v rt >/dev/null || { say "proving needs $toolchain, which is not in PATH"; exit 3; }
    [ -w "$top/crates" ] || { say "$top cannot be written, and proving writes into it: prove in a copy"; exit 3; }
    mkdir -p "$built"
    say "proving every crate; this takes most of an hour, and can be interrupted and resumed; the log is $log"
    say "the first crate can take minutes: some kits read all sources first"
    rm -f "$made"
    prove_crates "$log"
    say "building the program"
    (cd "$top/crates/wmlab" && exec rt run) </dev/null >>"$log" 2>&1 || true
    if [ ! -x "$made" ]; then
        tail -n 20 "$log" >&2 || true
        say "the build failed; $log has the rest"
        exit 3
    fi
    cp "$made" "$built/wmlab.new"
    mv "$built/wmlab.new" "$built/wmlab"
    say "the proved program is $built/wmlab"
}

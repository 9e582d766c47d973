# The commands `stream` and `decide`: their answers go on as they come, beside a count of them for people.
# shellcheck shell=bash disable=SC2154 # the launcher sets `program`

# Counts the answers of each kind, and ends with a hint if no line was a document and the first was no JSON. On a
# terminal it shows the counts: each second if `shows` is `moving`, and at the end. `srand` tells the time in seconds.
count_answers() {
    awk -v shows="$1" -v command="$2" '
        function counts() {
            return sprintf("wmlab: %d answer%s: ", NR, NR == 1 ? "" : "s") (command == "decide" ? \
                sprintf("%d with a witness, %d without, %d broken, %d not decided, %d refused", \
                    of["witness"], of["no"], of["broken"], of["gave"], of["refused"]) : \
                sprintf("%d allowed, %d broken, %d refused", of["allowed"], of["broken"], of["refused"]))
        }
        BEGIN { srand(); shown = srand() }
        {
            of[/^\[/ ? "witness" : $1]++
            if ($0 !~ /^refused document /) read++
            if (NR == 1) first = $0
            if (shows == "moving") {
                srand()
                now = srand()
                if (now > shown) {
                    shown = now
                    printf "\r%s", counts() >"/dev/stderr"
                }
            }
        }
        END {
            if (shows != "") printf "%s%s\n", shows == "moving" ? "\r" : "", counts() >"/dev/stderr"
            if (NR > 1 && !read && first == "refused document NotJson") {
                printf "wmlab: no line is a document. A log has to be on one line: wmlab migrate DOC\n" >"/dev/stderr"
            }
        }
    '
}

# Runs the program as a child with its answers copied to the count, and ends with its status, or with 3 if its answers
# could not be passed on. `tee` passes each on at once, which awk may not.
answer_stream() {
    local shows="" copy answers counter copier
    if [ -t 2 ]; then shows=moving; fi
    if [ -t 2 ] && [ -t 1 ]; then shows=end; fi
    exec {copy}> >(count_answers "$shows" "$1" >/dev/null)
    counter=$!
    exec {answers}> >(exec tee --output-error=exit /dev/fd/"$copy" 2>/dev/null)
    copier=$!
    run_child "$@" <&0 >&"$answers" {answers}>&- {copy}>&-
    exec {answers}>&- {copy}>&-
    if ! wait "$copier" && [ "$status" -ne 3 ]; then end_unwritten; fi
    wait "$counter" || true
}

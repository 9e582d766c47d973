# Parts of a gate, each of which ends with a line `N passed, N failed`: sourced by .ci/run and scripts/fast.
# shellcheck shell=bash
passed=0
failed=0
seconds_of_parts=()
last_lines=$(mktemp)
# The parts that run beside others: for each name its process group, and the file of what it prints.
declare -A beside=() beside_lines=()
trap leave EXIT
# Also after a part that has heeded the interrupt, and so ended by itself.
trap 'exit 130' INT TERM HUP

# Ends the parts that still run beside others, as after an interruption, and removes what was printed.
leave() {
    local name
    for name in "${!beside[@]}"; do
        kill -INT -- "-${beside[$name]}" 2>/dev/null
        wait "${beside[$name]}" 2>/dev/null
        rm -f "${beside_lines[$name]}" "${beside_lines[$name]}.seconds"
    done
    rm -f "$last_lines"*
}

# Adds the numbers of a part's last line. A part that ends otherwise, or that tried nothing, has failed.
count_part() {
    local name=$1 status=$2 line
    line=$(tail -n 1 "$last_lines")
    if [[ $line =~ ^([0-9]+)\ passed,\ ([0-9]+)\ failed$ ]]; then
        passed=$((passed + BASH_REMATCH[1]))
        failed=$((failed + BASH_REMATCH[2]))
    fi
    if [ "$status" -ne 0 ] && [[ ! $line =~ \ [1-9][0-9]*\ failed$ ]]; then
        echo "FAILED $name: it ended with status $status"
        failed=$((failed + 1))
    fi
}

# Runs a part of this name, and counts it.
part() {
    local name=$1 start=$SECONDS
    shift
    "$@" | tee "$last_lines"
    count_part "$name" "${PIPESTATUS[0]}"
    seconds_of_parts+=("$name $((SECONDS - start)) s")
}

# Starts a part of this name beside the parts after it, in a process group of its own, so that it can be ended as a
# whole. `end_beside` waits for it, prints what it printed, and counts it.
begin_beside() {
    local name=$1 lines
    lines=$(mktemp)
    shift
    set -m
    (
        start=$SECONDS
        "$@" >"$lines" 2>&1
        status=$?
        echo "$((SECONDS - start))" >"$lines.seconds"
        exit "$status"
    ) &
    beside[$name]=$!
    beside_lines[$name]=$lines
    set +m
}

end_beside() {
    local name=$1 status=0 lines=${beside_lines[$1]}
    wait "${beside[$name]}" || status=$?
    unset "beside[$name]"
    tee "$last_lines" <"$lines"
    count_part "$name" "$status"
    seconds_of_parts+=("$name, beside others, $(cat "$lines.seconds") s")
    rm -f "$lines" "$lines.seconds"
}

# Runs a part if a tool is there, and else says that it is left out.
part_if() {
    local name=$1 tool=$2
    shift 2
    if command -v "$tool" >/dev/null; then
        part "$name" "$@"
    else
        echo "$tool is not there: $name are left out"
    fi
}

# Prints how long each part took, and the count. Fails if something failed or nothing was tried.
ends() {
    local each
    for each in "${seconds_of_parts[@]}"; do
        echo "part: $each"
    done
    echo "$passed passed, $failed failed"
    [ "$failed" -eq 0 ] && [ "$passed" -gt 0 ]
}

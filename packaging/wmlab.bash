# bash completion of wmlab
_wmlab() {
    local word=${COMP_WORDS[COMP_CWORD]} command=${COMP_WORDS[1]-}
    local commands="check explain graph races witness rules complete verify stream decide migrate drive trace run explore witnesses help version"
    COMPREPLY=()
    if [ "$COMP_CWORD" -eq 1 ]; then
        mapfile -t COMPREPLY < <(compgen -W "$commands" -- "$word")
        return
    fi
    case "$command:$COMP_CWORD" in
    help:2) mapfile -t COMPREPLY < <(compgen -W "$commands" -- "$word") ;;
    check:2 | explain:2 | graph:2 | races:2 | witness:2 | complete:2 | verify:2 | stream:2 | decide:2 | drive:2 | trace:2 | run:2 | explore:2 | witnesses:2)
        mapfile -t COMPREPLY < <(compgen -f -X '!*.wasm' -- "$word"; compgen -d -- "$word") ;;
    check:3 | explain:3 | graph:3 | races:3 | witness:3 | complete:3 | verify:3 | rules:2 | migrate:2)
        mapfile -t COMPREPLY < <(compgen -f -X '!*.json' -- "$word"; compgen -d -- "$word") ;;
    esac
}
complete -o filenames -F _wmlab wmlab

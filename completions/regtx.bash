# Completion of bash for regtx.

# made by tools/completions.py of crates/regtx/src/usages.rt
_regtx_commands="new import upgrade run serve apply apply-check kept get get-raw ls set set-raw create del del-tree export export-utf8 export-json export-tsv salvage salvage-utf8 salvage-json salvage-tsv dump check follow recover recover-from recover-to recover-damaged play lab sweep wait about usage"
_regtx_types="sz expand dword qword multi hex"
_regtx_kind() {
    case $1 in
    usage:2) kind=commands ;;
    set:5 | set-raw:5) kind=types ;;
    new:2 | import:2 | upgrade:2 | upgrade:3 | run:2 | serve:2 | serve:3 | apply:2 | apply-check:2 | kept:2 | set:2 | \
        set-raw:2 | create:2 | del:2 | del-tree:2 | follow:2) kind=folders ;;
    import:[4-9] | import:1[0-9] | run:3 | apply:3 | apply-check:3 | get:2 | get-raw:2 | ls:2 | set-raw:6 | export:2 | \
        export-utf8:2 | export-json:2 | export-tsv:2 | salvage:2 | salvage-utf8:2 | salvage-json:2 | salvage-tsv:2 | \
        dump:2 | check:2 | check:[3-9] | check:1[0-9] | recover:2 | recover:3 | recover:4 | recover:5 | recover-from:3 \
        | recover-from:4 | recover-from:5 | recover-from:6 | recover-to:3 | recover-to:4 | recover-to:5 | recover-to:6 \
        | recover-damaged:2 | recover-damaged:3 | recover-damaged:4 | recover-damaged:5 | play:2 | lab:2 | sweep:2) \
        kind=files ;;
    esac
}
# as far as here

# the words of the line; bash parts them at `:` and `=` too, which stand in keys and prefixes, so they are joined again
_regtx_words() {
    local rest=$COMP_LINE word at
    words=()
    for ((at = 0; at <= COMP_CWORD; at++)); do
        word=${COMP_WORDS[at]}
        if ((at == 0)) || [[ $rest == [[:blank:]]* ]]; then
            words+=("$word")
        else
            words[-1]+=$word
        fi
        rest=${rest#"${rest%%[![:blank:]]*}"}
        rest=${rest#"$word"}
    done
}

_regtx() {
    local commands=$_regtx_commands kind= words
    _regtx_words
    COMPREPLY=()
    # `wait SECONDS` stands before a command, once
    if [[ ${words[1]} == wait ]] && ((${#words[@]} > 3)); then
        words=("${words[0]}" "${words[@]:3}")
        ((${#words[@]} > 2)) || commands=${commands/ wait / }
    fi
    if ((${#words[@]} == 2)); then
        kind=commands
    else
        _regtx_kind "${words[1]}:$((${#words[@]} - 1))"
    fi
    case $kind in
    commands) mapfile -t COMPREPLY < <(compgen -W "$commands" -- "$2") ;;
    types) mapfile -t COMPREPLY < <(compgen -W "$_regtx_types" -- "$2") ;;
    folders) compopt -o dirnames ;;
    files) compopt -o default ;;
    esac
}

complete -F _regtx regtx

# Completion of buttresk(1) for bash, of version 4 or later.

# The options of a command, and what stands where there is none yet.
_buttresk_options() {
    local files='-j --jobs --files0-from'
    case $1 in
    index) echo "--json --strict $files -h --help" ;;
    fields) echo "--json --strict --as-crate $files -h --help" ;;
    list) echo "--strict $files -h --help" ;;
    inventory) echo "$files -h --help" ;;
    read-list) echo "--json $files -h --help" ;;
    copy) echo "--force $files -h --help" ;;
    verify | leaks) echo '-h --help' ;;
    '') echo '-h --help --version' ;;
    esac
}

# The first word before the cursor that is neither an option nor what an option takes.
_buttresk_command() {
    local word before=''
    for word in "${COMP_WORDS[@]:1:COMP_CWORD-1}"; do
        case $before in
        -j | --jobs | --files0-from) ;;
        *) [[ $word == -* ]] || { echo "$word" && return; } ;;
        esac
        before=$word
    done
}

# Whether options are over: a word -- stands before the cursor.
_buttresk_options_over() {
    local word
    for word in "${COMP_WORDS[@]:1:COMP_CWORD-1}"; do
        [[ $word != -- ]] || return 0
    done
    return 1
}

# Where nothing is answered here, bash completes the names of files (complete -o default); compopt
# takes that off where a name can't stand. It is refused outside of a completion.
_buttresk_nothing() {
    compopt +o default 2>/dev/null
    return 0
}

_buttresk() {
    local now=${COMP_WORDS[COMP_CWORD]} before=${COMP_WORDS[COMP_CWORD - 1]} command
    local commands='index fields list inventory read-list copy verify leaks'
    COMPREPLY=()
    command=$(_buttresk_command)
    if _buttresk_options_over; then
        return 0
    elif [[ $before == -j || $before == --jobs ]]; then
        _buttresk_nothing
    elif [[ $before == --files0-from ]]; then
        return 0
    elif [[ $now == -* ]]; then
        mapfile -t COMPREPLY < <(compgen -W "$(_buttresk_options "$command")" -- "$now")
        _buttresk_nothing
    elif [[ -z $command ]]; then
        mapfile -t COMPREPLY < <(compgen -W "$commands" -- "$now")
        _buttresk_nothing
    fi
}

complete -o default -F _buttresk buttresk

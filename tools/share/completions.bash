# Completes the words of propane for bash: a command, and then files.
_propane() {
    local at=1
    [ "${COMP_WORDS[1]}" != --output ] || at=3
    [ "${COMP_WORDS[1]}" != --json ] || at=2
    COMPREPLY=()
    if [ "$COMP_CWORD" -eq "$at" ]; then
        mapfile -t COMPREPLY < <(compgen -W "@COMMANDS@ @OPTIONS@" -- "${COMP_WORDS[COMP_CWORD]}")
    elif [ "$COMP_CWORD" -eq $((at + 1)) ] && [ "${COMP_WORDS[at]}" = help ]; then
        mapfile -t COMPREPLY < <(compgen -W "@COMMANDS@" -- "${COMP_WORDS[COMP_CWORD]}")
    fi
}
complete -o default -F _propane propane

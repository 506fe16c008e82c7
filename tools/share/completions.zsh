#compdef propane
# Completes the words of propane for zsh: a command, and then files.
_propane() {
    local -a commands
    local at=2
    commands=(
@DESCRIBED@
    )
    [[ $words[2] != --output ]] || at=4
    [[ $words[2] != --json ]] || at=3
    if (( CURRENT == at )); then
        (( at > 2 )) || commands+=('--output:write a file in one step, on status 0 alone' '--json:write a report as JSON')
        _describe command commands
    elif (( CURRENT == at + 1 )) && [[ $words[at] == help ]]; then
        _describe command commands
    else
        _files
    fi
}
_propane "$@"

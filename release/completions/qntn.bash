# Completion of qntn for bash: the command, then --workers with its number where the command takes one.
_qntn()
{
    local word=${COMP_WORDS[COMP_CWORD]} before=${COMP_WORDS[COMP_CWORD-1]} command=${COMP_WORDS[1]} options=1
    COMPREPLY=()
    if [ "$COMP_CWORD" -eq 1 ]; then
        COMPREPLY=($(compgen -W "contract plan mpo overlap expect gen" -- "$word"))
        return
    fi
    if [ "$before" = --workers ]; then
        COMPREPLY=($(compgen -W "1 2 4 8 16 32 64" -- "$word"))
        return
    fi
    [ "$command" = gen ] && options=2
    case $command in
        contract | overlap | expect | gen)
            [ "$COMP_CWORD" -eq $((options + 1)) ] && COMPREPLY=($(compgen -W "--workers" -- "$word"))
            ;;
    esac
    if [ ${#COMPREPLY[@]} -eq 0 ]; then
        compopt -o default 2>/dev/null
    fi
}
complete -F _qntn qntn

# Completion of souper_fmt in bash.
_souper_fmt() {
    local word=${COMP_WORDS[COMP_CWORD]}
    COMPREPLY=()
    case $COMP_CWORD:${COMP_WORDS[1]} in
    1:*) mapfile -t COMPREPLY < <(compgen -W 'lhs rhs rep same' -- "$word") ;;
    2:same) mapfile -t COMPREPLY < <(compgen -W 'lhs rhs rep' -- "$word") ;;
    [34]:same)
        compopt -o filenames 2>/dev/null
        mapfile -t COMPREPLY < <(compgen -f -- "$word")
        ;;
    esac
}
complete -F _souper_fmt souper_fmt

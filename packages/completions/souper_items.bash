# Completion of souper_items in bash: commands, their options, KIND, files.

# The words of COMP_WORDS before the cursor that are no options and no value of one, after the command.
_souper_items_operands() {
    local i word
    for ((i = 2; i < COMP_CWORD; i++)); do
        word=${COMP_WORDS[i]}
        case $word in
        --color | --in)
            ((i++))
            [[ ${COMP_WORDS[i]} == = ]] && ((i++))
            ;;
        -?*) ;;
        *) printf '%s\n' "$word" ;;
        esac
    done
}

_souper_items() {
    local word=${COMP_WORDS[COMP_CWORD]} before=${COMP_WORDS[COMP_CWORD - 1]} options='' when=''
    local shared='-h --help --color -q --quiet'
    COMPREPLY=()
    if [[ $COMP_CWORD -eq 1 ]]; then
        mapfile -t COMPREPLY < <(compgen -W 'format uniq find check help -h --help -V --version' -- "$word")
        return
    fi
    case ${COMP_WORDS[1]} in
    format | each) options="$shared -z --null -0 --null-data --key --rename -k --keep-going --line-buffered --json --lhs-key --widths --complete -w --write --force" ;;
    uniq) options="$shared -z --null -0 --null-data --key --rename -k --keep-going --line-buffered --widths --complete -c --count -d --repeated" ;;
    find) options="$shared -z --null -0 --null-data --key --rename -k --keep-going --line-buffered --in --first --unanswered --json" ;;
    check) options="$shared --diff -l --list --widths" ;;
    help)
        [[ $COMP_CWORD -eq 2 ]] && mapfile -t COMPREPLY < <(compgen -W 'format uniq find check' -- "$word")
        return
        ;;
    *) return ;;
    esac
    # Bash takes the = of --color=WHEN as a word.
    case $before:$word in
    --color:=) when=1 word='' ;;
    --color:*) when=1 ;;
    =:*) [[ ${COMP_WORDS[COMP_CWORD - 2]} == --color ]] && when=1 ;;
    esac
    if [[ $when ]]; then
        mapfile -t COMPREPLY < <(compgen -W 'auto always never' -- "$word")
    elif [[ $word == -* ]]; then
        mapfile -t COMPREPLY < <(compgen -W "$options" -- "$word")
    elif [[ ${COMP_WORDS[1]} != find && -z $(_souper_items_operands) ]]; then
        mapfile -t COMPREPLY < <(compgen -W 'lhs rhs rep auto' -- "$word")
    else
        compopt -o filenames 2>/dev/null
        mapfile -t COMPREPLY < <(compgen -f -- "$word")
    fi
}
complete -F _souper_items souper_items

# Completion of escrowd's arguments for bash.

_escrowd() {
    local word=${COMP_WORDS[COMP_CWORD]} before='' option='' given=''
    ((COMP_CWORD == 0)) || before=${COMP_WORDS[COMP_CWORD - 1]}
    COMPREPLY=()

    # bash takes the `=` of `--store=PATH` for a word of its own.
    if [[ $word == = ]]; then
        option=$before word=''
    elif [[ $before == = ]]; then
        option=${COMP_WORDS[COMP_CWORD - 2]}
    else
        option=$before
    fi

    case $option in
        --store)
            compopt -o filenames 2>/dev/null
            mapfile -t COMPREPLY < <(compgen -f -- "$word")
            return
            ;;
        --databases)
            mapfile -t COMPREPLY < <(compgen -W '1 2 3 4 5 6 7 8 9 10 11 12 13 14 15 16' -- "$word")
            return
            ;;
        --sessions) return ;;
    esac

    local place
    for ((place = 1; place < COMP_CWORD; place++)); do
        case ${COMP_WORDS[place]} in
            --store | --databases | --sessions)
                # Its value is no mode.
                [[ ${COMP_WORDS[place + 1]} != = ]] || ((++place))
                ((++place))
                ;;
            serve | run | free) given=mode ;;
        esac
    done
    if [[ $word == -* ]]; then
        mapfile -t COMPREPLY < <(compgen -W '--store --databases --sessions --help --version' -- "$word")
    elif [[ -z $given ]]; then
        mapfile -t COMPREPLY < <(compgen -W 'serve run free' -- "$word")
    else
        mapfile -t COMPREPLY < <(compgen -W '--store --databases --sessions' -- "$word")
    fi
}

complete -F _escrowd escrowd

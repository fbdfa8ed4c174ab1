# Completion for bash.
_escrowd_pg() {
    local word=${COMP_WORDS[COMP_CWORD]} before=${COMP_WORDS[COMP_CWORD - 1]}
    COMPREPLY=()
    case $before in
        --listen)
            compopt -o filenames
            mapfile -t COMPREPLY < <(compgen -d -- "$word")
            ;;
        --program | --metrics)
            compopt -o filenames
            mapfile -t COMPREPLY < <(compgen -f -- "$word")
            ;;
        --log-level)
            mapfile -t COMPREPLY < <(compgen -W "error warning info debug" -- "$word")
            ;;
        --database | --port | --mode | --sessions | --connections | --idle-in-transaction-timeout | --transaction-timeout) ;;
        *)
            mapfile -t COMPREPLY < <(compgen -W "--listen --port --mode --database --program --sessions --connections
                --idle-in-transaction-timeout --transaction-timeout --metrics --log-level --help
                --version" -- "$word")
            ;;
    esac
}
complete -F _escrowd_pg escrowd-pg

# Completion for bash.
_escrowd_proxy() {
    local word=${COMP_WORDS[COMP_CWORD]} before=${COMP_WORDS[COMP_CWORD - 1]}
    COMPREPLY=()
    case $before in
        --listen | --program | --metrics | --tls-certificate | --tls-key)
            compopt -o filenames
            mapfile -t COMPREPLY < <(compgen -f -- "$word")
            ;;
        --log-level)
            mapfile -t COMPREPLY < <(compgen -W "error warning info debug" -- "$word")
            ;;
        --postgres | --port | --mode | --fold-wait | --threads) ;;
        *)
            if [[ ${COMP_WORDS[1]} == @(install|uninstall) ]]; then
                mapfile -t COMPREPLY < <(compgen -W "--apply --postgres --help" -- "$word")
            else
                mapfile -t COMPREPLY < <(compgen -W "install uninstall --listen --port --mode
                    --postgres --program --fold-wait --threads --tls-certificate --tls-key --tls-only
                    --metrics --log-level --help --version" -- "$word")
            fi
            ;;
    esac
}
complete -F _escrowd_proxy escrowd-proxy

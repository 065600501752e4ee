# Completion of pktkit for bash. Installed as share/bash-completion/completions/pktkit.

_pktkit() {
    local word=${COMP_WORDS[COMP_CWORD]} before=${COMP_WORDS[COMP_CWORD-1]} command=${COMP_WORDS[1]} words=
    COMPREPLY=()
    # bash makes words of their own of the `=` in --workers=2 and of what comes after it
    if [[ $word == = ]]; then
        word=
    elif [[ $before == = ]]; then
        before=${COMP_WORDS[COMP_CWORD-2]}
    fi
    if ((COMP_CWORD == 1)); then
        words='ring steps run help -h --help -V --version'
    else
        case $command in
        help) ((COMP_CWORD == 2)) && words='ring steps run help' ;;
        ring | steps)
            case $word in
            -*) words='-h --help' ;;
            *) compopt -o default 2>/dev/null ;;
            esac
            ;;
        run)
            case $before in
            --config | --out) compopt -o default 2>/dev/null ;;
            --in)
                compopt -o filenames 2>/dev/null
                mapfile -t COMPREPLY < <(compgen -f -X '!*.pcap' -- "$word"; compgen -d -- "$word")
                ;;
            --workers) words='auto 0 1 2 3 4 5 6 7 8 9 10 11 12 13 14 15 16' ;;
            *) words='--config --in --out --workers --progress -h --help' ;;
            esac
            ;;
        esac
    fi
    [[ $words ]] && mapfile -t COMPREPLY < <(compgen -W "$words" -- "$word")
}

complete -F _pktkit pktkit

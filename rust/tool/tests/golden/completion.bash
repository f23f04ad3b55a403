_dsr() {
    local word=${COMP_WORDS[COMP_CWORD]} before=${COMP_WORDS[COMP_CWORD-1]} words=
    COMPREPLY=()
    if [ "$COMP_CWORD" -eq 1 ]; then
        mapfile -t COMPREPLY < <(compgen -W 'list plot write read damage trial explain completion man --help --version' -- "$word")
        return
    fi
    case ${COMP_WORDS[1]}:$before in
    list:--from) return ;;
    list:--match) return ;;
    list:--outside) return ;;
    list:--codebook) compopt -o default; return ;;
    list:--thresholds) compopt -o default; return ;;
    list:--jobs) return ;;
    plot:-o | plot:--output) compopt -o default; return ;;
    plot:--compare) compopt -o default; return ;;
    plot:--from) return ;;
    plot:--match) return ;;
    plot:--codebook) compopt -o default; return ;;
    plot:--thresholds) compopt -o default; return ;;
    write:--rate) words='8 11 16' ;;
    write:--front-end) words='standard noise-robust' ;;
    write:-o | write:--output) compopt -o default; return ;;
    read:-o | read:--output) compopt -o default; return ;;
    read:--from) return ;;
    read:--match) return ;;
    read:--outside) return ;;
    read:--codebook) compopt -o default; return ;;
    read:--thresholds) compopt -o default; return ;;
    damage:--seed) return ;;
    damage:--ber) return ;;
    damage:--burst) return ;;
    damage:--bounded) return ;;
    damage:--drop) return ;;
    damage:--repeat) return ;;
    damage:--shift) return ;;
    damage:-o | damage:--output) compopt -o default; return ;;
    trial:--utterances) return ;;
    trial:--frames) return ;;
    trial:--ber) return ;;
    trial:--burst) return ;;
    trial:--bounded) return ;;
    trial:--shift) return ;;
    trial:--match) return ;;
    trial:--seed) return ;;
    trial:-o | trial:--output) compopt -o default; return ;;
    list:*) case $word in -*) ;; *) compopt -o default; return ;; esac; words='--json --numbers --bits --from --match --outside --one-header-settles --codebook --thresholds --jobs -h --help' ;;
    plot:*) case $word in -*) ;; *) compopt -o default; return ;; esac; words='-o --output --compare --bits --from --match --one-header-settles --codebook --thresholds -h --help' ;;
    write:*) case $word in -*) ;; *) compopt -o default; return ;; esac; words='--rate --front-end --raw -o --output -h --help' ;;
    read:*) case $word in -*) ;; *) compopt -o default; return ;; esac; words='--raw --notes -o --output --bits --from --match --outside --one-header-settles --codebook --thresholds -h --help' ;;
    damage:*) case $word in -*) ;; *) compopt -o default; return ;; esac; words='--seed --ber --burst --bounded --spare-syncs --drop --repeat --shift -o --output -h --help' ;;
    trial:*) words='--utterances --frames --ber --burst --bounded --spare-syncs --shift --match --seed --trust -o --output -h --help' ;;
    explain:*) words='-h --help note end' ;;
    completion:*) words='-h --help bash zsh fish' ;;
    man:*) words='-h --help' ;;
    esac
    mapfile -t COMPREPLY < <(compgen -W "$words" -- "$word")
}
complete -F _dsr dsr

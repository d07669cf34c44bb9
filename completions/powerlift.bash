# Completion of powerlift for bash.
_powerlift() {
    local word=${COMP_WORDS[COMP_CWORD]} before=${COMP_WORDS[COMP_CWORD - 1]}
    local command=${COMP_WORDS[1]}
    COMPREPLY=()
    if [ "$COMP_CWORD" -eq 1 ]; then
        mapfile -t COMPREPLY < <(compgen -W "plan successors validate make" -- "$word")
        return
    fi
    case $before in
        --search)
            mapfile -t COMPREPLY < <(compgen -W "bfs gbfs iw1 iw2" -- "$word")
            return
            ;;
        --limit | --count | --past) return ;;
        --after)
            mapfile -t COMPREPLY < <(compgen -f -- "$word")
            return
            ;;
    esac
    if [ "$command" = make ]; then
        [ "$COMP_CWORD" -ne 2 ] || mapfile -t COMPREPLY < <(compgen -W "hop wide" -- "$word")
        return
    fi
    if [[ $word == --* ]]; then
        case $command in
            plan) mapfile -t COMPREPLY < <(compgen -W "--search --limit --stats" -- "$word") ;;
            successors) mapfile -t COMPREPLY < <(compgen -W "--after --past --count" -- "$word") ;;
        esac
        return
    fi
    mapfile -t COMPREPLY < <(compgen -f -- "$word")
}
complete -o filenames -F _powerlift powerlift

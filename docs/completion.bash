# Completion for bash of the commands, options and files of `umpire`.

_umpire() {
    local word=${COMP_WORDS[COMP_CWORD]} before=${COMP_WORDS[COMP_CWORD-1]} command=${COMP_WORDS[1]-}
    local option left="" place
    if [ "$COMP_CWORD" -eq 1 ]; then
        mapfile -t COMPREPLY < <(compgen -W "solve check print" -- "$word")
        return
    fi
    case $before in
    --nodes | --pivots)
        return
        ;;
    esac
    # Options stand behind the deck, each at most once.
    if [ "$command" = solve ] && [ "$COMP_CWORD" -gt 2 ] && [ "$before" != --tree ]; then
        for option in --nodes --pivots --tree; do
            for place in "${!COMP_WORDS[@]}"; do
                if [ "$place" -ne "$COMP_CWORD" ] && [ "${COMP_WORDS[place]}" = "$option" ]; then
                    continue 2
                fi
            done
            left="$left $option"
        done
        mapfile -t COMPREPLY < <(compgen -W "$left" -- "$word")
        return
    fi
    mapfile -t COMPREPLY < <(compgen -f -- "$word")
}

complete -o filenames -F _umpire umpire

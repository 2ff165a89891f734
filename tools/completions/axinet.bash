# Completion of axinet's words for bash.
_axinet() {
    local word=${COMP_WORDS[COMP_CWORD]} before=${COMP_WORDS[COMP_CWORD - 1]}
    if ((COMP_CWORD == 1)); then
        mapfile -t COMPREPLY < <(compgen -W 'run check plan' -- "$word")
    elif [[ $before == --trace || $before == '=' ]]; then
        mapfile -t COMPREPLY < <(compgen -W 'none all' -- "${word#=}")
    elif [[ ${COMP_WORDS[1]} == run && $word != '=' ]]; then
        mapfile -t COMPREPLY < <(compgen -W '--trace' -- "$word")
    elif [[ $word == '=' ]]; then
        COMPREPLY=(none all)
    fi
}
complete -F _axinet axinet

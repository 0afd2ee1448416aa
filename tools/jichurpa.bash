# Completions for the program jichurpa, loaded by bash. tools/install puts this file into PREFIX/share/bash-completion/completions.

# The words that may stand in the place of the last one, one on a line.
_jichurpa_words() {
    local dump LC_ALL=C
    if [ "$COMP_CWORD" = 1 ]; then
        printf '%s\n' play bulk show-dump evacuate audit record node serve threads fanout mail --help -h --version
        return
    fi
    if [ "$COMP_CWORD" = 2 ] && [[ ${COMP_WORDS[2]} = -* ]]; then
        printf '%s\n' --help -h
        return
    fi
    if [ "${COMP_WORDS[1]}" = evacuate ] && [ "$COMP_CWORD" -le 17 ]; then
        seq 1 255
        return
    fi
    if [ "${COMP_WORDS[1]}" = serve ] && [ "$COMP_CWORD" -gt 3 ]; then
        printf '%s\n' --depot --timeout --keep
        return
    fi
    case "${COMP_WORDS[1]} $COMP_CWORD" in
    'bulk 3' | 'threads 2' | 'mail 3') seq 1 8 ;;
    'threads 4') seq 0 8 ;;
    'fanout 2') seq 1 4 ;;
    'node 2' | 'serve 2') seq 1 255 ;;
    'bulk 5' | 'mail 5') seq 0 16 ;;
    'show-dump 2')
        for dump in depot/*; do
            [ -f "$dump" ] && [[ ${dump#depot/} =~ ^[a-z][a-z0-9_]{0,15}$ ]] && echo "${dump#depot/}"
        done
        ;;
    esac
}

_jichurpa() {
    local word=${COMP_WORDS[COMP_CWORD]} before=${COMP_WORDS[COMP_CWORD - 1]}
    case $before in
    '<' | '>' | '>>')
        compopt -o filenames 2>/dev/null
        mapfile -t COMPREPLY < <(compgen -f -- "$word")
        ;;
    --depot)
        compopt -o filenames 2>/dev/null
        mapfile -t COMPREPLY < <(compgen -d -- "$word")
        ;;
    --timeout) COMPREPLY=() ;;
    *) mapfile -t COMPREPLY < <(compgen -W "$(_jichurpa_words)" -- "$word") ;;
    esac
}

complete -F _jichurpa jichurpa

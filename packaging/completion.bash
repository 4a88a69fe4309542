# shellcheck shell=bash
# Completion for bash: the programs of saxundeer, their options, and files. ./release puts the names in.
_saxundeer() {
    local word=${COMP_WORDS[COMP_CWORD]} words=
    COMPREPLY=()
    if [ "$COMP_CWORD" -eq 1 ]; then
        words='@PROGRAMS@ example verify --help --proved --version'
    elif [ "${COMP_WORDS[1]}" = --proved ]; then
        words='@PROGRAMS@'
    elif [ "$COMP_CWORD" -eq 2 ] || [[ $word == -* ]]; then
        case ${COMP_WORDS[1]} in
        @OPTIONS@)
            ;;
        esac
        # --help is an answer only directly after the program's name.
        [ "$COMP_CWORD" -ne 2 ] || words="$words --help"
        [[ $word == -* ]] || words=
    fi
    # What fits none of these words is completed as the name of a file.
    mapfile -t COMPREPLY < <(compgen -W "$words" -- "$word")
}
complete -o bashdefault -o default -F _saxundeer saxundeer

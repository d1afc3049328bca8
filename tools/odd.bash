# Completes the words of odd in bash: source it, or put it to the other completions under the name odd.
_odd() {
    local last=${COMP_WORDS[COMP_CWORD]} at=1 offered="--lines --help --version aside compile merge explain"
    COMPREPLY=()
    if [ "${COMP_WORDS[at]}" = --lines ] && [ "$COMP_CWORD" -gt "$at" ]; then
        at=$((at + 1)) offered="aside compile merge explain"
    fi
    if [ "${COMP_WORDS[at]}" = aside ] && [ "$COMP_CWORD" -gt "$at" ]; then
        at=$((at + 1)) offered="compile merge explain"
    fi
    if [ "$COMP_CWORD" -eq "$at" ]; then
        mapfile -t COMPREPLY < <(compgen -W "$offered" -- "$last")
        return
    fi
    case ${COMP_WORDS[at]} in
        compile | merge) ;;
        # an ident comes before the files
        explain) [ "$COMP_CWORD" -gt $((at + 1)) ] || return ;;
        *) return ;;
    esac
    mapfile -t COMPREPLY < <(compgen -f -- "$last")
}
complete -o filenames -F _odd odd

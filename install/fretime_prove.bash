# Completions of fretime_prove for bash.

_fretime_prove() {
    local word=${COMP_WORDS[COMP_CWORD]}
    COMPREPLY=()
    case ${COMP_WORDS[COMP_CWORD - 1]} in
        --property | --seconds | --solver) return ;;
        --prover)
            mapfile -t COMPREPLY < <(compgen -W "pdr equalities" -- "$word")
            return
            ;;
        --keep)
            compopt -o filenames 2> /dev/null
            mapfile -t COMPREPLY < <(compgen -d -- "$word")
            return
            ;;
    esac
    case $word in
        -*)
            mapfile -t COMPREPLY < <(compgen -W "--prover --certificate --witness --property --each --seconds --solver --keep --json --program --help" -- "$word")
            ;;
        *)
            compopt -o filenames 2> /dev/null
            mapfile -t COMPREPLY < <(compgen -f -- "$word")
            ;;
    esac
}

complete -F _fretime_prove fretime_prove

# Completions of fretime_verilog for bash.

_fretime_verilog() {
    local word=${COMP_WORDS[COMP_CWORD]}
    COMPREPLY=()
    case ${COMP_WORDS[COMP_CWORD - 1]} in
        -D | -P | --clock | --keep | --frames | --levels | --seconds) return ;;
        -I)
            compopt -o filenames 2> /dev/null
            mapfile -t COMPREPLY < <(compgen -d -- "$word")
            return
            ;;
    esac
    case $word in
        -*)
            mapfile -t COMPREPLY < <(compgen -W "-o -I -D -P --zero --clock --keep --near --merge --enables --backward --frames --no-longer --levels --seconds --program --version --help" -- "$word")
            ;;
        *)
            compopt -o filenames 2> /dev/null
            mapfile -t COMPREPLY < <(compgen -f -- "$word")
            ;;
    esac
}

complete -F _fretime_verilog fretime_verilog

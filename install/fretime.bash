# Completions of fretime for bash.

# made by docs/make: names
_fretime_commands='retime backward enables batch convert stat sim same dot explain verify check miter product lift witness help'
_fretime_faults='BadHeader TooLarge MaxIndex BadLine BadLiteral DefinedTwice Undefined Cycle BadReset BadDelta Truncated BadSymbol Trailing Width TooMany NoSuchProperty TooManySteps NoSuchName NoSuchLatch TooManyNodes NotAMap NoSuchLiteral ShapesDiffer NotClosed BadRoute UsedTwice CountDiffers TooLong NotShown NoMemory Device'
# end of names

# Reads the line up to the cursor, of which nothing is run or expanded but a home folder. Sets `words` to its words without their
# quotes, the last of which is the one that is completed, `quote` to the quote that is open in that, or to nothing, and `fixed` to the
# part of it that readline leaves as it is: what stands before that quote, or up to the last sign that breaks words for readline.
_fretime_read() {
    local line=${COMP_LINE:0:COMP_POINT} char next word= broken= begun= at
    words=() quote= fixed=
    for ((at = 0; at < ${#line}; at++)); do
        char=${line:at:1} next=${line:at+1:1}
        case $quote$char in
            \'\' | \"\") quote= fixed=$broken ;;
            \'?) word+=$char ;;
            \"\\) if [[ $next == [\$\`\"\\] ]]; then word+=$next; at=$((at + 1)); else word+=$char; fi ;;
            \"?) word+=$char ;;
            \' | \") quote=$char fixed=$word begun=yes ;;
            \\) word+=$next at=$((at + 1)) begun=yes ;;
            [[:blank:]])
                if [ "$begun" ]; then words+=("$word"); fi
                word= broken= fixed= begun=
                ;;
            *)
                if [[ $char$next == '~/' && -z $begun ]]; then char=$HOME; fi
                word+=$char begun=yes
                if [[ $COMP_WORDBREAKS == *"$char"* ]]; then broken=$word fixed=$word; fi
                ;;
        esac
    done
    words+=("$word")
}

# The options of a command, each with its value, as its help lists them.
_fretime_options() {
    "${words[0]}" "${words[1]}" -h 2>&1 < /dev/null | sed -En 's/^ +(-\w, )?(--[a-z-]+( <\w+>)?) .*/\2/p'
}

# The circuit that is read: the first word after the command that is no option, nor the value of one.
_fretime_circuit() {
    local word is_value= with_value
    with_value=$(sed -n 's/ <.*//p' <<< "$options")
    for word in "${words[@]:2:${#words[@]}-3}"; do
        if [ "$is_value" ]; then
            is_value=
        elif [[ $'\n'$with_value$'\n' == *$'\n'"$word"$'\n'* ]]; then
            is_value=yes
        elif [[ $word != --* ]]; then
            printf '%s\n' "$word"
            return
        fi
    done
}

# The rest of a name after what readline leaves, written so that the shell takes each of its signs as it is: a quote that is open is
# closed where a sign needs another. Readline takes the first sign for the open quote and the last one for the closing quote, where
# they are such a quote, so there are two then.
_fretime_quoted() {
    local rest=$1
    case $quote in
        \')
            rest=${rest//\'/\'\\\'\'}
            ;;
        \")
            rest=${rest//\\/\\\\}
            rest=${rest//\"/\\\"}
            rest=${rest//\$/\\\$}
            rest=${rest//\`/\\\`}
            rest=${rest//\!/\"\\\!\"}
            ;;
        *)
            printf '%q\n' "$rest"
            return
            ;;
    esac
    if [[ $rest == "$quote"* ]]; then rest=$quote$rest; fi
    if [[ $rest == *"$quote" ]]; then rest+=$quote; fi
    printf '%s\n' "$rest"
}

# The names of a kind in the circuit (l is that of latches) that begin with the word. Those with a control sign, or that no option can
# have, since they begin with -, are left out.
_fretime_names() {
    local name word=${words[-1]} circuit
    circuit=$(_fretime_circuit)
    if ! [ -f "$circuit" ]; then return; fi
    while IFS= read -r name; do
        if [[ $name == "$word"* ]]; then _fretime_quoted "${name:${#fixed}}"; fi
    done < <(LC_ALL=C.UTF-8 grep -axE "[$1][0-9]* [^-[:cntrl:]][^[:cntrl:]]*" < "$circuit" | cut -d ' ' -f 2-)
}

_fretime() {
    local word=${COMP_WORDS[COMP_CWORD]} options words quote fixed
    COMPREPLY=()
    _fretime_read
    if [ ${#words[@]} = 2 ]; then
        mapfile -t COMPREPLY < <(compgen -W "$_fretime_commands --help --version" -- "$word")
        return
    fi
    case ${words[1]} in
        explain)
            if [ ${#words[@]} = 3 ]; then mapfile -t COMPREPLY < <(compgen -W "--help $_fretime_faults" -- "$word"); fi
            return
            ;;
        help)
            if [ ${#words[@]} = 3 ]; then mapfile -t COMPREPLY < <(compgen -W "$_fretime_commands" -- "$word"); fi
            return
            ;;
        *)
            if [[ " $_fretime_commands " != *" ${words[1]} "* ]]; then return; fi
            options=$(_fretime_options)
            ;;
    esac
    case ${words[-2]} in
        --keep)
            mapfile -t COMPREPLY < <(_fretime_names l)
            return
            ;;
        --around)
            mapfile -t COMPREPLY < <(_fretime_names ilobcjf)
            return
            ;;
    esac
    if [[ $'\n'$options$'\n' == *$'\n'"${words[-2]} <n>"$'\n'* ]]; then return; fi
    case $word in
        -*) mapfile -t COMPREPLY < <(compgen -W "$(sed 's/ <.*//' <<< "$options")" -- "$word") ;;
        *)
            compopt -o filenames 2> /dev/null
            mapfile -t COMPREPLY < <(compgen -f -- "$word")
            ;;
    esac
}

complete -F _fretime fretime

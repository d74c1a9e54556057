# Completions of fretime for fish.

# The names of a kind in the circuit that is read, which is the first word after the command that is no option, nor the value of one.
# Those with a control sign, or that no option can have, since they begin with -, are left out, and so are those with a tilde first,
# but within quotes: fish quotes all others.
function __fretime_names
    set -l is_value no
    set -l first '^-[:cntrl:]~'
    if string match -qr '^["\']' -- (commandline -ct)
        set first '^-[:cntrl:]'
    end
    for word in (commandline -opc)[3..-1]
        if test $is_value = yes
            set is_value no
        # made by docs/make: options with a value
        else if string match -qr '^--(workers|frames|classes|levels|cert|map|keep|keep-from|keep-latch|random|steps|seed|vcd|kept|around|depth|out)$' -- $word
        # end of options with a value
            set is_value yes
        else if not string match -q -- '--*' $word
            set -l circuit (string replace -r '^~/' "$HOME/" -- $word)
            if test -f "$circuit"
                env LC_ALL=C.UTF-8 grep -axE "[$argv[1]][0-9]* [$first][^[:cntrl:]]*" <$circuit | string replace -r '^[a-z][0-9]* ' ''
            end
            return
        end
    end
end

# made by docs/make: commands and options
complete -c fretime -n __fish_use_subcommand -f -a retime -d 'Moves latches forward over gates, frame by frame, until none helps'
complete -c fretime -n __fish_use_subcommand -f -a backward -d 'Moves latches backward over gates, frame by frame, until none helps'
complete -c fretime -n __fish_use_subcommand -f -a enables -d 'Moves registers with an enable or a reset forward over gates, too'
complete -c fretime -n __fish_use_subcommand -f -a batch -d 'Retimes the circuits of a list, many at once'
complete -c fretime -n __fish_use_subcommand -f -a convert -d 'Writes a circuit as it was read; without a flag in the other format'
complete -c fretime -n __fish_use_subcommand -f -a stat -d 'Counts what a circuit has, as it was read'
complete -c fretime -n __fish_use_subcommand -f -a sim -d 'Prints the values of all properties under a stimulus'
complete -c fretime -n __fish_use_subcommand -f -a same -d 'Finds the first difference of two circuits under a stimulus'
complete -c fretime -n __fish_use_subcommand -f -a dot -d 'Writes a picture of a circuit, for Graphviz'
complete -c fretime -n __fish_use_subcommand -f -a explain -d 'Says what a fault is, and what to do'
complete -c fretime -n __fish_use_subcommand -f -a verify -d 'Checks the certificates that \'retime --cert\' wrote'
complete -c fretime -n __fish_use_subcommand -f -a check -d 'Checks a circuit against what was made of it, with a map or without'
complete -c fretime -n __fish_use_subcommand -f -a miter -d 'Writes what a map of states has to meet as a circuit'
complete -c fretime -n __fish_use_subcommand -f -a product -d 'Writes two circuits side by side, with a proof that they agree'
complete -c fretime -n __fish_use_subcommand -f -a lift -d 'Carries a proof of a retimed circuit back to what it was made of'
complete -c fretime -n __fish_use_subcommand -f -a witness -d 'Carries a witness of a retimed circuit back to what it was made of'
complete -c fretime -n __fish_use_subcommand -f -a help -d 'Print this message or the help of the given subcommand(s)'
complete -c fretime -n __fish_use_subcommand -s V -l version -d 'Print version'
complete -c fretime -n 'not __fish_seen_subcommand_from help' -s h -l help -d 'Print help'
complete -c fretime -n '__fish_seen_subcommand_from help' -f -a 'retime backward enables batch convert stat sim same dot explain verify check miter product lift witness help'

complete -c fretime -n '__fish_seen_subcommand_from retime' -l ascii -d 'Write ASCII'
complete -c fretime -n '__fish_seen_subcommand_from retime' -l binary -d 'Write binary'
complete -c fretime -n '__fish_seen_subcommand_from retime' -x -l workers -d 'Threads that work on the flow'
complete -c fretime -n '__fish_seen_subcommand_from retime' -x -l frames -d 'The most frames to take'
complete -c fretime -n '__fish_seen_subcommand_from retime' -l near -d 'Move latches as few gates as a least count allows'
complete -c fretime -n '__fish_seen_subcommand_from retime' -l merge -d 'Merge latches that always agree, before any frame'
complete -c fretime -n '__fish_seen_subcommand_from retime' -r -l classes -d 'Merge the latches that the certificates in FILE list'
complete -c fretime -n '__fish_seen_subcommand_from retime' -x -l levels -d 'Let no path get more gates than n or the longest of IN'
complete -c fretime -n '__fish_seen_subcommand_from retime' -l no-longer -d 'Let no path get longer than the longest of IN'
complete -c fretime -n '__fish_seen_subcommand_from retime' -r -l cert -d 'Write a certificate of each frame to FILE'
complete -c fretime -n '__fish_seen_subcommand_from retime' -r -l map -d 'Write how OUT\'s latches follow from IN\'s to MAP'
complete -c fretime -n '__fish_seen_subcommand_from retime' -l progress -d 'Write a line to standard error as each frame begins'
complete -c fretime -n '__fish_seen_subcommand_from retime' -l quiet -d 'Show no progress on a terminal either'
complete -c fretime -n '__fish_seen_subcommand_from retime' -x -l keep -d 'Hold each latch with this name; may be repeated'
complete -c fretime -n '__fish_seen_subcommand_from retime' -r -l keep-from -d 'Hold the latches that the lines of FILE name'
complete -c fretime -n '__fish_seen_subcommand_from retime' -x -l keep-latch -d 'Hold the latch at position n, from 0; may be repeated'
complete -c fretime -n '__fish_seen_subcommand_from retime' -l json -d 'Print an object of JSON in place of the lines'

complete -c fretime -n '__fish_seen_subcommand_from backward' -l ascii -d 'Write ASCII'
complete -c fretime -n '__fish_seen_subcommand_from backward' -l binary -d 'Write binary'
complete -c fretime -n '__fish_seen_subcommand_from backward' -x -l frames -d 'The most frames to take'
complete -c fretime -n '__fish_seen_subcommand_from backward' -x -l levels -d 'Let no path get more gates than n or the longest of IN'
complete -c fretime -n '__fish_seen_subcommand_from backward' -l no-longer -d 'Let no path get longer than the longest of IN'
complete -c fretime -n '__fish_seen_subcommand_from backward' -l enables -d 'Then move registers with an enable or a reset, too'
complete -c fretime -n '__fish_seen_subcommand_from backward' -r -l map -d 'Write how IN\'s latches follow from OUT\'s to MAP'
complete -c fretime -n '__fish_seen_subcommand_from backward' -l progress -d 'Write a line to standard error as each frame begins'
complete -c fretime -n '__fish_seen_subcommand_from backward' -l quiet -d 'Show no progress on a terminal either'
complete -c fretime -n '__fish_seen_subcommand_from backward' -x -l keep -d 'Hold each latch with this name; may be repeated'
complete -c fretime -n '__fish_seen_subcommand_from backward' -r -l keep-from -d 'Hold the latches that the lines of FILE name'
complete -c fretime -n '__fish_seen_subcommand_from backward' -x -l keep-latch -d 'Hold the latch at position n, from 0; may be repeated'
complete -c fretime -n '__fish_seen_subcommand_from backward' -l json -d 'Print an object of JSON in place of the lines'

complete -c fretime -n '__fish_seen_subcommand_from enables' -l ascii -d 'Write ASCII'
complete -c fretime -n '__fish_seen_subcommand_from enables' -l binary -d 'Write binary'
complete -c fretime -n '__fish_seen_subcommand_from enables' -x -l frames -d 'The most frames to take'
complete -c fretime -n '__fish_seen_subcommand_from enables' -x -l levels -d 'Let no path get more gates than n or the longest of IN'
complete -c fretime -n '__fish_seen_subcommand_from enables' -l no-longer -d 'Let no path get longer than the longest of IN'
complete -c fretime -n '__fish_seen_subcommand_from enables' -r -l map -d 'Write how OUT\'s latches follow from IN\'s to MAP'
complete -c fretime -n '__fish_seen_subcommand_from enables' -l progress -d 'Write a line to standard error as each frame begins'
complete -c fretime -n '__fish_seen_subcommand_from enables' -l quiet -d 'Show no progress on a terminal either'
complete -c fretime -n '__fish_seen_subcommand_from enables' -x -l keep -d 'Hold each latch with this name; may be repeated'
complete -c fretime -n '__fish_seen_subcommand_from enables' -r -l keep-from -d 'Hold the latches that the lines of FILE name'
complete -c fretime -n '__fish_seen_subcommand_from enables' -x -l keep-latch -d 'Hold the latch at position n, from 0; may be repeated'
complete -c fretime -n '__fish_seen_subcommand_from enables' -l json -d 'Print an object of JSON in place of the lines'

complete -c fretime -n '__fish_seen_subcommand_from batch' -l ascii -d 'Write ASCII'
complete -c fretime -n '__fish_seen_subcommand_from batch' -l binary -d 'Write binary'
complete -c fretime -n '__fish_seen_subcommand_from batch' -x -l workers -d 'Threads, each with a circuit at a time'
complete -c fretime -n '__fish_seen_subcommand_from batch' -x -l frames -d 'The most frames to take'
complete -c fretime -n '__fish_seen_subcommand_from batch' -l near -d 'Move latches as few gates as a least count allows'
complete -c fretime -n '__fish_seen_subcommand_from batch' -l merge -d 'Merge latches that always agree, before any frame'
complete -c fretime -n '__fish_seen_subcommand_from batch' -x -l levels -d 'Let no path get more gates than n or the longest of IN'
complete -c fretime -n '__fish_seen_subcommand_from batch' -l no-longer -d 'Let no path get longer than the longest of IN'
complete -c fretime -n '__fish_seen_subcommand_from batch' -l json -d 'Print an object of JSON in place of the lines'

complete -c fretime -n '__fish_seen_subcommand_from convert' -l ascii -d 'Write ASCII'
complete -c fretime -n '__fish_seen_subcommand_from convert' -l binary -d 'Write binary'

complete -c fretime -n '__fish_seen_subcommand_from stat' -l merge -d 'Count the latches that always agree, too'
complete -c fretime -n '__fish_seen_subcommand_from stat' -l json -d 'Print an object of JSON in place of the lines'

complete -c fretime -n '__fish_seen_subcommand_from sim' -x -l random -d 'Take n random sequences in place of STIM'
complete -c fretime -n '__fish_seen_subcommand_from sim' -x -l steps -d 'The steps of each random sequence, else 100'
complete -c fretime -n '__fish_seen_subcommand_from sim' -x -l seed -d 'What random digits follow from, else 0'
complete -c fretime -n '__fish_seen_subcommand_from sim' -r -l vcd -d 'Write the waves to FILE, as a value change dump (IEEE 1364)'

complete -c fretime -n '__fish_seen_subcommand_from same' -x -l random -d 'Take n random sequences in place of STIM'
complete -c fretime -n '__fish_seen_subcommand_from same' -x -l steps -d 'The steps of each random sequence, else 100'
complete -c fretime -n '__fish_seen_subcommand_from same' -x -l seed -d 'What random digits follow from, else 0'
complete -c fretime -n '__fish_seen_subcommand_from same' -r -l kept -d 'B has the free latches of A in LIST alone'
complete -c fretime -n '__fish_seen_subcommand_from same' -l json -d 'Print an object of JSON in place of the lines'

complete -c fretime -n '__fish_seen_subcommand_from dot' -l frame -d 'Show over which gates latches move next'
complete -c fretime -n '__fish_seen_subcommand_from dot' -l merge -d 'Merge latches that always agree first'
complete -c fretime -n '__fish_seen_subcommand_from dot' -x -l levels -d 'Let no path get more gates than n or the longest of IN'
complete -c fretime -n '__fish_seen_subcommand_from dot' -l no-longer -d 'Let no path get longer than the longest of IN'
complete -c fretime -n '__fish_seen_subcommand_from dot' -x -l keep -d 'Hold each latch with this name; may be repeated'
complete -c fretime -n '__fish_seen_subcommand_from dot' -r -l keep-from -d 'Hold the latches that the lines of FILE name'
complete -c fretime -n '__fish_seen_subcommand_from dot' -x -l keep-latch -d 'Hold the latch at position n, from 0; may be repeated'
complete -c fretime -n '__fish_seen_subcommand_from dot' -x -l around -d 'Draw the neighbourhood of what has this name alone'
complete -c fretime -n '__fish_seen_subcommand_from dot' -x -l depth -d 'How many edges the neighbourhood reaches, else 2'

complete -c fretime -n '__fish_seen_subcommand_from verify' -x -l keep -d 'Hold each latch with this name; may be repeated'
complete -c fretime -n '__fish_seen_subcommand_from verify' -r -l keep-from -d 'Hold the latches that the lines of FILE name'
complete -c fretime -n '__fish_seen_subcommand_from verify' -x -l keep-latch -d 'Hold the latch at position n, from 0; may be repeated'
complete -c fretime -n '__fish_seen_subcommand_from verify' -r -l out -d 'Check that the blocks end in OUT, too'
complete -c fretime -n '__fish_seen_subcommand_from verify' -l merge -d 'IN was retimed with --merge'
complete -c fretime -n '__fish_seen_subcommand_from verify' -x -l levels -d 'Let no path get more gates than n or the longest of IN'
complete -c fretime -n '__fish_seen_subcommand_from verify' -l no-longer -d 'Let no path get longer than the longest of IN'
complete -c fretime -n '__fish_seen_subcommand_from verify' -l json -d 'Print an object of JSON in place of the lines'

complete -c fretime -n '__fish_seen_subcommand_from check' -r -l kept -d 'OUT has the free latches of IN in LIST alone'

complete -c fretime -n '__fish_seen_subcommand_from miter' -l ascii -d 'Write ASCII'
complete -c fretime -n '__fish_seen_subcommand_from miter' -l binary -d 'Write binary'

complete -c fretime -n '__fish_seen_subcommand_from product' -l ascii -d 'Write ASCII'
complete -c fretime -n '__fish_seen_subcommand_from product' -l binary -d 'Write binary'

complete -c fretime -n '__fish_seen_subcommand_from lift' -l back -d 'Read MAP as \'backward\' writes it, from OUT to IN'
complete -c fretime -n '__fish_seen_subcommand_from lift' -l ascii -d 'Write ASCII'
complete -c fretime -n '__fish_seen_subcommand_from lift' -l binary -d 'Write binary'

complete -c fretime -n '__fish_seen_subcommand_from witness' -l merge -d 'OUT was written with --merge'

complete -c fretime -n '__fish_seen_subcommand_from retime backward enables dot verify' -x -l keep -a '(__fretime_names l)' \
    -d 'Hold each latch with this name; may be repeated'
complete -c fretime -n '__fish_seen_subcommand_from dot' -x -l around -a '(__fretime_names ilobcjf)' \
    -d 'Draw the neighbourhood of what has this name alone'

complete -c fretime -n '__fish_seen_subcommand_from explain' -f -a 'BadHeader TooLarge MaxIndex BadLine BadLiteral DefinedTwice Undefined Cycle BadReset BadDelta Truncated BadSymbol Trailing Width TooMany NoSuchProperty TooManySteps NoSuchName NoSuchLatch TooManyNodes NotAMap NoSuchLiteral ShapesDiffer NotClosed BadRoute UsedTwice CountDiffers TooLong NotShown NoMemory Device'
# end of commands and options

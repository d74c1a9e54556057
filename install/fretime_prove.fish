# Completions of fretime_prove for fish.

complete -c fretime_prove -x -l prover -a 'pdr equalities' -d 'pdr, equalities, or a command with {model}, and {proof} or {counterexample}'
complete -c fretime_prove -r -l certificate -d 'the witness circuit to write, if there is a proof'
complete -c fretime_prove -r -l witness -d 'the counterexample to write, if there is one'
complete -c fretime_prove -x -l property -d 'the bad state at position N alone, from 0'
complete -c fretime_prove -l each -d 'each bad state by itself, in place of all at once'
complete -c fretime_prove -x -l seconds -d 'how long all of it may take, 300 by default'
complete -c fretime_prove -x -l solver -d 'a SAT solver for DIMACS files, or none, else the first that is there'
complete -c fretime_prove -x -l keep -a '(__fish_complete_directories)' -d 'the folder that keeps all files on the way'
complete -c fretime_prove -l json -d 'print an object of JSON in place of the lines'
complete -c fretime_prove -r -l program -d 'fretime, else that of this repository, else that of PATH'
complete -c fretime_prove -s h -l help -d 'show this help message and exit'

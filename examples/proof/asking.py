"""What the words of a command line ask of fretime_prove."""
import argparse
import os
import re
import shlex

from programs import USAGE, Failed


def refuse_clashes(asked):
    """Refuses two of IN, RESULT and FILE that are one file."""
    named = {'IN': asked.circuit, '--certificate': asked.certificate, '--witness': asked.witness}
    seen = {}
    for name, path in named.items():
        if path is None or (name == 'IN' and path == '-'):
            continue
        whole = os.path.realpath(path)
        if whole in seen and not (os.path.exists(whole) and not os.path.isfile(whole)):
            raise Failed(USAGE, f"{name} '{path}' and {seen[whole]} are one file")
        seen[whole] = name


def seconds(text):
    if not re.fullmatch('[0-9]{1,9}', text) or not int(text):
        raise argparse.ArgumentTypeError(f"{text!r} isn't a number from 1 to 999999999")
    return int(text)


def place(text):
    if not re.fullmatch('[0-9]{1,9}', text):
        raise argparse.ArgumentTypeError(f"{text!r} isn't a number from 0 to 999999999")
    return int(text)


def prover(text):
    """The prover's name, or a command with a place for its model."""
    if text in ('pdr', 'equalities'):
        return text
    try:
        words = shlex.split(text)
    except ValueError as error:
        raise argparse.ArgumentTypeError(f'{text!r}: {error}') from error
    if not any('{model}' in word for word in words):
        kinds = 'pdr, equalities or a command with {model}'
        raise argparse.ArgumentTypeError(f"{text!r} isn't {kinds}")
    return text


def arguments():
    told = 'Proves with fretime that a circuit reaches no bad state.'
    parser = argparse.ArgumentParser(prog='fretime_prove', description=told)
    add = parser.add_argument
    add('circuit', metavar='IN', help='the AIGER file, or - for standard input')
    add('--prover', metavar='COMMAND', type=prover, default='pdr',
        help='pdr, equalities, or a command with {model}, and {proof} or {counterexample}')
    add('--certificate', metavar='RESULT', help='the witness circuit to write, if there is a proof')
    add('--witness', metavar='FILE', help='the counterexample to write, if there is one')
    which = parser.add_mutually_exclusive_group()
    which.add_argument('--property', metavar='N', type=place,
                       help='the bad state at position N alone, from 0')
    which.add_argument('--each', action='store_true',
                       help='each bad state by itself, in place of all at once')
    add('--seconds', metavar='N', type=seconds, default=300,
        help='how long all of it may take, 300 by default')
    add('--solver', metavar='COMMAND',
        help='a SAT solver for DIMACS files, or none, else the first that is there')
    add('--keep', metavar='DIR', help='the folder that keeps all files on the way')
    add('--json', action='store_true', help='print an object of JSON in place of the lines')
    add('--program', metavar='PATH',
        help='fretime, else that of this repository, else that of PATH')
    return parser.parse_args()

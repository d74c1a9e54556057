"""What a run leaves: latches and levels of the file that it wrote, by the tests' own code, and what ABC's `dsec` says of it."""
import os
import sys

import measure

sys.path.append(os.path.join(measure.TOP, 'tests'))
import checker  # noqa: E402


def counted(path):
    """The latches of a file, how many of them are free, and the levels."""
    circuit = checker.read_circuit(measure.content(path))[0]
    return {'latches': len(circuit.latches), 'free': len(circuit.latches) - len(circuit.known()), 'levels': circuit.levels()}


def compared(read, written, seconds):
    """A run of ABC's `dsec` over the circuit that was read and the one that was written, and what it says."""
    run = measure.Run([measure.ABC, '-c', f'read_aiger {read}; dsec -n -T {seconds} {written}'], 2 * seconds)
    if 'NOT EQUIVALENT' in run.printed:
        return run, 'no'
    return run, 'yes' if 'Networks are equivalent' in run.printed else 'undecided'


def verdict(read, written, seconds):
    """What ABC says of the circuit that was read and the one that was written."""
    return compared(read, written, seconds)[1]


def failed(done, seconds):
    """Why a run failed, if it did."""
    if done.stopped or done.status != 0:
        return {'failed': f'over {seconds} s' if done.stopped else measure.ending(done.status)}
    return None


def left_alone(runs, seconds, written):
    """What runs leave, one after the other, or that one failed."""
    for words in runs:
        why = failed(measure.Run(words, seconds), seconds)
        if why:
            return why
    return counted(written)


def left(runs, seconds, read, written):
    """What runs leave, and what ABC says of it."""
    found = left_alone(runs, seconds, written)
    return found if 'failed' in found else found | {'equal': verdict(read, written, seconds)}

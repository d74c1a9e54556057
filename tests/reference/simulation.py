"""Simulation, one step of one sequence at a time: stimuli, traces, and the first difference of two circuits."""
import re

from reference.circuit import FREE
from reference.reading import Fault

MOST_SEQUENCES = 2**20


def read_stimulus(data, inputs, free):
    """Sequences: the digits of the uninitialised latches, and those of the inputs at each step."""
    sequences, offset = [], 0
    lines = data.split(b'\n')
    if lines[-1] == b'':
        lines.pop()
    for line in lines:
        if not re.fullmatch(rb'[=:][01]*', line) or (line[:1] == b':' and not sequences):
            raise Fault('BadLine', offset)
        digits = [byte == 49 for byte in line[1:]]
        if len(digits) != (free if line[:1] == b'=' else inputs):
            raise Fault('Width', offset)
        if line[:1] == b'=':
            if len(sequences) == MOST_SEQUENCES:
                raise Fault('TooMany', offset)
            sequences.append((digits, []))
        else:
            sequences[-1][1].append(digits)
        offset += len(line) + 1
    return sequences


def read_kept(data, free, count):
    """Places among so many free latches, a line each."""
    kept, offset = [], 0
    lines = data.split(b'\n')
    if lines[-1] == b'':
        lines.pop()
    for line in lines:
        if not re.fullmatch(rb'[0-9]+', line) or int(line) not in range(kept[-1] + 1 if kept else 0, free):
            raise Fault('BadLine', offset)
        kept.append(int(line))
        offset += len(line) + 1
    if len(kept) != count:
        raise Fault('Width', len(data))
    return kept


def words_of(seed):
    """The words of SplitMix64 from a seed."""
    while True:
        seed = (seed + 0x9e3779b97f4a7c15) % 2**64
        word = (seed ^ seed >> 30) * 0xbf58476d1ce4e5b9 % 2**64
        word = (word ^ word >> 27) * 0x94d049bb133111eb % 2**64
        yield word ^ word >> 31


def digits_of(seed, count):
    """So many bits of the words from a seed, the lowest of each first."""
    words = zip(range(0, count, 64), words_of(seed))
    return [bool(word >> place & 1) for first, word in words for place in range(min(64, count - first))]


def random_stimulus(inputs, free, sequences, steps, seed):
    """Sequences as `read_stimulus` has them: a word is the seed of a sequence, whose words are the seeds of the choice and of each
    step."""
    found, seeds = [], words_of(seed)
    for _ in range(sequences):
        words = words_of(next(seeds))
        choice = digits_of(next(words), free)
        found.append((choice, [digits_of(next(words), inputs) for _ in range(steps)]))
    return found


def is_too_long(c, sequences, steps, waves=False):
    """Whether so many sequences of so many steps, or a trace under them, of all inputs and latches too where waves are wanted, take
    too much memory."""
    width = len(c.properties()) + waves * (c.inputs + len(c.latches))
    return (sequences * steps * (c.inputs + 64) > 2**28 or sequences * c.free_latches() > 2**28
            or max(sequences, 256) * steps * width > 2**31)


def value_of(lit, values):
    """The value of a literal, where each variable has its value."""
    return values[lit // 2] != bool(lit & 1)


def values_of(c, choice, rows):
    """The values of all variables at each step of one sequence: `choice` has the values of the uninitialised latches at the start,
    `rows` those of the inputs, step by step."""
    choice = iter(choice)
    state = [bool(next(choice)) if reset is FREE else bool(reset) for _, reset in c.latches]
    for row in rows:
        values = [False, *row, *state]
        for a, b in c.gates:
            # (as `value_of`, which would be called twice a gate)
            values.append(values[a // 2] != a % 2 and values[b // 2] != b % 2)
        yield values
        state = [value_of(next_lit, values) for next_lit, _ in c.latches]


def steps(c, choice, rows):
    """The values of the properties at each step of one sequence."""
    for values in values_of(c, choice, rows):
        yield [value_of(lit, values) for lit in c.properties()]


def trace(c, sequences):
    return [list(steps(c, choice, rows)) for choice, rows in sequences]


def trace_text(rows_of_sequences):
    lines = []
    for rows in rows_of_sequences:
        lines.append('=\n')
        lines += [':' + ''.join('01'[bit] for bit in row) + '\n' for row in rows]
    return ''.join(lines)


def difference_text(c, d, sequences, kept=None):
    """Where two circuits differ first; the second has the free latches of the first at these places, else all."""
    if c.shape(kept) != d.shape():
        return 'shapes differ\n'
    others = sequences if kept is None else [([choice[place] for place in kept], rows) for choice, rows in sequences]
    for s, (one, other) in enumerate(zip(trace(c, sequences), trace(d, others))):
        for t, (row, another) in enumerate(zip(one, other)):
            for p, bits in enumerate(zip(row, another)):
                if bits[0] != bits[1]:
                    return f'differ at sequence {s}, step {t}, place {p}\n'
    return 'same\n'

"""Merging latches: those that always agree, always say the opposite, or never change, by the coarsest inductive partition, or by lines that are
given. What latches are told is compared in all cases of inputs and latches, if these are few, else by literals. `held` has the positions of
the latches that are held, which take no part. `merge` is False, True, or a list of lines: a latch's variable, and the literal that it reads as."""
import random

from reference.circuit import FREE, ordered
from reference.cleaning import cleaned, replaced, with_gates
from reference.side_by_side import all_rows

CONSTANT = 0
# of how many inputs and latches all cases are made
MOST_LEAVES = 14
# how many random cases show that lines don't hold, if there are more
SAMPLES = 1 << 14


def readings(c, classes):
    """For each latch in a class the literal that it reads as: the constant of its reset in the constant's class, else the first latch
    of its class, negated where their resets differ."""
    replacements, firsts = {}, {}
    for k, number in classes.items():
        first, reset = firsts.setdefault(number, k), c.latches[k][1]
        of_first = 2 * (c.first_latch() + first) + (c.latches[first][1] ^ reset)
        replacements[c.first_latch() + k] = reset if number == CONSTANT else of_first
    return replacements


def told(c, reads, most_leaves=MOST_LEAVES, samples=0):
    """By latch what it is told where latches read so, its next literal negated where its reset is 1: the values in all cases. If inputs and
    latches are too many for these, its values in so many random cases, or without samples the literal."""
    replacements, kept = with_gates(c, dict(reads))
    leaves = [v for v in range(1, c.first_gate()) if replacements.get(v, 2 * v) == 2 * v]
    lits = [replaced(next_lit, replacements) ^ (reset or 0) for next_lit, reset in c.latches]
    if len(leaves) <= most_leaves:
        table = all_rows(len(leaves))
        of_leaves, ones = table.columns, table.ones
    elif samples:
        chance = random.Random(len(leaves))
        of_leaves, ones = [chance.getrandbits(samples) for _ in leaves], (1 << samples) - 1
    else:
        return lits
    columns = {0: 0, **dict(zip(leaves, of_leaves))}

    def value(lit):
        return columns[lit // 2] ^ ones * (lit & 1)

    for v, (a, b) in kept.items():
        columns[v] = value(a) & value(b)
    return list(map(value, lits))


def parted(c, classes, most_leaves=MOST_LEAVES):
    """The classes, each parted by what its latches are told."""
    of_latch, numbers, found = told(c, readings(c, classes), most_leaves), {(CONSTANT, 0): CONSTANT}, {}
    for k, number in classes.items():
        found[k] = numbers.setdefault((number, of_latch[k]), len(numbers))
    return found


def coarsest(c, held=frozenset(), most_leaves=MOST_LEAVES):
    """The classes of the coarsest inductive partition: each latch that may be merged has the number of its class."""
    classes = {k: CONSTANT for k, (_, reset) in enumerate(c.latches) if reset is not FREE and k not in held}
    while True:
        next_classes = parted(c, classes, most_leaves)
        if len({CONSTANT, *next_classes.values()}) == len({CONSTANT, *classes.values()}):
            return classes
        classes = next_classes


def merged_lines(c, held, merge):
    """The latches that read as another literal, each with that; the circuit is cleaned."""
    reads = readings(c, coarsest(c, held)) if merge is True else dict(merge)
    return [(v, lit) for v, lit in sorted(reads.items()) if lit != 2 * v]


def loses(c, held, lines):
    """Whether latches that agree by literals alone don't by the lines."""
    reads, together = dict(lines), {}
    for k, number in coarsest(c, held, most_leaves=0).items():
        v = c.first_latch() + k
        together.setdefault(number, set()).add(reads.get(v, 2 * v) // 2)
    return any(len(firsts) > 1 or number == CONSTANT and firsts != {0} for number, firsts in together.items())


def misread(c, held, lines):
    """The latch at which lines aren't a reading, or None: first by their order, then by what each reads as."""
    last, reads = c.inputs, dict(lines)
    for v, lit in lines:
        if not c.latch(v) or v <= last or lit == 2 * v:
            return v
        last = v
    may_merge = {v for v in range(c.first_latch(), c.first_gate()) if c.is_known(v) and v - c.first_latch() not in held}
    for v, lit in lines:
        firsts = {first for first in may_merge - reads.keys() if first < v}
        fits = {c.latch(v)[1], *(2 * first + (c.latch(first)[1] ^ c.latch(v)[1]) for first in firsts)} if v in may_merge else ()
        if lit not in fits:
            return v
    return None


def not_shown(c, lines):
    """The first latch that isn't told what that is told which it reads as, where latches read so; None where all are."""
    of_latch, first = told(c, dict(lines), samples=SAMPLES), c.first_latch()
    return next((v for v, lit in lines if of_latch[v - first] != (of_latch[lit // 2 - first] if lit > 1 else 0)), None)


def merged(c, held=frozenset(), merge=True):
    """The circuit, each literal of it reading what stands for what it read."""
    replacements, _ = with_gates(c, dict(merged_lines(c, held, merge)))

    def now(lit):
        return replaced(lit, replacements)

    latches = [(now(next_lit), reset) for next_lit, reset in c.latches]
    return c.with_parts(latches, [ordered(*map(now, fan_ins)) for fan_ins in c.gates], now, c.symbols['l'])


def start_of(c, held=frozenset(), merge=False):
    """The circuit that frames begin with, and the positions of its held latches."""
    c, held = cleaned(c, held)
    return (c, held) if merge is False else cleaned(merged(c, held, merge), held)


def merge_counts(c, merge):
    """How many latches of the cleaned circuit read as another or as a constant, and how many as a constant."""
    lines = merged_lines(*cleaned(c, frozenset()), merge)
    return len(lines), sum(lit < 2 for _, lit in lines)

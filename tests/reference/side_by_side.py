"""Which circuits have equal properties by classes of latches alone, without a map. Both circuits stand side by side over the same
inputs. Latches of one class agree, but for a sign, at the start, and a step later wherever all classes agreed before. The coarsest such
classes are found from the definition: by all values of the inputs and of one latch of each class, since these give all others.

A free latch of the second circuit begins in the class of the free latch of the first that it stands for."""
import dataclasses

from reference.circuit import FREE

# the class of the latches that never change; its column is 0
CONSTANT = ('constant',)


@dataclasses.dataclass
class Table:
    """Columns over all rows of a table, as words with a bit for each row, and the word of ones."""
    columns: list
    ones: int


def all_rows(count):
    """A table of so many columns that has each row once."""
    columns, rows = [], 1
    for _ in range(count):
        columns = [column << rows | column for column in columns] + [(1 << rows) - 1 << rows]
        rows *= 2
    return Table(columns, (1 << rows) - 1)


def signed(word, sign, table):
    return word ^ table.ones if sign else word


def values(c, leaves, table):
    """The word of each literal, by those of the inputs and latches."""
    words = [0, *leaves]

    def at(lit):
        return signed(words[lit // 2], lit & 1, table)

    for a, b in c.gates:
        words.append(at(a) & at(b))
    return at


def start(c, d, kept):
    """The class of each latch at the start, by circuit and place: all known ones are the constant, as their resets say."""
    free = [k for k, (_, reset) in enumerate(c.latches) if reset is FREE]
    own = iter(free if kept is None else [free[place] for place in kept])
    of_c = {(0, k): CONSTANT if reset is not FREE else ('free', k) for k, (_, reset) in enumerate(c.latches)}
    return of_c | {(1, k): CONSTANT if reset is not FREE else ('free', next(own)) for k, (_, reset) in enumerate(d.latches)}


def is_one(reset):
    return reset is not FREE and reset == 1


def states(circuits, classes):
    """All states in which the classes agree, with all inputs: a table, and what the literals of each circuit are there."""
    names = sorted({*classes.values()} - {CONSTANT}, key=repr)
    inputs = circuits[0].inputs
    table = all_rows(inputs + len(names))
    columns = {CONSTANT: 0, **dict(zip(names, table.columns[inputs:]))}
    digits = table.columns[:inputs]
    leaves = [digits + [signed(columns[classes[which, k]], is_one(reset), table) for k, (_, reset) in enumerate(circuit.latches)]
              for which, circuit in enumerate(circuits)]
    return table, [values(circuit, row, table) for circuit, row in zip(circuits, leaves)]


def told(circuits, classes):
    """What each latch is told in all these states, negated if it begins with 1."""
    table, at = states(circuits, classes)
    return {(which, k): signed(at[which](next_lit), is_one(reset), table)
            for which, circuit in enumerate(circuits) for k, (next_lit, reset) in enumerate(circuit.latches)}


def parted(circuits, classes):
    """The classes, each parted by what its latches are told."""
    words, names = told(circuits, classes), {(CONSTANT, 0): CONSTANT}
    return {latch: names.setdefault((before, words[latch]), len(names)) for latch, before in classes.items()}


def coarsest(c, d, kept):
    """The coarsest classes that a step keeps."""
    classes = start(c, d, kept)
    while True:
        finer = parted((c, d), classes)
        if len({CONSTANT, *finer.values()}) == len({CONSTANT, *classes.values()}):
            return classes
        classes = finer


def named_properties(c):
    """The literals of all properties, each with its name."""
    kinds = [('output', c.outputs), ('bad', c.bad), ('constraint', c.constraints)]
    named = [(f'{kind} {k}', lit) for kind, lits in kinds for k, lit in enumerate(lits)]
    named += [(f'justice {k}', lit) for k, lits in enumerate(c.justice) for lit in lits]
    return named + [(f'fairness {k}', lit) for k, lit in enumerate(c.fairness)]


def open_parts(c, d, kept=None):
    """The properties that the coarsest classes don't show to be equal, in order."""
    _, at = states((c, d), coarsest(c, d, kept))
    for (name, one), (_, other) in zip(named_properties(c), named_properties(d)):
        if at[0](one) != at[1](other):
            yield f'read {name}'


def compared(c, d, kept=None):
    """What is printed, and the status."""
    if c.shape(kept) != d.shape():
        return 'shapes differ\n', 1
    part = next(open_parts(c, d, kept), None)
    return (f'not shown: {part}\n', 5) if part else ('equal\n', 0)

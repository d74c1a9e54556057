"""Circuits of ASCII AIGER as the script needs them: read, and written with other inputs in binary. They have inputs, latches,
outputs, gates, and for assertions bad states and constraints: Yosys writes no other properties of the netlists that are accepted."""
import dataclasses


@dataclasses.dataclass
class Latch:
    """A latch: its variable, the literal of its next value, and its reset: 0, 1, or None where it has none."""
    variable: int
    following: int
    reset: int | None


@dataclasses.dataclass
class Circuit:
    """A circuit: variables of inputs, latches, literals of outputs, of bad states and of constraints, gates (variable and two
    literals), symbols of latches and of outputs by their positions."""
    inputs: list
    latches: list
    outputs: list
    bad: list
    constraints: list
    gates: list
    symbols: dict
    output_symbols: dict

    def levels(self):
        """How many gates are on the longest path to a latch or a property. A gate stands after those that it reads, as Yosys and
        fretime write it."""
        found = {}
        for variable, *fanins in self.gates:
            found[variable] = 1 + max(found.get(literal >> 1, 0) for literal in fanins)
        read = [latch.following for latch in self.latches] + self.outputs + self.bad + self.constraints
        return max((found.get(literal >> 1, 0) for literal in read), default=0)


def read(path):
    """The circuit of an ASCII file."""
    lines = path.read_text().splitlines()
    _, inputs, latches, outputs, gates, bad, constraints = counts_of(lines)
    rows = iter(lines[1:])
    take = lambda count: [list(map(int, next(rows).split())) for _ in range(count)]
    circuit = Circuit([row[0] >> 1 for row in take(inputs)], [latch_of(*row) for row in take(latches)],
                      *([row[0] for row in take(count)] for count in (outputs, bad, constraints)),
                      [(row[0] >> 1, *row[1:]) for row in take(gates)], {}, {})
    for row in rows:
        if row == 'c':
            break
        place, name = row[1:].split(' ', 1)
        if row[0] in 'lo':
            (circuit.symbols if row[0] == 'l' else circuit.output_symbols)[int(place)] = name
    return circuit


def counts_of(lines):
    """The numbers of the header: the greatest variable, inputs, latches, outputs, gates, bad states and constraints."""
    numbers = list(map(int, lines[0].split()[1:8]))
    return numbers + [0] * (7 - len(numbers))


def latch_of(literal, following, reset=0):
    return Latch(literal >> 1, following, None if reset == literal else reset)


def with_symbols(path, symbols):
    """The text of an ASCII file, with these symbols of latches alone."""
    lines = path.read_text().splitlines()
    body = lines[:1 + sum(counts_of(lines)[1:])]
    return '\n'.join(body + [f'l{place} {name}' for place, name in enumerate(symbols)]) + '\n'


def renumbered(circuit, order):
    """The circuit's literals in binary form: inputs in this order (None is one that nothing reads), then latches, then gates."""
    news = {0: 0}
    variables = [*order, *(latch.variable for latch in circuit.latches), *(gate[0] for gate in circuit.gates)]
    for new, old in enumerate(variables, 1):
        if old is not None:
            news[old] = new
    return lambda literal: news[literal >> 1] * 2 + (literal & 1)


def delta(number):
    """A number in groups of seven bits, the lowest first."""
    groups = bytearray()
    while number > 127:
        groups.append(number & 127 | 128)
        number >>= 7
    return bytes(groups + bytes([number]))


def binary(circuit, order, outputs, sequential):
    """The bytes of a binary file of the circuit, with its inputs in this order, and these literals as outputs. Every latch has a
    reset. ABC compares with `dsec` only circuits that both have latches: where a sequential one is asked for, a circuit without
    a latch gets one that nothing reads."""
    literal = renumbered(circuit, order)
    spare = int(sequential and not circuit.latches)
    shift = lambda old: (literal(old) + 2 * spare if literal(old) >> 1 > len(order) else literal(old))
    counts = len(order), len(circuit.latches) + spare, len(outputs), len(circuit.gates)
    lines = [f'aig {counts[0] + counts[1] + counts[3]} {" ".join(map(str, counts))}']
    lines += ['0'] * spare + [f'{shift(latch.following)}{" 1" * (latch.reset == 1)}' for latch in circuit.latches]
    lines += [str(shift(output)) for output in outputs]
    written = bytearray(('\n'.join(lines) + '\n').encode())
    for variable, *fanins in circuit.gates:
        larger, smaller = sorted(map(shift, fanins), reverse=True)
        written += delta(shift(variable * 2) - larger) + delta(larger - smaller)
    return bytes(written)

"""Circuits of AIGER files, read in either spelling, built upon, simulated and written. Variables
are those of a binary file: 0 is the constant, then come inputs, latches and gates, and each gate
comes after its fan-ins. A literal is twice its variable, one more where it is negated."""
import dataclasses
import pathlib


@dataclasses.dataclass
class Circuit:
    """A circuit: how many inputs it has, the next literal and the reset (None where it is free)
    of each latch, the fan-ins of each gate, the literals of properties, and names by kind and
    place, as in ('l', 0)."""
    inputs: int
    latches: list
    gates: list
    outputs: list
    bad: list
    constraints: list
    names: dict = dataclasses.field(default_factory=dict)

    def input(self, place):
        return 2 + 2 * place

    def latch(self, place):
        return 2 + 2 * (self.inputs + place)

    def properties(self):
        """The bad states: the outputs, where there are none."""
        return self.bad or self.outputs

    def free(self):
        """How many latches have no reset."""
        return sum(reset is None for _, reset in self.latches)

    def gate(self, a, b):
        """The conjunction of two literals: a gate more, where they don't settle it."""
        if a == 0 or b == 0 or a == b ^ 1:
            return 0
        if a == 1 or a == b:
            return b
        if b == 1:
            return a
        self.gates.append((a, b))
        return 2 * (self.inputs + len(self.latches) + len(self.gates))

    def all(self, literals):
        found = 1
        for literal in literals:
            found = self.gate(found, literal)
        return found

    def choice(self, test, a, b):
        """The literal a where the test is 1, else b."""
        return self.gate(self.gate(test, a) ^ 1, self.gate(test ^ 1, b) ^ 1) ^ 1

    def agree(self, a, b):
        return self.gate(self.gate(a, b ^ 1) ^ 1, self.gate(a ^ 1, b) ^ 1)

    def copy(self, **changed):
        """The circuit with other parts, and with lists of its own."""
        return dataclasses.replace(self, **{'latches': [*self.latches], 'gates': [*self.gates],
                                            'names': {}, **changed})

    def text(self):
        """The circuit as an ASCII file."""
        first = 1 + self.inputs + len(self.latches)
        counts = [self.inputs, len(self.latches), len(self.outputs), len(self.gates)]
        last = first - 1 + len(self.gates)
        rows = [['aag', last, *counts, len(self.bad), len(self.constraints)]]
        rows += [[self.input(place)] for place in range(self.inputs)]
        for place, (following, reset) in enumerate(self.latches):
            own = self.latch(place)
            rows.append([own, following, *([own] if reset is None else [1] if reset else [])])
        rows += [[literal] for literal in self.outputs + self.bad + self.constraints]
        rows += [[2 * (first + place), a, b] for place, (a, b) in enumerate(self.gates)]
        rows += [[f'{kind}{place}', name] for (kind, place), name in self.names.items()]
        return ''.join(' '.join(map(str, row)) + '\n' for row in rows)


class Rows:
    """The bytes of a file, taken line by line, or number by number of a binary one."""

    def __init__(self, data):
        self.data, self.at = data, 0

    def words(self):
        end = self.data.index(b'\n', self.at)
        line, self.at = self.data[self.at:end], end + 1
        return line.split()

    def numbers(self):
        return list(map(int, self.words()))

    def several(self, count):
        return [self.numbers() for _ in range(count)]

    def literals(self, count):
        return [literal for literal, in self.several(count)]

    def delta(self):
        found = shift = 0
        while True:
            byte = self.data[self.at]
            self.at += 1
            found |= (byte & 127) << shift
            shift += 7
            if byte < 128:
                return found


def in_order(gates, known):
    """The rows of gates, in an order in which each comes after those that it reads."""
    waiting = {lhs >> 1: (lhs, a, b) for lhs, a, b in gates}
    known, found = set(known), []
    for variable in list(waiting):
        path = [variable]
        while path:
            row = waiting.get(path[-1])
            open_ones = [] if path[-1] in known else [lit >> 1 for lit in row[1:]
                                                      if lit >> 1 not in known]
            if open_ones:
                path += open_ones
            elif path[-1] in known:
                path.pop()
            else:
                known.add(path.pop())
                found.append(row)
    return found


def gates_of(rows, count, first):
    """The rows of a binary file's gates."""
    for lhs in range(first, first + 2 * count, 2):
        large = lhs - rows.delta()
        yield lhs, large, large - rows.delta()


def names_of(rows):
    found = {}
    for line in rows.data[rows.at:].split(b'\n'):
        if line == b'c':
            break
        kind, _, name = line.decode('latin-1').partition(' ')
        if kind[:1] in ('i', 'l') and kind[1:].isdigit():
            found[kind[0], int(kind[1:])] = name
    return found


def read(path):
    """The circuit of a file that is known to be one."""
    rows = Rows(pathlib.Path(path).read_bytes())
    spelling, *counts = rows.words()
    is_ascii = spelling == b'aag'
    counts = list(map(int, counts)) + [0] * 4
    inputs, latches, outputs, gates, bad, constraints, justice, fairness = counts[1:9]
    own = rows.literals(inputs) if is_ascii else range(2, 2 + 2 * inputs, 2)
    begin = 2 + 2 * inputs
    listed = rows.several(latches)
    if not is_ascii:
        listed = [[begin + 2 * place, *row] for place, row in enumerate(listed)]
    lists = [rows.literals(count) for count in (outputs, bad, constraints)]
    rows.literals(sum(rows.literals(justice)) + fairness)
    first = begin + 2 * latches
    defined = [0, *(lit >> 1 for lit in own), *(row[0] >> 1 for row in listed)]
    listed_gates = rows.several(gates) if is_ascii else list(gates_of(rows, gates, first))
    triples = in_order(listed_gates, defined) if is_ascii else listed_gates
    place = {old: new for new, old in enumerate([*defined, *(row[0] >> 1 for row in triples)])}

    def moved(lit):
        return 2 * place[lit >> 1] | lit & 1

    pairs = [(moved(row[1]), None if row[2:] == row[:1] else sum(row[2:])) for row in listed]
    fan_ins = [(moved(a), moved(b)) for _, a, b in triples]
    properties = ([moved(lit) for lit in row] for row in lists)
    return Circuit(inputs, pairs, fan_ins, *properties, names_of(rows))


def simulated(circuit, inputs, state, ones):
    """The word of each literal, in which each bit is a run of its own, and `ones` has all bits."""
    words = [0, ones]
    for word in inputs:
        words += word, word ^ ones
    for word in state:
        words += word, word ^ ones
    put = words.append
    for a, b in circuit.gates:
        word = words[a] & words[b]
        put(word)
        put(word ^ ones)
    return words


def reached(circuit, state, steps):
    """The first step at which a bad state is reached while all constraints hold, and which ones
    are; None where none is. Latches with a reset begin with it, others with what `state` says."""
    state = [bit if reset is None else reset for bit, (_, reset) in zip(state, circuit.latches)]
    for number, inputs in enumerate(steps):
        words = simulated(circuit, inputs, state, 1)
        if not all(words[literal] for literal in circuit.constraints):
            return None
        found = [place for place, literal in enumerate(circuit.properties()) if words[literal]]
        if found:
            return number, found
        state = [words[following] for following, _ in circuit.latches]
    return None


@dataclasses.dataclass
class Counterexample:
    """The value of each latch at the first step, and of each input at each step."""
    state: list
    steps: list

    def text(self, property):
        """The lines of AIGER for a bad state that is reached."""
        rows = [self.state, *self.steps]
        return '\n'.join(['1', f'b{property}', *(''.join(map(str, row)) for row in rows), '.', ''])


def read_counterexample(text, circuit):
    """The counterexample that AIGER's lines say, with 0 for each x; what comes before them is left
    out. None where they say none for this circuit."""
    lines = [line.rstrip() for line in text.split('\n') if line[:1] not in ('c', 'u')]
    begins = [at for at, line in enumerate(lines) if line == '1' and lines[at + 1:at + 2]
              and lines[at + 1].startswith('b')]
    if not begins or '.' not in lines[begins[0]:]:
        return None
    state, *steps = lines[begins[0] + 2:lines.index('.', begins[0])] or ['-']
    widths = [(state, len(circuit.latches)), *((step, circuit.inputs) for step in steps)]
    if any(len(row) != width or set(row) - set('01x') for row, width in widths):
        return None
    bits = [[int(sign == '1') for sign in row] for row in (state, *steps)]
    return Counterexample(bits[0], bits[1:])

"""Gates over unknowns, of which circuits at several steps are put together, and the formulas that
are asked of a SAT solver about them. Gates with the same fan-ins are one."""
import copy


class Graph:
    """AND gates over unknowns, with literals as in AIGER. Where two literals are given as equal,
    gates that come later have the second one in place of the first."""

    def __init__(self):
        self.fan_ins, self.gate_of, self.stands = [None], {}, {}

    def unknown(self):
        self.fan_ins.append(None)
        return 2 * len(self.fan_ins) - 2

    def unknowns(self, count):
        return [self.unknown() for _ in range(count)]

    def gate(self, a, b):
        if a < b:
            a, b = b, a
        if b == 0 or a == b ^ 1:
            return 0
        if b == 1 or a == b:
            return a
        found = self.gate_of.get((a, b))
        if found is None:
            self.fan_ins.append((a, b))
            found = self.gate_of[a, b] = 2 * len(self.fan_ins) - 2
        return self.stands.get(found, found)

    def assume(self, pairs):
        """Has the second literal of each pair stand for the first one. The pairs are to be given in
        each question about gates that come later."""
        for own, stands in pairs:
            self.stands.setdefault(own & ~1, stands ^ own & 1)
        return pairs

    def cone(self, literals):
        """The variables on which these literals rest, each with a number of its own from 1 on."""
        numbers, waiting = {0: 1}, [literal >> 1 for literal in literals]
        while waiting:
            variable = waiting.pop()
            if variable not in numbers:
                numbers[variable] = len(numbers) + 1
                if self.fan_ins[variable]:
                    waiting += [literal >> 1 for literal in self.fan_ins[variable]]
        return numbers


class Question:
    """Whether some pair of `differing` can differ while all pairs of `equal` are equal. The text
    is the formula in DIMACS; it has a solution if so."""

    def __init__(self, graph, equal, differing):
        self.numbers = graph.cone([lit for pair in [*equal, *differing] for lit in pair])
        numbers, lines = self.numbers, ['-1 0']

        def signed(literal):
            return -numbers[literal >> 1] if literal & 1 else numbers[literal >> 1]

        for variable, gate in numbers.items():
            if graph.fan_ins[variable]:
                a, b = map(signed, graph.fan_ins[variable])
                lines.append(f'{-gate} {a} 0\n{-gate} {b} 0\n{gate} {-a} {-b} 0')
        for a, b in equal:
            a, b = signed(a), signed(b)
            lines.append(f'{-a} {b} 0\n{a} {-b} 0')
        last = len(numbers)
        for a, b in differing:
            last, a, b = last + 1, signed(a), signed(b)
            lines.append(f'{-last} {a} {b} 0\n{-last} {-a} {-b} 0')
        clauses = sum(line.count('\n') + 1 for line in lines) + 1
        self.rules = f'p cnf {last} {clauses}\n' + '\n'.join(lines)
        self.differing = range(len(numbers) + 1, last + 1)

    @property
    def text(self):
        return f'{self.rules}\n{" ".join(map(str, [*self.differing, 0]))}\n'

    def parts(self, count):
        """Questions that ask each for some of the pairs, and together for all."""
        size = max(1, -(-len(self.differing) // count))
        for begin in range(0, len(self.differing), size):
            part = copy.copy(self)
            part.differing = self.differing[begin:begin + size]
            yield part

    def bits(self, literals, model):
        """The value of each of these literals in a solution; 0 where it says nothing of one."""
        return [int((self.numbers.get(lit >> 1, 0) in model) != bool(lit & 1)) for lit in literals]


class Frame:
    """A circuit at one step: what stands for each of its literals. A variable that `reads` names
    reads as the literal of another, which `order` has before it; what it is by its own fan-ins is
    in `pairs` with what it reads as, and the variable in `told`, unless both are one literal here.
    Without an order variables come as they are numbered."""

    def __init__(self, graph, circuit, inputs, state, reads=(), order=None):
        self.circuit, self.pairs, self.told = circuit, [], []
        self.here = here = [0, *inputs, *state, *circuit.gates]
        first = 1 + len(inputs) + len(state)
        for variable in order or range(len(here)):
            if variable >= first:
                a, b = circuit.gates[variable - first]
                here[variable] = graph.gate(here[a >> 1] ^ a & 1, here[b >> 1] ^ b & 1)
            if variable in reads:
                self.read(variable, self.at(reads[variable]))

    def read(self, variable, stands):
        if self.here[variable] != stands:
            self.pairs.append((self.here[variable], stands))
            self.told.append(variable)
            self.here[variable] = stands

    def at(self, literal):
        return self.here[literal >> 1] ^ literal & 1

    def all(self, literals):
        return [self.at(literal) for literal in literals]

    def following(self):
        return [self.at(following) for following, _ in self.circuit.latches]

    def latch(self, place):
        return self.here[1 + self.circuit.inputs + place]

    def held(self):
        """Pairs that are equal where all constraints hold."""
        return [(literal, 1) for literal in self.all(self.circuit.constraints)]

    def good(self):
        """Pairs that are equal where there is no bad state."""
        return [(literal, 0) for literal in self.all(self.circuit.properties())]


def begun(graph, circuit):
    """The literals of latches at the first step: an unknown for each that is free."""
    return [graph.unknown() if reset is None else reset for _, reset in circuit.latches]


def hashed(circuit):
    """The circuit with one gate in place of those with the same fan-ins."""
    graph = Graph()
    inputs, state = graph.unknowns(circuit.inputs), graph.unknowns(len(circuit.latches))
    frame = Frame(graph, circuit, inputs, state)
    resets = [reset for _, reset in circuit.latches]
    lists = map(frame.all, (circuit.outputs, circuit.bad, circuit.constraints))
    return type(circuit)(circuit.inputs, [*zip(frame.following(), resets)],
                         graph.fan_ins[1 + len(inputs + state):], *lists, circuit.names)

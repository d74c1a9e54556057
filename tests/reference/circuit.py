"""A circuit and its text in both spellings of AIGER. A literal is the number that AIGER gives it: twice its variable, one more
where it is negated."""
import dataclasses

FREE = None
KINDS = 'ilobcjf'


def no_symbols():
    return {kind: {} for kind in KINDS}


@dataclasses.dataclass
class Circuit:
    """The variables are 1 to `inputs`, then those of the latches (next literal, reset), then those of the gates (two fan-ins, the
    larger literal first). `symbols` has, for each kind of symbol, names by position."""
    inputs: int
    latches: list
    gates: list
    outputs: list
    bad: list = dataclasses.field(default_factory=list)
    constraints: list = dataclasses.field(default_factory=list)
    justice: list = dataclasses.field(default_factory=list)
    fairness: list = dataclasses.field(default_factory=list)
    symbols: dict = dataclasses.field(default_factory=no_symbols)

    def first_latch(self):
        return 1 + self.inputs

    def first_gate(self):
        return self.first_latch() + len(self.latches)

    def end(self):
        return self.first_gate() + len(self.gates)

    def latch(self, var):
        k = var - self.first_latch()
        return self.latches[k] if 0 <= k < len(self.latches) else None

    def gate(self, var):
        k = var - self.first_gate()
        return self.gates[k] if 0 <= k < len(self.gates) else None

    def is_known(self, var):
        return self.latch(var) is not None and self.latch(var)[1] is not FREE

    def known_latches(self):
        return sum(reset is not FREE for _, reset in self.latches)

    def free_latches(self):
        return len(self.latches) - self.known_latches()

    def properties(self):
        """The literals of all properties, in the order of a trace."""
        justice = [lit for lits in self.justice for lit in lits]
        return self.outputs + self.bad + self.constraints + justice + self.fairness

    def levels_over(self, levels):
        """The level of each variable, where those of inputs, latches and the constant are given: a gate is one above its fan-ins."""
        levels = list(levels)
        for a, b in self.gates:
            levels.append(1 + max(levels[a // 2], levels[b // 2]))
        return levels

    def variable_levels(self):
        return self.levels_over([0] * self.first_gate())

    def levels(self):
        """How many gates are on the longest path to a latch or a property."""
        levels = self.variable_levels()
        return max((levels[lit // 2] for lit in [next_lit for next_lit, _ in self.latches] + self.properties()), default=0)

    def arrivals(self):
        """The level of what a latch behind each variable would be fed by, if latches moved over it and all gates below it."""
        levels = self.variable_levels()
        nexts = [levels[next_lit // 2] for next_lit, _ in self.latches]
        return self.levels_over([0] * self.first_latch() + nexts)

    def shape(self, kept=None):
        """What circuits that are compared have in common; of free latches those at these places alone, where there is a list."""
        sizes = [len(lits) for lits in self.justice]
        lists = (self.outputs, self.bad, self.constraints, self.fairness)
        return self.inputs, self.free_latches() if kept is None else len(kept), sizes, [len(lits) for lits in lists]

    def with_parts(self, latches, gates, mapped, latch_names):
        """The same inputs, properties and names over other latches and gates."""
        outputs, bad, constraints, fairness, *justice = [
            list(map(mapped, lits)) for lits in (self.outputs, self.bad, self.constraints, self.fairness, *self.justice)]
        symbols = {**self.symbols, 'l': latch_names}
        return Circuit(self.inputs, latches, gates, outputs, bad, constraints, justice, fairness, symbols)


def ordered(a, b):
    return (a, b) if a >= b else (b, a)


def header(c, letters):
    numbers = [c.end() - 1, c.inputs, len(c.latches), len(c.outputs), len(c.gates)]
    more = [len(c.bad), len(c.constraints), len(c.justice), len(c.fairness)]
    while more and more[-1] == 0:
        more.pop()
    return ' '.join([letters, *map(str, numbers + more)])


def symbol_lines(c):
    named = [(kind, position) for kind in KINDS for position in sorted(c.symbols[kind])]
    return [b'%s%d %s' % (kind.encode(), position, c.symbols[kind][position]) for kind, position in named]


def reset_of(lit, reset):
    return {0: '', 1: ' 1', FREE: f' {lit}'}[reset]


def property_lines(c):
    numbers = [*c.outputs, *c.bad, *c.constraints, *map(len, c.justice)]
    return [str(number) for number in numbers + [lit for lits in c.justice for lit in lits] + c.fairness]


def joined(lines):
    return b''.join((line if isinstance(line, bytes) else line.encode()) + b'\n' for line in lines)


def ascii_text(c):
    lines = [header(c, 'aag'), *(str(2 * v) for v in range(1, 1 + c.inputs))]
    for k, (next_lit, reset) in enumerate(c.latches):
        lit = 2 * (c.first_latch() + k)
        lines.append(f'{lit} {next_lit}{reset_of(lit, reset)}')
    lines += property_lines(c)
    lines += [f'{2 * (c.first_gate() + k)} {a} {b}' for k, (a, b) in enumerate(c.gates)]
    return joined(lines + symbol_lines(c))


def delta(number):
    """Groups of seven bits, the lowest first, as few as will do."""
    groups = bytearray()
    while number > 127:
        groups.append(128 | number & 127)
        number >>= 7
    groups.append(number)
    return bytes(groups)


def binary_text(c):
    lines = [header(c, 'aig')]
    for k, (next_lit, reset) in enumerate(c.latches):
        lines.append(f'{next_lit}{reset_of(2 * (c.first_latch() + k), reset)}')
    deltas = [delta(2 * (c.first_gate() + k) - a) + delta(a - b) for k, (a, b) in enumerate(c.gates)]
    return joined(lines + property_lines(c)) + b''.join(deltas) + joined(symbol_lines(c))


def text(c, letters):
    return ascii_text(c) if letters == 'aag' else binary_text(c)

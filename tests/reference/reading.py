"""Circuits from bytes, in both spellings of AIGER, or the first fault of the bytes (docs/FORMAT.md)."""
import dataclasses
import heapq
import re

from reference.circuit import FREE, KINDS, Circuit, no_symbols, ordered

MOST_VARIABLES = 2**28 - 1
MOST_PROPERTIES = 2**24
NUMBER = re.compile(rb'[0-9]+')
HEADER = re.compile(rb'a[ai]g( [0-9]+){5,9}')
SYMBOL = re.compile(rb'([ilobcjf])([0-9]+) (.*)', re.DOTALL)


class Fault(Exception):
    """Its text is that of the program: a name, and the offset where there is one."""

    def __init__(self, name, offset=None):
        super().__init__(name if offset is None else f'{name} at {offset}')


def number(digits):
    """What digits spell, however many zeros lead; what is past every limit counts as 2^64."""
    digits = digits.lstrip(b'0')
    return int(digits or b'0') if len(digits) < 19 else 2**64


class Bytes:
    """The bytes of a file, and how far they have been read."""

    def __init__(self, data):
        self.data, self.at = data, 0

    def line(self):
        """The next line and its offset."""
        if self.at == len(self.data):
            raise Fault('Truncated', len(self.data))
        offset = self.at
        end = self.data.find(b'\n', offset)
        end = len(self.data) if end < 0 else end
        self.at = min(end + 1, len(self.data))
        return self.data[offset:end], offset

    def numbers(self, counts):
        """The numbers of the next line, which has to have one of these counts of them, and its offset."""
        line, offset = self.line()
        fields = line.split(b' ')
        if len(fields) not in counts or not all(NUMBER.fullmatch(field) for field in fields):
            raise Fault('BadLine', offset)
        return [number(field) for field in fields], offset

    def delta(self):
        offset, value = self.at, 0
        for place in range(5):
            if self.at == len(self.data):
                raise Fault('Truncated', offset)
            byte = self.data[self.at]
            self.at += 1
            value += (byte & 127) << 7 * place
            if byte < 128:
                return value, offset
        raise Fault('BadDelta', offset)


@dataclasses.dataclass(frozen=True)
class Header:
    """The numbers of a header, in their order: M I L O A B C J F."""
    greatest_variable: int
    inputs: int
    latches: int
    outputs: int
    gates: int
    bad: int
    constraints: int
    justice: int
    fairness: int

    def first_gate(self):
        return 1 + self.inputs + self.latches

    def of_kinds(self):
        """How many there are of each kind of symbol, in the order of KINDS."""
        return self.inputs, self.latches, self.outputs, self.bad, self.constraints, self.justice, self.fairness


def header_of(line, is_ascii):
    if not HEADER.fullmatch(line):
        raise Fault('BadHeader', 0)
    numbers = [number(field) for field in line.split(b' ')[1:]] + [0] * 4
    header = Header(*numbers[:9])
    if header.greatest_variable > MOST_VARIABLES or max(header.of_kinds()[2:]) > MOST_PROPERTIES:
        raise Fault('TooLarge', 0)
    total = header.inputs + header.latches + header.gates
    if total > header.greatest_variable or (not is_ascii and total != header.greatest_variable):
        raise Fault('MaxIndex', 0)
    return header


class Reader:
    """The items of a file, one after another: literals are those of the file. `positions` has, for each variable that an ASCII
    file defines, how many were defined before it."""

    def __init__(self, data):
        self.source = Bytes(data)
        self.positions = {}
        self.latches, self.gates = [], []
        self.symbols = no_symbols()
        self.is_ascii = data[:3] == b'aag'
        self.header = header_of(self.source.line()[0] if data else b'', self.is_ascii)

    def literals(self, counts, checked):
        """The numbers of a line, the first so many of which are literals."""
        numbers, offset = self.source.numbers(counts)
        if any(lit > 2 * self.header.greatest_variable + 1 for lit in numbers[:checked]):
            raise Fault('MaxIndex', offset)
        return numbers, offset

    def define(self, lit, offset):
        if lit % 2 or lit == 0:
            raise Fault('BadLiteral', offset)
        if lit // 2 in self.positions:
            raise Fault('DefinedTwice', offset)
        self.positions[lit // 2] = len(self.positions)

    def read_inputs(self):
        for _ in range(self.header.inputs if self.is_ascii else 0):
            (lit,), offset = self.literals((1,), 1)
            self.define(lit, offset)

    def read_latch(self, k):
        if self.is_ascii:
            numbers, offset = self.literals((2, 3), 2)
            self.define(numbers[0], offset)
        else:
            numbers, offset = self.literals((1, 2), 1)
            numbers.insert(0, 2 * (1 + self.header.inputs + k))
        reset = numbers[2] if len(numbers) == 3 else 0
        if reset not in (0, 1, numbers[0]):
            raise Fault('BadReset', offset)
        self.latches.append((numbers[1], FREE if reset == numbers[0] else reset))

    def read_list(self, count):
        return [self.literals((1,), 1)[0][0] for _ in range(count)]

    def read_sizes(self):
        """The sizes of the justice properties."""
        sizes = []
        for _ in range(self.header.justice):
            (size,), offset = self.source.numbers((1,))
            sizes.append(size)
            if sum(sizes) > MOST_PROPERTIES:
                raise Fault('TooLarge', offset)
        return sizes

    def read_gate(self, k):
        if self.is_ascii:
            (lhs, a, b), offset = self.literals((3,), 3)
            self.define(lhs, offset)
        else:
            lhs = 2 * (self.header.first_gate() + k)
            first, offset = self.source.delta()
            if not 0 < first <= lhs:
                raise Fault('BadDelta', offset)
            a = lhs - first
            second, offset = self.source.delta()
            if second > a:
                raise Fault('BadDelta', offset)
            b = a - second
        self.gates.append((lhs // 2, a, b))

    def read_symbols(self):
        counts = dict(zip(KINDS, self.header.of_kinds()))
        while self.source.at < len(self.source.data):
            line, offset = self.source.line()
            if line[:1] == b'c' and not line[1:2].isdigit():
                return
            if line[:1] not in {kind.encode() for kind in KINDS}:
                raise Fault('Trailing', offset)
            found = SYMBOL.fullmatch(line)
            kind, position = (found[1].decode(), number(found[2])) if found else ('i', 2**64)
            if position >= counts[kind] or position in self.symbols[kind]:
                raise Fault('BadSymbol', offset)
            self.symbols[kind][position] = found[3]

    def read(self):
        header = self.header
        self.read_inputs()
        for k in range(header.latches):
            self.read_latch(k)
        outputs, bad, constraints = map(self.read_list, (header.outputs, header.bad, header.constraints))
        justice = [self.read_list(size) for size in self.read_sizes()]
        fairness = self.read_list(header.fairness)
        for k in range(header.gates):
            self.read_gate(k)
        self.read_symbols()
        lists = [outputs, bad, constraints, fairness, *justice]
        if self.is_ascii:
            self.check_defined(lists)
            self.gates = in_order(self.gates)
        variables = self.variables()

        def new(lit):
            return 2 * variables[lit // 2] + lit % 2 if self.is_ascii else lit

        outputs, bad, constraints, fairness, *justice = [list(map(new, lits)) for lits in lists]
        latches = [(new(next_lit), reset) for next_lit, reset in self.latches]
        gates = [ordered(new(a), new(b)) for _, a, b in self.gates]
        return Circuit(header.inputs, latches, gates, outputs, bad, constraints, justice, fairness, self.symbols)

    def check_defined(self, lists):
        """Each variable that is read has to be defined."""
        read_lits = [next_lit for next_lit, _ in self.latches] + [lit for lits in lists for lit in lits]
        read_lits += [lit for _, a, b in self.gates for lit in (a, b)]
        if any(lit > 1 and lit // 2 not in self.positions for lit in read_lits):
            raise Fault('Undefined')

    def variables(self):
        """For each variable of an ASCII file that of the circuit: inputs and latches as they are defined, then the gates."""
        first_gate = self.header.first_gate()
        variables = {var: 1 + position for var, position in self.positions.items() if 1 + position < first_gate}
        variables.update({var: first_gate + k for k, (var, _, _) in enumerate(self.gates)})
        return {0: 0, **variables}


def in_order(gates):
    """Topological order, in which at each place stands the first gate of the file whose gate fan-ins all stand before it."""
    positions = {var: k for k, (var, _, _) in enumerate(gates)}
    missing = [{lit // 2 for lit in gate[1:] if lit // 2 in positions} for gate in gates]
    fan_outs = {}
    for k, fan_ins in enumerate(missing):
        for var in fan_ins:
            fan_outs.setdefault(var, []).append(k)
    ready = [k for k, fan_ins in enumerate(missing) if not fan_ins]
    heapq.heapify(ready)
    order = []
    while ready:
        k = heapq.heappop(ready)
        order.append(gates[k])
        for reader in fan_outs.get(gates[k][0], []):
            missing[reader].discard(gates[k][0])
            if not missing[reader]:
                heapq.heappush(ready, reader)
    if len(order) < len(gates):
        raise Fault('Cycle')
    return order


def read(data):
    """The circuit, and the three letters of its spelling."""
    reader = Reader(data)
    return reader.read(), data[:3].decode()

"""A witness circuit of a circuit that another one has a map to, read through the map: one of that other circuit."""
from reference.circuit import Circuit, no_symbols, ordered


class NoSuchLiteral(Exception):
    """A name says a literal that the circuit hasn't, or one twice."""


def says(name):
    return name.startswith(b'= ')


def named_places(names, many, first, count):
    """Of each of so many inputs or latches the place, among those of the circuit, that its name says."""
    found = [None] * many
    for position, name in sorted(names.items()):
        if says(name):
            lit = int(name[2:]) if name[2:].isdigit() else 1
            place = lit // 2 - first
            if lit & 1 or not 0 <= place < count or place in found:
                raise NoSuchLiteral
            found[position] = place
    return found


def sharing(d, w):
    """Of each input and of each latch of a witness circuit the place of the circuit's, or None where it is its own."""
    names, counts = (w.symbols['i'], w.symbols['l']), ((w.inputs, d.inputs), (len(w.latches), len(d.latches)))
    if any(says(name) for part in names for name in part.values()):
        return [named_places(part, many, first, count) for part, (many, count), first in zip(names, counts, (1, d.first_latch()))]
    return [[k if k < count else None for k in range(many)] for many, count in counts]


class Joined:
    """The gates of several circuits."""

    def __init__(self, first_gate):
        self.first_gate, self.gates = first_gate, []

    def gate(self, a, b):
        self.gates.append(ordered(a, b))
        return 2 * (self.first_gate + len(self.gates) - 1)

    def copied(self, c, leaves):
        """What stands for each literal of a circuit, by what stands for its inputs and latches."""
        literals = [0, *leaves]
        for a, b in c.gates:
            literals.append(self.gate(*(literals[lit // 2] ^ lit & 1 for lit in (a, b))))
        return lambda lit: literals[lit // 2] ^ lit & 1

    def all(self, lits):
        """One literal stands for itself, and none for the constant 1."""
        found = 1
        for lit in lits:
            found = lit if found == 1 else self.gate(found, lit)
        return found


def from_shared(places, shared, own):
    """What stands for inputs or latches: what is shared, or the next of the witness's own."""
    own = iter(own)
    return [next(own) if place is None else shared[place] for place in places]


def lifted_over(c, m, w, shared, named):
    """The witness circuit over c that is made of w, which shares this with a circuit that m maps the states of c to; names say which of its
    first inputs and latches are those of another circuit."""
    of_inputs, of_latches = shared
    inputs = [2 * (1 + k) for k in range(c.inputs + of_inputs.count(None))]
    latches = [2 * (1 + len(inputs) + k) for k in range(len(c.latches) + of_latches.count(None))]
    joined = Joined(1 + len(inputs) + len(latches))
    read = joined.copied(c, inputs[:c.inputs] + latches[:len(c.latches)])
    image = joined.copied(m, latches[:len(c.latches)])
    of_witness = joined.copied(w, from_shared(of_inputs, inputs, inputs[c.inputs:])
                               + from_shared(of_latches, [image(lit) for lit in m.outputs], latches[len(c.latches):]))
    holds = [image(lit) for lit in m.constraints] + [of_witness(lit) for lit in w.constraints]
    bad = joined.all(holds + [of_witness(lit) ^ 1 for lit in w.bad or w.outputs]) ^ 1
    nexts = [(read(next_lit), reset) for next_lit, reset in c.latches]
    nexts += [(of_witness(next_lit), reset) for place, (next_lit, reset) in zip(of_latches, w.latches) if place is None]
    names = {'i': {k: b'= %d' % inputs[k] for k in range(named.inputs)},
             'l': {k: b'= %d' % (2 * (named.first_latch() + k)) for k in range(len(named.latches))}}
    constraints = [read(lit) for lit in c.constraints]
    return Circuit(len(inputs), nexts, joined.gates, [], [bad], constraints, symbols=no_symbols() | names)


def lifted(c, d, m, w):
    """The witness circuit for c that is made of w, which is one for d, by a map m of the states of c to those of d."""
    return lifted_over(c, m, w, sharing(d, w), c)

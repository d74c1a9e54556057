"""The map of states of a retiming: a combinational circuit from the latches of the read circuit to those of the written one.

While the run goes on, each latch has its function of the latches that were read, as a literal of the map. A latch that stays keeps
it, and a new latch's is that of its gate over those of the latches before the move. A latch that cleaning or merging replaces has the
value of what is read in its place: these equalities are the constraints."""
from reference.circuit import Circuit, ordered
from reference.cleaning import cleaned_once, left_after
from reference.merging import merged
from reference.retiming import held_latches, latched_after, moved, rounds_of


class StateMap:
    """The gates and constraints so far, and the function of each latch of the circuit that the run has come to."""

    def __init__(self, c):
        self.inputs, self.gates, self.constraints = len(c.latches), [], []
        self.functions = [2 * (1 + k) for k in range(len(c.latches))]

    def gate(self, a, b):
        self.gates.append(ordered(a, b))
        return 2 * (self.inputs + len(self.gates))

    def equality(self, a, b):
        """A literal that is 1 where both are equal: the first one where the second is a constant."""
        if b < 2:
            return a ^ b ^ 1
        one, other = self.gate(a, b ^ 1), self.gate(a ^ 1, b)
        return self.gate(one ^ 1, other ^ 1)

    def function(self, c, lit):
        """That of a literal of a latch, or a constant."""
        return (self.functions[lit // 2 - c.first_latch()] if lit > 1 else 0) ^ lit & 1

    def equate(self, c, replacements):
        """A constraint for each latch that isn't read any more: it is equal to what is read in its place."""
        for k, function in enumerate(self.functions):
            other = self.function(c, replacements.get(c.first_latch() + k, 2 * (c.first_latch() + k)))
            if other != function:
                self.constraints.append(self.equality(function, other))

    def clean_once(self, c, held):
        replacements, _, _, left = left_after(c, held)
        self.equate(c, replacements)
        self.functions = [self.functions[v - c.first_latch()] for v in left if v < c.first_gate()]
        return cleaned_once(c, held)

    def clean(self, c, held):
        while True:
            d, positions = self.clean_once(c, held)
            if (len(d.latches), len(d.gates)) == (len(c.latches), len(c.gates)):
                return d, positions
            c, held = d, positions

    def merge(self, c, held, listed):
        reads = dict(listed)
        self.equate(c, reads)
        self.functions = [self.function(c, reads.get(v, 2 * v)) for v in range(c.first_latch(), c.first_gate())]
        return merged(c, held, listed), held

    def move(self, c, members, held):
        staying, new = latched_after(c, members, held)
        functions = {c.first_latch() + k: function for k, function in enumerate(self.functions)}
        for v in sorted(members):
            functions[v] = self.gate(*(functions[lit // 2] ^ lit & 1 for lit in c.gate(v)))
        self.functions = [functions[v] for v in staying + new]
        return moved(c, members, held)

    def circuit(self, names, names_after):
        m = Circuit(self.inputs, [], self.gates, self.functions, constraints=self.constraints)
        m.symbols.update(i=names, o=names_after)
        return m


def state_map(c, most=None, names=(), smallest=False, merge=False, bound=None):
    """The map of the retiming of c, and what it is retimed to."""
    m = StateMap(c)
    d, held = m.clean(c, held_latches(c, names))
    for one in rounds_of(c, most, names, smallest, merge, bound):
        if one.listed is not None:
            d, held = m.clean(*m.merge(d, held, one.listed))
        for frame in one.taken():
            d, held = m.clean(*m.move(d, frame.members, held))
    return m.circuit(c.symbols['l'], d.symbols['l']), d

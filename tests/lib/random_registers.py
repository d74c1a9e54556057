"""Random circuits of registers that hold and are reset: with enables of inputs, gates and registers, resets of either value, in front of
the enable or behind it, before all that reads a register too, or none; holds within holds; registers that toggle, that hold by
themselves, that only rise or fall."""
from reference.circuit import FREE, Circuit, no_symbols

KINDS = 10


class Gates:
    """Gates over inputs and latches, each pair of fan-ins once."""

    def __init__(self, inputs, latches):
        self.first, self.gates, self.made = 1 + inputs + latches, [], {}

    def both(self, a, b):
        a, b = max(a, b), min(a, b)
        if b == 0 or a == b ^ 1:
            return 0
        if b == 1 or a == b:
            return a
        if (a, b) not in self.made:
            self.made[a, b] = 2 * (self.first + len(self.gates))
            self.gates.append((a, b))
        return self.made[a, b]

    def either(self, a, b):
        return self.both(a ^ 1, b ^ 1) ^ 1

    def choice(self, test, a, b):
        return self.either(self.both(test, a), self.both(test ^ 1, b))

    def differ(self, a, b):
        return self.choice(a, b ^ 1, b)

    def some(self, rng, lits, depth):
        """Some gates over these literals, so many levels deep at most."""
        if depth == 0 or rng.random() < 0.2:
            return rng.choice(lits) ^ rng.getrandbits(1)
        a, b = self.some(rng, lits, depth - 1), self.some(rng, lits, depth - 1)
        return rng.choice([self.both, self.either, self.differ])(a, b) ^ rng.getrandbits(1)


class Registers:
    """Rows of registers, each of which reads the row before."""

    def __init__(self, rng):
        self.rng, self.width, stages = rng, rng.randint(1, 5), rng.randint(1, 4)
        self.inputs, self.latches = rng.randint(1, 5), self.width * stages + rng.randint(0, 3)
        self.in_rows, self.gates = self.width * stages, Gates(self.inputs, self.latches)
        self.read = [2 * (1 + k) for k in range(self.inputs)]
        self.own = [2 * (1 + self.inputs + k) for k in range(self.latches)]
        self.resets = [rng.choice([0, 0, 0, 0, 1, 1] if rng.random() < 0.8 else [0, 1, FREE]) for _ in range(self.latches)]
        self.choose_controls()

    def choose_controls(self):
        """Which enables and resets there are, and whether a mask stands before all that reads a register."""
        rng, mask = self.rng, self.rng.choice(self.read) ^ self.rng.getrandbits(1)
        lits = rng.choice([self.read, self.read + self.own[-3:], self.read + self.own])
        self.holds = [self.gates.some(rng, lits, rng.randint(0, 2)) for _ in range(rng.randint(1, 2))]
        self.clears = [self.gates.some(rng, self.read if rng.random() < 0.8 else lits, rng.randint(0, 1)) for _ in range(rng.randint(1, 2))]
        self.mask = mask if rng.random() < 0.3 else 1
        self.seen = [self.masked(k, lit) if rng.random() < 0.9 else lit for k, lit in enumerate(self.own)]

    def masked(self, k, lit):
        return self.gates.either(lit, self.mask ^ 1) if self.resets[k] == 1 else self.gates.both(lit, self.mask)

    def cleared(self, k, lit):
        clear = self.rng.choice(self.clears)
        return self.gates.either(clear, lit) if self.resets[k] == 1 else self.gates.both(clear ^ 1, lit)

    def loaded(self, k, kind, lit):
        """What register k of a kind gets that would load this."""
        rng, gates, seen, hold = self.rng, self.gates, self.seen[k], self.rng.choice(self.holds)
        ways = [lambda: lit, lambda: gates.choice(hold, seen, lit), lambda: self.cleared(k, gates.choice(hold, seen, lit)),
                lambda: gates.choice(hold, seen, self.cleared(k, lit)),
                lambda: gates.choice(hold, seen, gates.choice(rng.choice(self.holds), gates.some(rng, self.read, 1), lit)),
                lambda: gates.choice(hold, gates.choice(rng.choice(self.holds), seen, gates.some(rng, self.read, 1)), lit),
                lambda: gates.differ(seen, hold), lambda: gates.choice(self.own[k], seen, lit), lambda: gates.both(hold, seen),
                lambda: gates.either(seen, lit)]
        return ways[kind]()

    def next_of(self, k, style):
        """The next literal of register k: mostly one of the style that most have."""
        rng, row = self.rng, k // self.width
        before = self.read if row == 0 else self.seen[(row - 1) * self.width:row * self.width]
        lits = before if k < self.in_rows else self.read + self.own
        kind = style if rng.random() < 0.85 else rng.randrange(KINDS)
        found = self.loaded(k, kind, self.gates.some(rng, lits, rng.randint(0, 3)))
        return self.masked(k, found) if rng.random() < 0.95 else found


def registers(rng):
    """A random circuit of registers."""
    made, style = Registers(rng), rng.randint(0, 5)
    nexts = [made.next_of(k, style) for k in range(made.latches)]
    lits = made.seen[-made.width - 2:] if rng.random() < 0.7 else made.seen + made.read
    outputs = [made.gates.some(rng, lits, rng.randint(1, 3)) for _ in range(rng.randint(1, 4))]
    symbols = no_symbols()
    symbols['l'] = {k: b'r%d' % k for k in range(made.latches)}
    return Circuit(made.inputs, list(zip(nexts, made.resets)), made.gates.gates, outputs, symbols=symbols)

"""Small circuits, each beside another that was made of it and a map of states, and circuits with one thing changed. The pairs and the
maps are right by the way they were made: latches that moved over a gate behind an enable, a reset or both; gates that are written in
another way, with tests of a variable between; latches that are told the same in two ways, of which one goes; and what the reference
model retimes. A seed gives the same circuits everywhere."""
import copy
import random

import map_checker
import random_files
from reference.circuit import ascii_text
from reference.maps import state_map


class Builder:
    """A circuit with inputs and latches, whose gates come one by one."""

    def __init__(self, inputs, resets):
        self.inputs, self.resets, self.gates = inputs, resets, []

    def input(self, k):
        return 2 * (1 + k)

    def latch(self, k):
        return 2 * (1 + self.inputs + k)

    def leaves(self):
        return [self.input(k) for k in range(self.inputs)] + [self.latch(k) for k in range(len(self.resets))]

    def gate(self, a, b):
        self.gates.append((2 * (1 + self.inputs + len(self.resets) + len(self.gates)), max(a, b), min(a, b)))
        return self.gates[-1][0]

    def either(self, a, b):
        return self.gate(a ^ 1, b ^ 1) ^ 1

    def choice(self, test, a, b):
        """What is a where the test is 1, else b."""
        return self.gate(self.gate(test, a) ^ 1, self.gate(test ^ 1, b) ^ 1) ^ 1

    def same(self, a, b):
        return self.gate(self.gate(a, b ^ 1) ^ 1, self.gate(a ^ 1, b) ^ 1)

    def circuit(self, nexts=(), outputs=(), constraints=()):
        inputs = [self.input(k) for k in range(self.inputs)]
        latches = [(self.latch(k), lit, reset) for k, (lit, reset) in enumerate(zip(nexts, self.resets))]
        return map_checker.Circuit(inputs, latches, list(outputs), [], list(constraints), [], [], self.gates, b'')


def some(rng, lits):
    return rng.choice(lits) ^ rng.getrandbits(1)


def some_gate(rng, b, lits, depth):
    """A literal of some gates over these literals, so many levels deep."""
    if depth == 0 or rng.random() < 0.2:
        return some(rng, lits)
    return b.gate(some_gate(rng, b, lits, depth - 1), some_gate(rng, b, lits, depth - 1)) ^ rng.getrandbits(1)


def moved(rng):
    """Two latches behind an enable, a reset or both, which are moved over a gate."""
    inputs, resets = rng.randint(2, 4), [rng.choice([0, 0, 1]) for _ in range(2)]
    signs = [rng.getrandbits(1), rng.getrandbits(1)]
    way, keeps, clears = rng.randrange(5), rng.getrandbits(1), rng.getrandbits(1)
    first_hold, seeds = rng.randrange(inputs), rng.getrandbits(64)

    def held(b, own, load, reset):
        hold, clear = b.input(first_hold) ^ keeps, b.input((first_hold + 1) % inputs) ^ clears
        if way in (1, 3):
            load = b.choice(hold, own, load)
        if way in (2, 3):
            load = b.either(clear, load) if reset else b.gate(clear ^ 1, load)
        return b.choice(hold, own, load) if way == 4 else load

    def loads(b):
        again = random.Random(seeds)
        return [some_gate(again, b, [b.input(k) for k in range(inputs)], 2) for _ in range(2)]

    c = Builder(inputs, resets)
    one, other = loads(c)
    nexts = [held(c, c.latch(0), one, resets[0]), held(c, c.latch(1), other, resets[1])]
    lit = c.gate(c.latch(0) ^ signs[0], c.latch(1) ^ signs[1])
    reset = (resets[0] ^ signs[0]) & (resets[1] ^ signs[1])
    d = Builder(inputs, [reset])
    one, other = loads(d)
    load = d.gate(one ^ signs[0], other ^ signs[1])
    m = Builder(2, [])
    of_map = m.gate(m.input(0) ^ signs[0], m.input(1) ^ signs[1])
    return c.circuit(nexts, [lit]), d.circuit([held(d, d.latch(0), load, reset)], [d.latch(0)]), m.circuit(outputs=[of_map])


def rewritten(rng, b, gates, own):
    """The same gates once more, each written in one way of several."""
    here = dict(own)

    def at(lit):
        return here[lit & ~1] ^ lit & 1

    for lhs, a, c in gates:
        a, c, test = at(a), at(c), rng.choice(list(here.values()))
        way = rng.randrange(6)
        if way == 0:
            here[lhs] = b.gate(a, b.gate(a, c ^ 1) ^ 1)
        elif way == 1:
            here[lhs] = b.choice(test, b.gate(a, c), b.gate(c, b.gate(c, a)))
        elif way == 2:
            here[lhs] = b.gate(b.gate(test, b.gate(a, c)) ^ 1, b.gate(test ^ 1, b.gate(a, c)) ^ 1) ^ 1
        elif way == 3:
            here[lhs] = b.either(b.gate(a, b.gate(c, test)), b.gate(c, b.gate(a, test ^ 1)))
        else:
            here[lhs] = b.gate(a, c)
    return at


def rewritten_circuit(rng):
    """A circuit and itself with its gates written in other ways; a free latch stays one; and the map is the identity, at times with constraints."""
    inputs, resets = rng.randint(1, 4), [rng.choice([0, 1, None]) for _ in range(rng.randint(1, 5))]
    c = Builder(inputs, resets)
    for _ in range(rng.randint(1, 9)):
        lits = c.leaves() + [gate[0] for gate in c.gates]
        c.gate(some(rng, lits), some(rng, lits))
    lits = c.leaves() + [gate[0] for gate in c.gates]
    nexts, outputs = [some(rng, lits) for _ in resets], [some(rng, lits) for _ in range(rng.randint(1, 3))]
    d = Builder(inputs, resets)
    at = rewritten(rng, d, c.gates, {0: 0, **{lit: lit for lit in c.leaves()}})
    m = Builder(len(resets), [])
    constraints = [some_gate(rng, m, m.leaves(), 2) for _ in range(rng.choice([0, 0, 0, 1, 2]))]
    return c.circuit(nexts, outputs), d.circuit(map(at, nexts), map(at, outputs)), m.circuit(outputs=m.leaves(), constraints=constraints)


def merged(rng):
    """A circuit with two latches that are told the same in two ways, and the circuit without the second; the map says that they are the same."""
    inputs, others = rng.randint(1, 4), rng.randint(0, 3)
    resets = [rng.choice([0, 1]) for _ in range(1 + others)]
    sign = rng.getrandbits(1)
    c = Builder(inputs, resets + [resets[0] ^ sign])
    lits = c.leaves()
    for _ in range(rng.randint(1, 5)):
        c.gate(some(rng, lits + [gate[0] for gate in c.gates]), some(rng, lits + [gate[0] for gate in c.gates]))
    lits = lits + [gate[0] for gate in c.gates]
    nexts = [some(rng, lits) for _ in resets]
    twice = rewritten(rng, c, list(c.gates), {0: 0, **{lit: lit for lit in c.leaves()}})
    outputs = [some(rng, lits), c.latch(len(resets))]
    one, two = c.latch(0), c.latch(len(resets))
    c_is = c.circuit(nexts + [twice(nexts[0]) ^ sign], outputs)
    d = Builder(inputs, resets)
    here = {0: 0, **{d.input(k): d.input(k) for k in range(inputs)}, **{c.latch(k): d.latch(k) for k in range(len(resets))}, two: one ^ sign}

    def at(lit):
        return here[lit & ~1] ^ lit & 1

    for lhs, a, b in c.gates:
        here[lhs] = d.gate(at(a), at(b))
    m = Builder(len(resets) + 1, [])
    equal = m.same(m.input(0), m.input(len(resets)) ^ sign)
    kept = [m.input(k) for k in range(len(resets))]
    return c_is, d.circuit(map(at, nexts), map(at, outputs)), m.circuit(outputs=kept, constraints=[equal])


def retimed(rng):
    """What the reference model makes of a circuit, at times with its latches merged."""
    merge = rng.random() < 0.5
    c = random_files.circuit(rng, 3, 5, 8)
    c = random_files.with_copies(rng, c) if merge else c
    m, d = state_map(c, None, (), rng.random() < 0.3, merge, None)
    return [map_checker.read_circuit(ascii_text(part)) for part in (c, d, m)]


MAKERS = [moved, rewritten_circuit, merged, retimed]


def other_literal(rng, c, gates):
    return rng.choice([0, *c.inputs, *(latch[0] for latch in c.latches), *(gate[0] for gate in c.gates[:gates])]) ^ rng.getrandbits(1)


def changed_gate(rng, c):
    k, place = rng.randrange(len(c.gates)), rng.choice((1, 2))
    gate = list(c.gates[k])
    gate[place] = gate[place] ^ 1 if rng.getrandbits(1) else other_literal(rng, c, k)
    c.gates[k] = (gate[0], *sorted(gate[1:], reverse=True))


def changed_latch(rng, c):
    k = rng.randrange(len(c.latches))
    lit, next_lit, reset = c.latches[k]
    c.latches[k] = rng.choice([(lit, next_lit ^ 1, reset), (lit, other_literal(rng, c, len(c.gates)), reset), (lit, next_lit, rng.choice([0, 1, None]))])


def changed_list(rng, c, name):
    lits = getattr(c, name)
    lits = rng.choice(lits) if name == 'justice' else lits
    if not lits:
        return
    k, other = rng.randrange(len(lits)), rng.randrange(len(lits))
    way = rng.randrange(4 if name == 'constraints' else 3)
    if way == 0:
        lits[k], lits[other] = lits[other], lits[k]
    elif way == 3:
        # (a name of what isn't there would be refused)
        del lits[k]
        c.rest = b''
    else:
        lits[k] = lits[k] ^ 1 if way == 1 else other_literal(rng, c, len(c.gates))


def changed_names(rng, c):
    c.rest = b''.join(b'l%d %s\n' % (k, rng.choice([b'a', b'b'])) for k in range(len(c.latches)))


def changed(rng, parts):
    """The circuits, and a map if there is one, with one thing changed: of the last of them twice as often."""
    parts = copy.deepcopy(list(parts))
    while True:
        c = rng.choice([*parts, parts[-1]])
        ways = {'gates': changed_gate, 'latches': changed_latch}
        name = rng.choice(['gates', 'latches', 'outputs', 'bad', 'constraints', 'justice', 'fairness', 'rest'])
        if name == 'rest':
            changed_names(rng, c)
            return parts
        if getattr(c, name):
            ways.get(name, lambda rng, c, name=name: changed_list(rng, c, name))(rng, c)
            return parts


def text_of(c):
    """A circuit as an ASCII file."""
    rows = [[lit] for lit in c.inputs] + [[lit, next_lit, lit if reset is None else reset] for lit, next_lit, reset in c.latches]
    rows += [[lit] for lits in (c.outputs, c.bad, c.constraints) for lit in lits] + [[len(lits)] for lits in c.justice]
    rows += [[lit] for lits in [*c.justice, c.fairness] for lit in lits] + list(map(list, c.gates))
    most = max([lit // 2 for row in rows for lit in row[:1]] + [0])
    counts = [most, len(c.inputs), len(c.latches), len(c.outputs), len(c.gates), *map(len, (c.bad, c.constraints, c.justice, c.fairness))]
    return b'aag ' + b''.join(b' '.join(b'%d' % number for number in row) + b'\n' for row in [counts, *rows]) + c.rest

"""What a map of states has to meet, as a circuit without latches that is 1 where it fails; and both circuits side by side, as a model and
as the witness circuit that the map makes of it."""
from reference.circuit import FREE, Circuit, no_symbols
from reference.lifts import Joined


class Asked(Joined):
    """Gates, with what says that literals are equal."""

    def equal(self, a, b):
        if b < 2:
            return a ^ 1 ^ b
        above = self.gate(a, b ^ 1)
        below = self.gate(a ^ 1, b)
        return self.gate(below ^ 1, above ^ 1)

    def all_equal(self, one, two):
        return self.all([self.equal(a, b) for a, b in zip(one, two)])

    def image(self, m, state):
        """What a map gives for a state: whether its constraints are 1, and its outputs."""
        read = self.copied(m, state)
        outputs = [read(lit) for lit in m.outputs]
        return self.all([read(lit) for lit in m.constraints]), outputs

    def step(self, c, inputs, state):
        """What the latches hold after a step, and the properties in it."""
        read = self.copied(c, inputs + state)
        return [read(lit) for lit, _ in c.latches], [read(lit) for lit in c.properties()]


def at_reset(latches, own):
    return [lit if reset == FREE else reset for (_, reset), lit in zip(latches, own)]


def free_stay(c, d, m):
    """Whether each free latch of d is one of c, in their order, by what its output reads."""
    lits = [lit for lit, (_, reset) in zip(m.outputs, d.latches) if reset == FREE]
    free = [2 * (1 + k) for k, (_, reset) in enumerate(c.latches) if reset == FREE]
    return set(lits) <= set(free) and all(a < b for a, b in zip(lits, lits[1:]))


def miter(c, d, m):
    """The miter of a map m of the states of c to those of d."""
    inputs, state = ([2 * (1 + first + k) for k in range(count)] for first, count in ((0, c.inputs), (c.inputs, len(c.latches))))
    asked = Asked(1 + c.inputs + len(c.latches))
    kept, outputs = asked.image(m, at_reset(c.latches, state))
    begins = asked.gate(kept, asked.all_equal(outputs, at_reset(d.latches, outputs)))
    reset = begins ^ 1 if free_stay(c, d, m) else 1
    nexts, props = asked.step(c, inputs, state)
    kept, outputs = asked.image(m, state)
    kept_later, outputs_later = asked.image(m, nexts)
    nexts_of_second, props_of_second = asked.step(d, inputs, outputs)
    same_nexts = asked.all_equal(outputs_later, nexts_of_second)
    same_props = asked.all_equal(props_of_second, props)
    failures = [reset, *(asked.gate(kept, wanted ^ 1) for wanted in (kept_later, same_nexts, same_props))]
    names = dict(enumerate([b'reset', b'keep', b'next', b'read']))
    return Circuit(c.inputs + len(c.latches), [], asked.gates, failures, [], [], symbols=no_symbols() | {'o': names})


def ties(c, d, m):
    """The literals of free latches of d and of those of c that they are, side by side: none where some is none of c."""
    pairs = [(2 * (c.first_gate() + k), 2 * (c.inputs + lit // 2))
             for k, (lit, (_, reset)) in enumerate(zip(m.outputs, d.latches)) if reset == FREE]
    return pairs if free_stay(c, d, m) else []


def product(c, d, m, is_model):
    """Both circuits over the same inputs. The bad state of the model is that a property differs, that of its witness circuit that a
    constraint of the map is 0, or a latch of d isn't what the map says. Where d has free latches, a last latch is 0 in the first step
    alone, in which they have to hold what those of c do."""
    pairs = ties(c, d, m)
    count = len(c.latches) + len(d.latches) + bool(pairs)
    lits = [2 * (1 + k) for k in range(c.inputs + count)]
    inputs, first, second = lits[:c.inputs], lits[c.inputs:][:len(c.latches)], lits[c.inputs + len(c.latches):][:len(d.latches)]
    asked = Asked(1 + len(lits))
    (nexts, props), (nexts_of_second, props_of_second) = asked.step(c, inputs, first), asked.step(d, inputs, second)
    if is_model:
        good = asked.all_equal(props_of_second, props)
    else:
        kept, outputs = asked.image(m, first)
        good = asked.gate(kept, asked.all_equal(outputs, second))
    constraints = [asked.gate(lits[-1] ^ 1, asked.all_equal(*zip(*pairs)) ^ 1) ^ 1] if pairs else []
    latches = [(lit, reset) for lit, (_, reset) in zip(nexts + nexts_of_second, c.latches + d.latches)]
    return Circuit(c.inputs, latches + [(1, 0)] * bool(pairs), asked.gates, [], [good ^ 1], constraints)

"""Whether a map of states shows that a circuit is a retiming of another one: gates with the same fan-ins are one, and where a constraint
of the map says that two literals are equal, the smaller one stands for the other. What has to be equal is shown if it is one literal then, if
propagation over the gates refutes that either is 1 without the other, or if either is so in all cases of some inputs and latches."""
from reference.circuit import FREE, ordered

# how often the constraints are taken, where each time says something new
ROUNDS = 4
# how often what is known is taken into account to learn more
PASSES = 17
# of how many variables a case is at most, how many cases are made for a part, and for all
DEEPEST, FOR_ONE, FOR_ALL = 8, 100, 400


def at(literals, lit):
    return literals[lit // 2] ^ lit & 1


class Shared:
    """Gates whose variables come after those of a circuit's inputs and latches, and what stands for a variable."""

    def __init__(self, c):
        self.first, self.places, self.stands = c.first_gate(), {}, {}

    def standing(self, lit):
        while lit // 2 in self.stands:
            lit = self.stands[lit // 2] ^ lit & 1
        return lit

    def gate(self, a, b):
        large, small = ordered(self.standing(a), self.standing(b))
        if small < 2:
            return large if small else 0
        if large // 2 == small // 2:
            return large if large == small else 0
        place = self.places.setdefault((large, small), len(self.places))
        return self.standing(2 * (self.first + place))

    def assume(self, a, b):
        """Takes the smaller of two literals for the other. Whether it wasn't taken for it before."""
        small, large = sorted((self.standing(a), self.standing(b)))
        if small // 2 == large // 2:
            return False
        self.stands[large // 2] = small ^ large & 1
        return True

    def copied(self, c, leaves):
        """The literal here of each variable of a circuit, by those of its inputs and latches."""
        literals = [0, *leaves]
        for a, b in c.gates:
            literals.append(self.gate(at(literals, a), at(literals, b)))
        return literals

    def gates(self):
        """The literal of each gate, and its fan-ins."""
        return [(2 * (self.first + place), *fan_ins) for fan_ins, place in self.places.items()]

    def latches(self, c):
        return [self.standing(2 * (c.first_latch() + k)) for k in range(len(c.latches))]


def sides(m, lit):
    """Two literals that are equal where this one is 1: those that its gates compare, else itself and 1."""
    gate = m.gate(lit // 2)
    if gate and not lit & 1 and gate[0] & gate[1] & 1:
        above, below = m.gate(gate[0] // 2), m.gate(gate[1] // 2)
        if above and below and below == (above[0] ^ 1, above[1] ^ 1):
            return above[0], above[1] ^ 1
    return lit, 1


def learnt(c, m, case):
    """Shared gates under what the constraints say of the latches of c, where the literals of a case are 1."""
    shared = Shared(c)
    for lit in case:
        shared.assume(lit, 1)
    for _ in range(ROUNDS):
        image = shared.copied(m, shared.latches(c))
        if not any([shared.assume(*(at(image, lit) for lit in sides(m, constraint))) for constraint in m.constraints]):
            break
    return shared


def open_constraint(literals, m):
    return next((k for k, lit in enumerate(m.constraints) if at(literals, lit) != 1), None)


def reset_obligation(c, d, m):
    """What the map doesn't give of the first states of d: free latches are those of c, in their order."""
    own = [2 * (c.first_latch() + k) for k in range(len(c.latches))]
    free = [lit for lit, (_, reset) in zip(own, c.latches) if reset is FREE]
    image = Shared(c).copied(m, [lit if reset is FREE else reset for lit, (_, reset) in zip(own, c.latches)])
    place = open_constraint(image, m)
    if place is not None:
        return f'reset constraint {place}'
    for k, (lit, (_, reset)) in enumerate(zip(m.outputs, d.latches)):
        found = at(image, lit)
        if found != reset if reset is not FREE else found not in free:
            return f'reset latch {k}'
        if reset is FREE:
            free = free[free.index(found) + 1:]
    return None


def parts_of_step(c, d, m, case):
    """What a step has to show where the literals of a case are 1, by name: two literals that must be equal; and the gates that they are of."""
    shared = learnt(c, m, case)
    image = shared.copied(m, shared.latches(c))
    inputs = list(range(2, 2 + 2 * c.inputs, 2))
    before = shared.copied(c, inputs + shared.latches(c))
    later = shared.copied(m, [at(before, next_lit) for next_lit, _ in c.latches])
    after = shared.copied(d, inputs + [at(image, lit) for lit in m.outputs])
    parts = [(f'keep constraint {k}', at(later, lit), 1) for k, lit in enumerate(m.constraints)]
    parts += [(f'next latch {k}', at(later, lit), at(after, latch[0])) for k, (lit, latch) in enumerate(zip(m.outputs, d.latches))]
    kinds = [('output', c.outputs, d.outputs), ('bad', c.bad, d.bad), ('constraint', c.constraints, d.constraints)]
    kinds += [(f'justice {k}', *lits) for k, lits in enumerate(zip(c.justice, d.justice))] + [('fairness', c.fairness, d.fairness)]
    for kind, ones, others in kinds:
        for k, (one, other) in enumerate(zip(ones, others)):
            parts.append((f'read {kind}' if ' ' in kind else f'read {kind} {k}', at(after, other), at(before, one)))
    return shared, [(name, shared.standing(a), shared.standing(b)) for name, a, b in parts]


def propagated(gates, lits):
    """The literals that are 1 wherever these are, as far as they follow gate by gate; None if one is 0 then."""
    known, grows = {1, *lits}, True
    while grows:
        before = len(known)
        for own, a, b in gates:
            if own in known:
                known |= {a, b}
            if a ^ 1 in known or b ^ 1 in known:
                known.add(own ^ 1)
            if a in known and b in known:
                known.add(own)
            for one, other in ((a, b), (b, a)):
                if one in known and own ^ 1 in known:
                    known.add(other ^ 1)
        if any(lit ^ 1 in known for lit in known):
            return None
        grows = len(known) > before
    return known


def cone(gates, lits):
    """The variables on which literals rest, themselves among them."""
    found = {lit // 2 for lit in lits}
    for own, a, b in reversed(gates):
        if own // 2 in found:
            found |= {a // 2, b // 2}
    return found


def is_refuted(gates, lits, variables):
    """Whether these literals can't all be 1, once it is learnt what these variables are where they are."""
    known, left = list(lits), sorted(variables)
    for _ in range(PASSES):
        others = []
        for var in left:
            lit = next((lit for lit in (2 * var, 2 * var + 1) if propagated(gates, [*known, lit]) is None), None)
            if lit is None:
                others.append(var)
            else:
                known.append(lit ^ 1)
        if len(others) == len(left):
            break
        left = others
    return propagated(gates, known) is None


def are_equal(shared, a, b, learns):
    gates = shared.gates()
    variables = cone(gates, (a, b)) - {0} if learns else []
    return a == b or is_refuted(gates, (a, b ^ 1), variables) and is_refuted(gates, (a ^ 1, b), variables)


def most_read(counts, variables):
    """The variable that is read most often, the first of those that are read as often."""
    return max(sorted(variables), key=lambda var: counts[2 * var] + counts[2 * var + 1], default=None)


def reset_of(counts, own, wide, lines):
    """A literal that is read with one sign, as a reset is, and the variable that is split by where it is 1; or None."""
    often = most_read(counts, wide)
    alone = {max(2 * var, 2 * var + 1, key=counts.get) for var in own if 0 in (counts[2 * var], counts[2 * var + 1])}
    lit = max(sorted(alone), key=counts.get, default=None)
    if lit is None:
        return None
    least = max(lines, counts[2 * often] + counts[2 * often + 1]) // 2
    if counts[lit] <= least:
        return None
    other = most_read(counts, wide - {lit // 2})
    return lit, None if other is None or counts[2 * other] + counts[2 * other + 1] <= least else 2 * other


def split_of(shared, parts, shown, part):
    """The literal to make cases of, and the one to split the case by in which it is 1, before that is asked; or None. The literal is of
    a variable before the gates on which a part rests. Gates are counted on which open parts rest."""
    gates = shared.gates()
    wide = cone(gates, [lit for (_, *lits), yes in zip(parts, shown) if not yes for lit in lits])
    counts = dict.fromkeys(range(2 * shared.first), 0)
    for own, a, b in gates:
        for lit in (a, b) if own // 2 in wide else ():
            if lit // 2 < shared.first:
                counts[lit] += 1
    leaves = set(range(1, shared.first))
    own = leaves & set(cone(gates, parts[part][1:]))
    reset = reset_of(counts, own, leaves & set(wide), len(parts))
    often = most_read(counts, own)
    return reset or (None if often is None else (2 * often, None))


class Cases:
    """Cases of a step, and how many more may be made."""

    def __init__(self, c, d, m):
        self.circuits, self.left = (c, d, m), FOR_ALL

    def asked(self, case, part):
        """By part whether it is shown where these literals are 1; and what to make cases of, if this part isn't."""
        shared, parts = parts_of_step(*self.circuits, case)
        shown = [are_equal(shared, a, b, part is None) for _, a, b in parts]
        return shown, None if part is None or shown[part] else split_of(shared, parts, shown, part)

    def settled(self, part, count):
        """By part whether all cases show it, of which there are as many as this part needs."""
        pending, shown, then = [[]], [True] * count, None
        for _ in range(FOR_ONE):
            if not (self.left and pending and shown[part]):
                break
            self.left -= 1
            case, lit, then = pending.pop(), then, None
            if lit is None or len(case) == DEEPEST:
                found, split = self.asked(case, part)
                if split is None or len(case) == DEEPEST:
                    shown = [a and b for a, b in zip(shown, found)]
                    continue
                lit, then = split
            pending += [[lit ^ 1, *case], [lit, *case]]
        return [not pending and yes for yes in shown]


def step_obligation(c, d, m):
    """What the map isn't shown to keep in a step."""
    cases = Cases(c, d, m)
    shown, _ = cases.asked([], None)
    while False in shown:
        part = shown.index(False)
        shown = [a or b for a, b in zip(shown, cases.settled(part, len(shown)))]
        if not shown[part]:
            return parts_of_step(c, d, m, [])[1][part][0]
    return None


def is_map(m):
    return not (m.latches or m.bad or m.justice or m.fairness)


def are_alike(c, d):
    """As many inputs and properties, whatever latches are free."""
    shapes = [(shape[0], *shape[2:]) for shape in (c.shape(), d.shape())]
    return shapes[0] == shapes[1]


def are_fitting(c, d, m):
    """Such circuits, and an input and an output of the map for each latch."""
    return are_alike(c, d) and (m.inputs, len(m.outputs)) == (len(c.latches), len(d.latches))


def checked(c, d, m):
    """What is printed, and the status, of a map that is one of circuits like these."""
    if not are_alike(c, d):
        return 'shapes differ\n', 1
    obligation = reset_obligation(c, d, m) or step_obligation(c, d, m)
    return (f'not shown: {obligation}\n', 5) if obligation else ('retiming\n', 0)

"""Structural cleaning: passes of constant propagation, structural hashing and reachability, until one changes nothing. `held` has
the positions of the latches that are held."""
from reference.circuit import FREE, ordered


def replaced(lit, replacements):
    """The literal that stands for this one."""
    return replacements.get(lit // 2, 2 * (lit // 2)) ^ (lit & 1)


def latch_replacements(c, held):
    """For each latch that is stuck at its reset, or is like an earlier one, the literal that stands for it."""
    replacements, first_alike = {}, {}
    for k, (next_lit, reset) in enumerate(c.latches):
        var = c.first_latch() + k
        if reset is FREE:
            continue
        if k not in held and next_lit in (2 * var, reset):
            replacements[var] = reset
            continue
        first = first_alike.setdefault((next_lit, reset), var)
        if k not in held:
            replacements[var] = 2 * first
    return replacements


def with_gates(c, replacements):
    """The literals that stand for latches and gates, by variable, where these stand for latches; and the fan-ins of the gates that
    are kept."""
    kept = {}
    for k, fan_ins in enumerate(c.gates):
        var = c.first_gate() + k
        a, b = ordered(*(replaced(lit, replacements) for lit in fan_ins))
        if b == 0 or a == b ^ 1:
            replacements[var] = 0
        elif b == 1 or a == b:
            replacements[var] = a
        elif (a, b) in kept:
            replacements[var] = 2 * kept[a, b]
        else:
            kept[a, b] = var
    return replacements, {var: fan_ins for fan_ins, var in kept.items()}


def reached(c, held, next_lits, kept, properties):
    """The latches and kept gates in the fan-in cones of properties and held latches."""
    found, waiting = set(), [lit // 2 for lit in properties] + [c.first_latch() + k for k in held]
    while waiting:
        var = waiting.pop()
        if var < c.first_latch() or var in found:
            continue
        found.add(var)
        waiting += [next_lits[var] // 2] if var in next_lits else [lit // 2 for lit in kept[var]]
    return found


def left_after(c, held):
    """What one pass makes: the replacements, the next literals of all latches, the fan-ins of the gates that are kept, and the
    variables that are left."""
    replacements, kept = with_gates(c, latch_replacements(c, held))
    next_lits = {c.first_latch() + k: replaced(next_lit, replacements) for k, (next_lit, _) in enumerate(c.latches)}
    left = sorted(reached(c, held, next_lits, kept, [replaced(lit, replacements) for lit in c.properties()]))
    return replacements, next_lits, kept, left


def cleaned_once(c, held):
    replacements, next_lits, kept, left = left_after(c, held)
    numbers = {var: c.first_latch() + k for k, var in enumerate(left)}

    def renumbered(lit):
        return 2 * numbers.get(lit // 2, lit // 2) + (lit & 1)

    latches = [var for var in left if var in next_lits]
    positions = {var - c.first_latch(): k for k, var in enumerate(latches)}
    d = c.with_parts(
        [(renumbered(next_lits[var]), c.latch(var)[1]) for var in latches],
        [ordered(*map(renumbered, kept[var])) for var in left if var not in next_lits],
        lambda lit: renumbered(replaced(lit, replacements)),
        {positions[k]: name for k, name in c.symbols['l'].items() if k in positions},
    )
    return d, {positions[k] for k in held}


def cleaned(c, held=frozenset()):
    """The cleaned circuit, and the positions of its held latches."""
    while True:
        d, positions = cleaned_once(c, held)
        if (len(d.latches), len(d.gates)) == (len(c.latches), len(c.gates)):
            return d, positions
        c, held = d, positions

"""Random circuits, the files that spell them, stimuli, witnesses, and damaged files, for fuzz.py. A seed gives the same files everywhere."""
from reference.certificates import Part, read_certificates, written
from reference.circuit import FREE, KINDS, Circuit, delta, header, joined, ordered, property_lines, reset_of, symbol_lines
from reference.witnesses import bad_places, first_step

NAMES = [b'', b'a', b'b', b'a b', b'c0', b'\xff\x01', b'x' * 40]


def literal(rng, end, first_inner=None):
    """A literal below a variable; seldom a constant, mostly of a latch or gate where there are some."""
    if rng.random() < 0.03 or end == 1:
        return rng.randrange(2)
    low = first_inner if first_inner and first_inner < end and rng.random() < 0.8 else 1
    return rng.randrange(2 * low, 2 * end)


def symbols(rng, counts):
    names = {kind: {} for kind in KINDS}
    for kind, count in zip(KINDS, counts):
        for position in range(count):
            if rng.random() < 0.4:
                names[kind][position] = rng.choice(NAMES)
    return names


def circuit(rng, inputs, latches, gates):
    """A circuit of up to so many parts, with all sections; one in three has no free latch."""
    inputs, latches, gates = rng.randint(0, inputs), rng.randint(0, latches), rng.randint(0, gates)
    resets = [0, 0, 0, 1, 1] + rng.choice([[], [FREE], [FREE]])
    first_latch, first_gate = 1 + inputs, 1 + inputs + latches
    end = first_gate + gates

    def pick(bound):
        return literal(rng, bound, first_latch)

    def several(most):
        return [pick(end) for _ in range(max(0, rng.randint(-2, most)))]

    outputs, bad, constraints, fairness = several(3), several(2), several(2), several(2)
    justice = [several(3) for _ in range(max(0, rng.randint(-2, 2)))]
    counts = (inputs, latches, len(outputs), len(bad), len(constraints), len(justice), len(fairness))
    return Circuit(
        inputs, [(literal(rng, end), rng.choice(resets)) for _ in range(latches)],
        [ordered(pick(first_gate + k), pick(first_gate + k)) for k in range(gates)],
        outputs, bad, constraints, justice, fairness, symbols(rng, counts),
    )


def pipeline(rng, width, stages):
    """Latches in stages with layers of gates after each: frame after frame helps."""
    inputs, layers = width, []
    latches, gates, first_gate = [], [], 1 + width + width * stages
    sources = list(range(1, 1 + width))
    for stage in range(stages):
        first = 1 + inputs + len(latches)
        latches += [(2 * v + rng.randrange(2), rng.choice([0, 0, 1])) for v in sources]
        sources = list(range(first, first + len(sources)))
        for _ in range(rng.randint(1, 3)):
            for k in range(0, len(sources) - 1, 2):
                pair = ordered(*(2 * v + rng.randrange(2) for v in sources[k : k + 2]))
                gates.append(pair)
            new = list(range(first_gate + len(gates) - len(sources) // 2, first_gate + len(gates)))
            sources = new + sources[len(sources) // 2 * 2 :]
        sources += [rng.choice(sources) for _ in range(width - len(sources))]
        layers.append(sources)
    missing = first_gate - 1 - inputs - len(latches)

    def shift(lit):
        return lit - 2 * missing if lit // 2 >= first_gate else lit

    outputs = [2 * v for v in layers[-1][: max(1, width // 4)]]
    return Circuit(inputs, [(shift(n), r) for n, r in latches], [tuple(map(shift, g)) for g in gates],
                   list(map(shift, outputs)))


def tree(rng):
    """Few inputs and several latches, whose gates each read what isn't read yet where there is such: often a frame helps."""
    inputs, latches = rng.randint(1, 3), rng.randint(2, 6)
    first_latch, first_gate = 1 + inputs, 1 + inputs + latches
    unread, gates = list(range(first_latch, first_gate)), []
    for k in range(rng.randint(1, latches + 2)):
        fan_ins = [rng.choice(unread) if unread and rng.random() < 0.9 else rng.randrange(1, first_gate + k) for _ in range(2)]
        gates.append(ordered(*(2 * v + rng.randrange(2) for v in fan_ins)))
        unread = [v for v in unread if v not in fan_ins] + [first_gate + k]
    end = first_gate + len(gates)
    next_lits = [2 * rng.randrange(1, first_latch if rng.random() < 0.6 else end) + rng.randrange(2) for _ in range(latches)]
    free = rng.random() < 0.3
    resets = [FREE if free and rng.random() < 0.3 else rng.randrange(2) for _ in range(latches)]
    outputs = [2 * v + rng.randrange(2) for v in unread if v >= first_gate]
    counts = (inputs, latches, len(outputs), 0, 0, 0, 0)
    return Circuit(inputs, list(zip(next_lits, resets)), gates, outputs, symbols=symbols(rng, counts))


def with_line(rng, c):
    """The circuit with a line of latches more, half of them under an enable, of which merging parts one after another; two are shown."""
    many, first = rng.randint(4, 12), c.first_gate()

    def now(lit):
        return lit + 2 * many if lit // 2 >= first else lit

    source, enable = (now(rng.randrange(2, 2 * c.end())) for _ in range(2)) if c.end() > 1 else (0, 1)
    latches = [(now(lit), reset) for lit, reset in c.latches]
    gates = [tuple(map(now, fan_ins)) for fan_ins in c.gates]
    before = source
    for k in range(many):
        reset = rng.randrange(2)
        own, new = 2 * (first + k) + reset, 2 * (first + many + len(gates))
        if rng.random() < 0.5:
            gates += [ordered(before, enable), ordered(own, enable ^ 1), ordered(new + 1, new + 3)]
            before = new + 5
        latches.append((before ^ reset, reset))
        before = own
    shown = [2 * (first + rng.randrange(many)) + rng.randrange(2), before]
    longer = c.with_parts(latches, gates, now, c.symbols['l'])
    longer.outputs += shown
    return longer


def with_later(rng, c):
    """The circuit with a latch more for some gates over two known latches. It is told what the gate is a step later, by gates of its own: it
    agrees with the latch of a move over the gate, so a further round of merging finds it."""
    over = [(a, b) for a, b in c.gates if all(c.latch(lit // 2) and c.is_known(lit // 2) for lit in (a, b))]
    over, first = rng.sample(over, min(len(over), rng.randint(1, 3))), c.first_gate()

    def now(lit):
        return lit + 2 * len(over) if lit // 2 >= first else lit

    latches = [(now(lit), reset) for lit, reset in c.latches]
    gates, outputs = [tuple(map(now, fan_ins)) for fan_ins in c.gates], []
    for pair in over:
        (one, other), resets = [[c.latch(lit // 2)[k] ^ lit & 1 for lit in pair] for k in (0, 1)]
        inner = 2 * (first + len(over) + len(gates))
        gates += [ordered(now(one), now(other) ^ 1), ordered(now(one), inner + 1)]
        outputs.append(2 * (c.first_latch() + len(latches)) + rng.randrange(2))
        latches.append((inner + 2, resets[0] & resets[1]))
    longer = c.with_parts(latches, gates, now, c.symbols['l'])
    longer.outputs += outputs
    return longer


def with_copies(rng, c):
    """The circuit with its latches and gates there twice, some latches as their negations; each property reads one of the two. A free
    latch is read by all, and its copy by none."""
    signs = [rng.randrange(2) for _ in c.latches]
    first, many = c.first_latch(), len(c.latches)

    def own(lit):
        return lit if lit // 2 < c.first_gate() else lit + 2 * many

    def copied(lit):
        var = lit // 2
        if var >= c.first_gate():
            return lit + 2 * (many + len(c.gates))
        return lit + 2 * many ^ signs[var - first] if c.is_known(var) else lit

    copies = [(copied(lit), FREE) if reset is FREE else (copied(lit) ^ sign, reset ^ sign)
              for (lit, reset), sign in zip(c.latches, signs)]
    gates = [ordered(*map(read, fan_ins)) for read in (own, copied) for fan_ins in c.gates]
    latches = [(own(lit), reset) for lit, reset in c.latches] + copies
    return c.with_parts(latches, gates, lambda lit: rng.choice([own, copied])(lit), c.symbols['l'])


def shuffled_symbols(rng, c):
    lines = symbol_lines(c)
    rng.shuffle(lines)
    return joined(lines) + rng.choice([b'', b'', b'c\nany text\n\n', b'cx'])


def ascii_file(rng, c):
    """A file of a circuit with other variables, gates in any order, symbols in any order, and perhaps a comment."""
    holes = rng.randint(0, 3)
    numbers = [0, *rng.sample(range(1, c.end() + holes), c.end() - 1)]

    def new(lit):
        return 2 * numbers[lit // 2] + (lit & 1)

    lines = [header(c, 'aag').replace(f'aag {c.end() - 1}', f'aag {c.end() - 1 + holes}', 1)]
    lines += [str(new(2 * v)) for v in range(1, 1 + c.inputs)]
    for k, (next_lit, reset) in enumerate(c.latches):
        lit = new(2 * (c.first_latch() + k))
        lines.append(f'{lit} {new(next_lit)}{reset_of(lit, reset)}')
    mapped = c.with_parts(c.latches, c.gates, new, c.symbols['l'])
    lines += property_lines(mapped)
    gates = [(2 * (c.first_gate() + k), *rng.sample(gate, 2)) for k, gate in enumerate(c.gates)]
    if rng.random() < 0.5:
        rng.shuffle(gates)
    lines += [' '.join(str(new(lit)) for lit in gate) for gate in gates]
    return joined(lines) + shuffled_symbols(rng, c)


def longer(rng, number):
    """The bytes of a delta, now and then more than it needs."""
    found = delta(number)
    if rng.random() < 0.1 and len(found) < 5:
        found = found[:-1] + bytes([found[-1] | 128]) + b'\x80' * rng.randint(0, 4 - len(found)) + b'\0'
    return found


def binary_file(rng, c):
    lines = [header(c, 'aig')]
    for k, (next_lit, reset) in enumerate(c.latches):
        lines.append(f'{next_lit}{reset_of(2 * (c.first_latch() + k), reset)}')
    deltas = [longer(rng, 2 * (c.first_gate() + k) - a) + longer(rng, a - b) for k, (a, b) in enumerate(c.gates)]
    return joined(lines + property_lines(c)) + b''.join(deltas) + shuffled_symbols(rng, c)


def any_file(rng, c):
    return rng.choice([ascii_file, binary_file])(rng, c)


def damaged(rng, data):
    """The bytes with a few changed, put in, left out, or cut off."""
    data = bytearray(data)
    for _ in range(rng.randint(1, 2)):
        at = rng.randint(0 if rng.random() < 0.2 else min(14, len(data)), len(data))
        byte = rng.choice(b'0123456789 \nilobcjf\x80\xff') if rng.random() < 0.8 else rng.randrange(256)
        kind = rng.randrange(4)
        if kind == 0:
            data.insert(at, byte)
        elif kind == 1:
            del data[at : at + rng.randint(1, 3)]
        elif kind == 2:
            data[at : at + 1] = bytes([byte])
        else:
            del data[at:]
    return bytes(data)


def digits(rng, count):
    return ''.join(rng.choice('01') for _ in range(count))


def stimulus(rng, c, sequences, steps):
    lines = []
    for _ in range(sequences):
        lines.append('=' + digits(rng, c.free_latches()))
        lines += [':' + digits(rng, c.inputs) for _ in range(rng.randint(0, steps))]
    return ''.join(f'{line}\n' for line in lines).encode()


def witness(rng, c, steps):
    """A witness of random values, mostly of properties that fail under them."""
    latches = ''.join(rng.choices('01x', (4, 4, 1), k=len(c.latches)))
    rows = [''.join(rng.choices('01x', (4, 4, 1), k=c.inputs)) for _ in range(steps)]
    numbers = list(range(len(bad_places(c))))
    reached = [k for k in numbers if first_step(c, latches, rows, k) is not None]
    some = rng.sample(reached, rng.randint(1, len(reached))) if reached and rng.random() < 0.9 else numbers[:1]
    names = ' '.join(f'b{k}' for k in some) or rng.choice(['b0', 'j0'])
    lines = ['c any text'] * rng.randint(0, 1) + ['1', names, latches, *rows, '.']
    return ''.join(f'{line}\n' for line in lines).encode()


def bent_list(rng, items):
    """One left out, one twice, or two exchanged."""
    if items:
        k, other = rng.randrange(len(items)), rng.randrange(len(items))
        way = rng.randrange(3)
        if way == 2:
            items[k], items[other] = items[other], items[k]
        else:
            items[k : k + 1] = [items[k]] * way * 2


def bent_gates(rng, block):
    """A gate less, one twice, one more; half of the time the count goes with it."""
    before = len(block.gates)
    if rng.random() < 0.5:
        bent_list(rng, block.gates)
    else:
        block.gates = sorted({*block.gates, rng.randrange(20)})
    if rng.random() < 0.5:
        block.count = max(0, block.count + len(block.gates) - before)


def bent_route(rng, block):
    """A point of another variable, on the other side, left out or there twice."""
    if block.routes:
        points = rng.choice(block.routes)
        k = rng.randrange(len(points)) if points else 0
        way = rng.randrange(3)
        if points and way < 2:
            v, side = points[k]
            points[k] = (max(0, v + rng.choice([-2, -1, 1, 2])), side) if way else (v, '-' if side == '+' else '+')
        else:
            bent_list(rng, points)


def bent_blocks(rng, blocks):
    way = rng.randrange(8)
    if way == 0 or not blocks:
        bent_list(rng, blocks)
        return
    block = rng.choice(blocks)
    if way == 1:
        block.count = max(0, block.count + rng.choice([-1, 1]))
    elif way in (2, 3):
        bent_gates(rng, block)
    elif way == 4:
        bent_list(rng, block.routes)
    else:
        bent_route(rng, block)


def bent_lines(rng, lines):
    """A line of a merged latch more or less, or with another latch, literal or sign; there is one."""
    k, way = rng.randrange(len(lines)), rng.randrange(5)
    v, lit = lines[k]
    if way == 0:
        bent_list(rng, lines)
    else:
        lines[k] = {1: (v, lit ^ 1), 2: (v, max(0, lit + rng.choice([-2, 2]))), 3: (v, rng.choice([0, 1])), 4: (max(0, v + rng.choice([-1, 1])), lit)}[way]


def bent(rng, certificates):
    """A certificate file with a thing or two changed: mostly in what it says, else in its bytes."""
    if rng.random() < 0.2:
        return damaged(rng, certificates)
    parts = read_certificates(certificates)
    for _ in range(rng.choice([1, 1, 1, 2])):
        part = rng.choice(parts)
        if part.listed and rng.random() < 0.5:
            bent_lines(rng, part.listed)
        else:
            bent_blocks(rng, part.blocks)
    if parts[0].listed is not None and rng.random() < 0.2:
        bent_list(rng, parts)
    return written(rng.choice(['greatest', 'smallest']), parts or [Part([], [])])

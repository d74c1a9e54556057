"""Waves, as a value change dump (docs/FORMAT.md)."""
from reference.simulation import value_of, values_of


def own_names(c):
    """The names of inputs, latches and literals of properties; a literal of a justice property has none of its own."""
    sizes = [('i', c.inputs), ('l', len(c.latches)), ('o', len(c.outputs)), ('b', len(c.bad)), ('c', len(c.constraints))]
    plain = [c.symbols[letter].get(k) or b'%s%d' % (letter.encode(), k) for letter, size in sizes for k in range(size)]
    justice = [b'j%d.%d' % (k, place) for k, lits in enumerate(c.justice) for place in range(len(lits))]
    return plain + justice + [c.symbols['f'].get(k) or b'f%d' % k for k in range(len(c.fairness))]


def spelt(name):
    """A name as a reference of a dump may be."""
    return ''.join(chr(byte) if 33 <= byte <= 126 and chr(byte) not in '$@' else '_' for byte in name)


def names(c):
    """The names of all waves: one that an earlier wave has too says its place."""
    found = []
    for place, name in enumerate(map(spelt, own_names(c))):
        found.append((name, f'{name}@{place}' if name in [earlier for earlier, _ in found] else name))
    return [name for _, name in found]


def marks(c, choice, rows):
    """What the waves of a sequence are at each step, and after the last one."""
    literals = [2 * var for var in range(1, c.first_gate())] + c.properties()
    found = [['01'[value_of(lit, values)] for lit in literals] for values in values_of(c, choice, rows)]
    return [*found, ['x'] * len(literals)]


def dump(c, sequences):
    """The dump of a circuit's waves under a stimulus."""
    lines, named = ['$timescale 1 ns $end'], names(c)
    for s in range(len(sequences)):
        wires = [f'$var wire 1 v{s}.{place} {name} $end' for place, name in enumerate(named)]
        lines += [f'$scope module sequence{s} $end', *wires, '$upscope $end']
    lines.append('$enddefinitions $end')
    waves = [marks(c, choice, rows) for choice, rows in sequences]
    first = [f'{mark}v{s}.{place}' for s, rows in enumerate(waves) for place, mark in enumerate(rows[0])]
    lines += ['#0', '$dumpvars', *first, '$end']
    for time in range(1, max(map(len, waves), default=1)):
        lines.append(f'#{time}')
        for s, rows in enumerate(waves):
            pairs = zip(rows[time - 1], rows[time]) if time < len(rows) else ()
            lines += [f'{now}v{s}.{place}' for place, (before, now) in enumerate(pairs) if before != now]
    return ''.join(f'{line}\n' for line in lines)

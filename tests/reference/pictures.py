"""Pictures of circuits, as text in DOT (docs/FORMAT.md)."""
from reference.circuit import FREE
from reference.retiming import border, passable

MOST_NODES = 2000


def of_kinds(c):
    """The properties of each kind as lists of literals, by the kind's letter."""
    singles = {'o': c.outputs, 'b': c.bad, 'c': c.constraints, 'f': c.fairness}
    lists = {letter: [[lit] for lit in lits] for letter, lits in singles.items()}
    return {letter: {**lists, 'j': c.justice}[letter] for letter in 'obcjf'}


def nodes(c):
    return c.end() + sum(map(len, of_kinds(c).values()))


def label(name):
    """A name in quotes: what DOT would take for something else is written so that it is shown."""
    try:
        name.decode()
        is_utf8 = True
    except UnicodeDecodeError:
        is_utf8 = False
    shown = b''
    for byte in name:
        if bytes([byte]) in (b'"', b'\\'):
            shown += b'\\' + bytes([byte])
        elif byte == ord('&'):
            shown += b'&amp;'
        elif 32 <= byte < 127 or (byte >= 128 and is_utf8):
            shown += bytes([byte])
        else:
            shown += b'\\\\x%02X' % byte
    return shown


def edges(c):
    """Each variable that reads literals, with these."""
    yield from ((c.first_latch() + k, [next_lit]) for k, (next_lit, _) in enumerate(c.latches))
    yield from ((c.first_gate() + k, fan_ins) for k, fan_ins in enumerate(c.gates))


def named(c, name):
    """The variables with the name, and those that properties with it read; none is no variable."""
    found = {1 + k for k, it in c.symbols['i'].items() if it == name} | {c.first_latch() + k for k, it in c.symbols['l'].items() if it == name}
    for letter, properties in of_kinds(c).items():
        found |= {lit // 2 for k, it in c.symbols[letter].items() if it == name for lit in properties[k]}
    return found


def has_name(c, name):
    return any(name in names.values() for names in c.symbols.values())


def called(c, word):
    """The variables that a picture calls so, or that the property reads which it calls so; None where it calls nothing so."""
    if word.isdigit():
        lit = int(word)
        return {lit // 2} if lit % 2 == 0 and c.first_gate() <= lit // 2 < c.end() else None
    letter, position = word[:1].decode('latin-1'), word[1:]
    if not position.isdigit():
        return None
    k = int(position)
    if letter == 'i':
        return {1 + k} if k < c.inputs else None
    if letter == 'l':
        return {c.first_latch() + k} if k < len(c.latches) else None
    properties = of_kinds(c).get(letter, [])
    return {lit // 2 for lit in properties[k]} if k < len(properties) else None


def middle(c, name):
    """What a neighbourhood is around: what has the name, else what a picture calls so; None where there is nothing."""
    return named(c, name) if has_name(c, name) else called(c, name)


def neighbourhood(c, near, depth):
    for _ in range(depth):
        ends = [(lit // 2, reader) for reader, lits in edges(c) for lit in lits]
        near = near | {a for a, b in ends if b in near} | {b for a, b in ends if a in near and a != 0}
    return near


def edge_lines(lits, to, drawn):
    return [f'{lit // 2 * 2} -> {to}{" [arrowhead=odot]" * (lit & 1)}{" [style=dashed]" * (lit // 2 not in drawn)};' for lit in lits]


LEGEND = ['labeljust=l;', 'fontsize=10;', 'label="' + ''.join(line + r'\l' for line in (
    "dot: negated; dashed arrow: from a literal that isn't drawn", 'box: latch and its reset; dashed box: without one; double box: held',
    'circle: gate, by its literal; gray: no latch can move over it', 'blue: latches move over it next; bold: holds a latch afterwards',
    'red: what was asked for, or what that reads',
)) + '";']


def picture(c, held, members, drawn, centre=()):
    """The lines of a picture; `members` is the set that is shown, or None, and `centre` what is in the middle."""
    bold = set() if members is None else set(border(c, members, held))
    passing, lines = set(passable(c, held)), ['digraph circuit {', 'rankdir=LR;', 'node [shape=plaintext];', *LEGEND]
    lines += [f'{2 * v} [shape=cds,label=i{v - 1}];' for v in range(1, 1 + c.inputs) if v in drawn]
    for v, lits in edges(c):
        if v not in drawn:
            continue
        if c.latch(v):
            k = v - c.first_latch()
            reset = {0: ',xlabel=0', 1: ',xlabel=1', FREE: ',style=dashed'}[c.latch(v)[1]]
            look = f'shape=box,label=l{k}{reset}{",peripheries=2" if k in held else ""}'
        else:
            gray = '' if v in passing else ',color=gray,fontcolor=gray'
            look = f'shape=circle{gray}{",style=filled,fillcolor=lightblue" if v in (members or ()) else ""}'
        lines += [f'{2 * v} [{look}{",penwidth=3" if v in bold else ""}];', *edge_lines(lits, 2 * v, drawn)]
    names = [(2 * (1 + k), name) for k, name in sorted(c.symbols['i'].items()) if 1 + k in drawn]
    names += [(2 * (c.first_latch() + k), name) for k, name in sorted(c.symbols['l'].items()) if c.first_latch() + k in drawn]
    for letter, properties in of_kinds(c).items():
        for k, lits in enumerate(properties):
            if all(lit // 2 in drawn for lit in lits):
                lines += [f'{letter}{k} [shape=note];', *edge_lines(lits, f'{letter}{k}', drawn)]
                names += [(f'{letter}{k}', name) for name in [c.symbols[letter].get(k)] if name is not None]
    lines += [f'{2 * v} [color=red];' for v in sorted(centre)]
    text = ''.join(line + '\n' for line in lines).encode()
    return text + b''.join(b'%s [label="%s"];\n' % (str(node).encode(), label(name)) for node, name in names) + b'}\n'

"""Witnesses of AIGER's tools: read, simulated, and carried back from a retimed circuit to the one that it was made of."""
import dataclasses
import re

from reference.circuit import FREE
from reference.retiming import retimed
from reference.reading import Fault
from reference.simulation import steps


def statements(data):
    """The lines that are no comments, with their offsets."""
    lines, offset, found = data.split(b'\n'), 0, []
    if lines[-1] == b'':
        lines.pop()
    for line in lines:
        if line[:1] != b'c':
            found.append((offset, line))
        offset += len(line) + 1
    return found


def bad_places(c):
    """The places of the bad states in a trace; of the outputs, where there are none."""
    return range(len(c.outputs), len(c.outputs) + len(c.bad)) if c.bad else range(len(c.outputs))


def property_of(word, c, offset):
    if not re.fullmatch(rb'[bj][0-9]+', word):
        raise Fault('BadLine', offset)
    if int(word[1:]) >= (len(bad_places(c)) if word[:1] == b'b' else len(c.justice)):
        raise Fault('NoSuchProperty', offset)
    return chr(word[0]), int(word[1:])


def row_of(line, width, offset):
    if not re.fullmatch(rb'[01x]*', line):
        raise Fault('BadLine', offset)
    if len(line) != width:
        raise Fault('Width', offset)
    return line.decode()


def read_witness(data, c):
    """The properties, the values of the latches, and those of the inputs step by step."""
    lines = iter(statements(data))

    def following():
        try:
            return next(lines)
        except StopIteration:
            raise Fault('Truncated', len(data)) from None

    offset, line = following()
    if line != b'1':
        raise Fault('BadHeader', offset)
    offset, line = following()
    properties = [property_of(word, c, offset) for word in line.split(b' ')]
    offset, line = following()
    latches, rows = row_of(line, len(c.latches), offset), []
    offset, line = following()
    while line != b'.':
        rows.append(row_of(line, c.inputs, offset))
        offset, line = following()
    for offset, _ in lines:
        raise Fault('Trailing', offset)
    return properties, latches, rows


def first_step(c, latches, rows, number):
    """The first step at which a bad state is 1, where each constraint is 1 up to then, with 0 for each x."""
    choice = [digit == '1' for digit, (_, reset) in zip(latches, c.latches) if reset is FREE]
    constraints = range(len(c.outputs) + len(c.bad), len(c.outputs) + len(c.bad) + len(c.constraints))
    for step, row in enumerate(steps(c, choice, [[digit == '1' for digit in row] for row in rows])):
        if not all(row[place] for place in constraints):
            return None
        if row[bad_places(c)[number]]:
            return step
    return None


def kept_free(c, d, merge):
    """The places of d's free latches among those of c: all, or those that are left before the first frame, or those that all frames leave.
    None where none of these are as many."""
    if c.free_latches() == d.free_latches():
        return list(range(c.free_latches()))
    free = [k for k, (_, reset) in enumerate(c.latches) if reset is FREE]
    numbered = dataclasses.replace(c, symbols={**c.symbols, 'l': {k: k for k in range(len(c.latches))}})
    for most in (0, None):
        left, _ = retimed(numbered, most, merge=merge)
        kept = [free.index(left.symbols['l'][k]) for k, (_, reset) in enumerate(left.latches) if reset is FREE]
        if len(kept) == d.free_latches():
            return kept
    return None


def carried(c, d, kept, latches):
    """The values of c's latches that are simulated: 0 for each x, and where d has none."""
    free = [digit.replace('x', '0') for digit, (_, reset) in zip(latches, d.latches) if reset is FREE]
    values = iter(free[kept.index(place)] if place in kept else '0' for place in range(c.free_latches()))
    return ''.join(next(values) if reset is FREE else str(reset) for _, reset in c.latches)


def carried_text(c, d, data, merge):
    """What is printed, and the exit status."""
    properties, latches, rows = read_witness(data, d)
    counts = [(e.inputs, len(bad_places(e)), len(e.constraints), len(e.justice)) for e in (c, d)]
    kept = kept_free(c, d, merge) if counts[0] == counts[1] else None
    if kept is None:
        return 'shapes differ\n', 1
    back, rows, comments = carried(c, d, kept, latches), [row.replace('x', '0') for row in rows], []
    for kind, number in properties:
        if kind == 'j':
            return f"j{number} isn't checked\n", 5
        step = first_step(d, latches, rows, number)
        if step is None:
            return f"b{number} doesn't hold in OUT\n", 5
        if first_step(c, back, rows, number) != step:
            return f"b{number} doesn't hold in IN at the same step\n", 5
        comments.append(f'c b{number} holds at step {step}')
    names = ' '.join(f'{kind}{number}' for kind, number in properties)
    return '\n'.join(['1', names, back, *rows, '.', *comments]) + '\n', 0

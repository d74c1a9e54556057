"""Certificates: made from a maximum flow, written, read, and judged in the words of docs/FORMAT.md and docs/CERTIFICATES.md."""
import dataclasses
import re

from reference.cleaning import cleaned
from reference.merging import merged, misread, not_shown, start_of
from reference.reading import Fault, number
from reference.retiming import arcs_of, border, held_latches, maximum_flow, moved, passable, read_outside, rounds_of

MOST, MOST_LITERAL = 2**28 - 1, 2**29 - 1
HEADERS = {b'fretime-cert 1': 1, b'fretime-cert 2': 2, b'fretime-cert 3': 3}
CHOICES = {b'choice greatest': 'greatest', b'choice smallest': 'smallest'}


@dataclasses.dataclass
class Block:
    """What is said of one circuit: the size of the border, the gates of the set, and routes, each a list of points: a variable,
    and '+' after it or '-' before it."""
    count: int
    gates: list
    routes: list


@dataclasses.dataclass
class Part:
    """What is said of a round: the lines of merged latches, None where none are listed, and a block for each frame."""
    listed: list
    blocks: list


def routes_of(c, held, bound):
    """The units of a maximum flow, each followed from the source to the sink along arcs that it uses up."""
    residual = maximum_flow(c, held, bound)[1]
    units = {tail: {head: room - residual[tail][head] for head, room in heads.items()} for tail, heads in arcs_of(c, held, bound).items()}
    routes = []
    for first in [head for head, unit in units['source'].items() if unit]:
        points = [first]
        while points[-1] != 'sink':
            heads = units[points[-1]]
            points.append(next(head for head, unit in heads.items() if unit))
            heads[points[-1]] -= 1
        routes.append(points[:-1])
    return routes


def certificates(c, most, names, smallest, merge, bound):
    """The parts of the file, one for each round: the lines of merged latches, None where none were to be merged; a block for each frame, and
    one for the round's last circuit where the limit of frames didn't end the run."""
    return [Part(one.listed, [
        Block(frame.count, sorted(frame.members), routes_of(frame.circuit, frame.held, frame.bound)) for frame in one.frames])
        for one in rounds_of(c, most, names, smallest, merge, bound)]


def written_part(part):
    lines = [] if part.listed is None else [f'merged {len(part.listed)}', *(f'm {v} {lit}' for v, lit in part.listed)]
    for block in part.blocks:
        lines.append(f'frame {block.count} {len(block.gates)} {len(block.routes)}')
        lines += [f'g {v}' for v in block.gates]
        lines += [' '.join(['r', *(f'{v}{side}' for v, side in points)]) for points in block.routes]
    return lines


def written(choice, parts):
    lines = [f'fretime-cert {2 if parts[0].listed is None else 3}', f'choice {choice}']
    for part in parts:
        lines += written_part(part)
    return ''.join(f'{line}\n' for line in lines).encode()


class Lines:
    """The lines of a file, each with its offset."""

    def __init__(self, data):
        self.lines, self.length, self.offset = data.split(b'\n'), len(data), 0
        if self.lines[-1] == b'':
            self.lines.pop()

    def take(self):
        """The next line, and its offset."""
        if not self.lines:
            raise Fault('Truncated', self.length)
        line, offset = self.lines.pop(0), self.offset
        self.offset += len(line) + 1
        return line, offset

    def numbers(self, form, most=(MOST,)):
        """The numbers of the next line, which has to have a form, and the most that each of them may be; the last holds for the others too."""
        line, offset = self.take()
        if not re.fullmatch(form, line):
            raise Fault('BadLine', offset)
        found = [number(digits) for digits in re.findall(rb'\d+', line)]
        if any(number > most[min(k, len(most) - 1)] for k, number in enumerate(found)):
            raise Fault('TooLarge', offset)
        return found, line


def read_merged(lines):
    """The lines of merged latches that a part of the third version begins with."""
    (count,), _ = lines.numbers(rb'merged \d+')
    return [tuple(lines.numbers(rb'm \d+ \d+', (MOST, MOST_LITERAL))[0]) for _ in range(count)]


def read_block(lines):
    (count, gates, routes), _ = lines.numbers(rb'frame \d+ \d+ \d+')
    members = [lines.numbers(rb'g \d+')[0][0] for _ in range(gates)]
    read = [lines.numbers(rb'r( \d+[+-])+') for _ in range(routes)]
    return Block(count, members, [list(zip(found, re.findall('[+-]', line.decode()))) for found, line in read])


def read_certificates(data):
    """The parts of a file; there is one where the version lists no merged latches."""
    lines = Lines(data)
    version = HEADERS.get(lines.take()[0]) if lines.lines else None
    if version is None:
        raise Fault('BadHeader', 0)
    if version > 1:
        line, offset = lines.take()
        if line not in CHOICES:
            raise Fault('BadLine', offset)
    parts = [Part(read_merged(lines) if version > 2 else None, [])]
    while lines.lines:
        if version > 2 and lines.lines[0].startswith(b'merged '):
            parts.append(Part(read_merged(lines), []))
        else:
            parts[-1].blocks.append(read_block(lines))
    return parts


def is_route(c, held, inside, points):
    if points[0][1] != '+' or not c.is_known(points[0][0]):
        return False
    for (v, side), (w, next_side) in zip(points, points[1:]):
        over = side == '-' and next_side == '+' and v == w and v in inside
        into = side == '+' and next_side == '-' and w in inside and v in {lit // 2 for lit in c.gate(w)}
        back = side == '-' and next_side == '-' and v in inside and c.gate(w) and w in {lit // 2 for lit in c.gate(v)}
        if not (over or into or back):
            return False
    return points[-1][1] == '+' and points[-1][0] in read_outside(c, inside, held)


def verdict(c, held, block, bound):
    """The first objection to a block, or Yes."""
    gates, inside = block.gates, set(passable(c, held, bound))
    rises = all(v < w for v, w in zip(gates, gates[1:])) and inside.issuperset(gates)
    if not rises or not all(c.latch(lit // 2) or lit // 2 in gates for v in gates for lit in c.gate(v)):
        return 'NotClosed'
    if not all(is_route(c, held, inside, points) for points in block.routes):
        return 'BadRoute'
    after = [v for points in block.routes for v, side in points if side == '+']
    if len(set(after)) < len(after):
        return 'UsedTwice'
    return 'Yes' if {block.count} == {len(border(c, set(gates), held)), len(block.routes)} else 'CountDiffers'


def objection(c, held, block, bound):
    """Why a block isn't confirmed, or Yes: one that passes over all passable gates, or over those within the bound, and whose move, where
    it saves latches, makes no path longer than the bound."""
    said = verdict(c, held, block, None)
    if bound is None or said != 'Yes' and verdict(c, held, block, bound) != 'Yes':
        return said
    if block.count < c.known_latches() and moved(c, set(block.gates), held)[0].levels() > bound:
        return 'TooLong'
    return 'Yes'


def objection_to_merged(c, held, listed):
    """Why lines of merged latches don't hold, or None."""
    wrong = misread(c, held, listed)
    if wrong is not None:
        return f'Misread {wrong}'
    wrong = not_shown(c, listed)
    return None if wrong is None else f'NotShown {wrong}'


class Refused(Exception):
    """A part is refused: the lines up to what speaks against it."""


def audit_of_blocks(c, held, blocks, number, bound):
    """The lines of the blocks, numbered from a number on; that of their end; and the circuit that they end in with its held latches."""
    lines, known = [], None
    for k, block in enumerate(blocks):
        if known is not None and blocks[k - 1].count >= known:
            raise Refused([*lines, 'blocks follow the end'])
        if k:
            c, held = cleaned(*moved(c, set(blocks[k - 1].gates), held))
        known, said = c.known_latches(), objection(c, held, block, bound)
        if said != 'Yes':
            raise Refused([*lines, f'block {number + k}: no, {said}'])
        lines.append(f'block {number + k}: yes, count {block.count}')
    if blocks and blocks[-1].count == known:
        return lines, ['end certified'], c, held
    if blocks:
        return lines, ['end open'], *cleaned(*moved(c, set(blocks[-1].gates), held))
    return lines, [], c, held


def start_of_part(c, held, part, merge):
    """The line of merged latches, where the part lists them; and the circuit that its blocks begin with, with its held latches."""
    if part.listed is None:
        return [], *start_of(c, held, merge)
    c, held = cleaned(c, held)
    said = objection_to_merged(c, held, part.listed)
    if said:
        raise Refused([f'merged: no, {said}'])
    return [f'merged: yes, {len(part.listed)} latches'], *cleaned(merged(c, held, part.listed), held)


def audit(c, names, parts, merge, bound):
    """The printed lines, the status, and the circuit that the parts end in, None where something speaks against one. Each part is about the
    circuit that the part before it ends in; how that one ends isn't printed."""
    held, lines, end, number = held_latches(c, names), [], [], 0
    try:
        for part in parts:
            said, c, held = start_of_part(c, held, part, merge)
            lines += said
            said, end, c, held = audit_of_blocks(c, held, part.blocks, number, bound)
            lines, number = lines + said, number + len(said)
    except Refused as refused:
        return lines + refused.args[0], 5, None
    return lines + end, 0, c


def first_difference(one, other):
    """The offset of the first byte that isn't the same in both, or that one lacks; None where they are one."""
    places = range(max(len(one), len(other)))
    return next((k for k in places if one[k:k + 1] != other[k:k + 1]), None)

#!/usr/bin/env python3
"""Checks a file of certificates for a circuit, by docs/CERTIFICATES.md alone: it shares no code with the program, nor with the
reference model.

usage: tests/checker.py IN CERT [--keep NAME]... [--keep-latch PLACE]... [--merge] [--levels N | --no-longer]

Prints a line of the merged latches, if CERT lists them, a line for each block, then how the blocks end. If latches were merged again where
blocks end, CERT has parts, one after another: it prints the lines of each, and how the last one ends. The status is 0 where all merged
latches always have the value of what they read as, and each block shows that its set is least; 5 where one doesn't or blocks follow the
end, 1 where a file is refused, 3 where one can't be read. Under a bound on levels a set may be least among those whose gates arrive
within it, and no move makes a path longer than that, or than the longest one of IN. The word `verify` may stand before IN, as in the cases.

Which latches were merged is never guessed here, so --merge is refused where CERT lists none. That they always agree is shown by cases; a
question of many cases goes to CaDiCaL, MiniSat or PicoSAT, where one is installed.
"""
import argparse
import heapq
import os
import re
import shutil
import subprocess
import sys
import tempfile
from dataclasses import dataclass, replace

GREATEST, GREATEST_LITERAL = 2**28 - 1, 2**29 - 1
# SAT solvers that may be installed; each reads a DIMACS file, and ends with status 10 where it has a solution and 20 where it has none.
SOLVERS = ['cadical -q', 'minisat -verb=0', 'picosat -n']
# how many cases of a question are made before a solver is asked
MOST_CASES = 1000


class Refused(Exception):
    """A file isn't what it has to be: the fault."""


# Circuits. A literal is twice its variable, one more where it is negated.

@dataclass(frozen=True)
class Latch:
    """Its next literal, its reset (None where it is free), and whether it is held."""
    next_lit: int
    reset: int
    held: bool = False


@dataclass
class Circuit:
    """Variables are 1 to `inputs`, then those of the latches, then those of the gates (two fan-in literals each)."""
    inputs: int
    latches: dict
    gates: dict
    properties: list

    def known(self):
        return {v for v, latch in self.latches.items() if latch.reset is not None}

    def held(self):
        return {v for v, latch in self.latches.items() if latch.held}

    def passable(self, bound=None):
        """The gates that rest on known latches alone, of which none is held; under a bound, those that arrive within it."""
        passed = self.known() - self.held()
        arrivals = None if bound is None else self.arrivals()
        for v, fan_ins in self.gates.items():
            if all(lit // 2 in passed for lit in fan_ins) and (bound is None or arrivals[v] <= bound):
                passed.add(v)
        return passed & self.gates.keys()

    def heights(self, start):
        """How many gates stand one above the other up to each variable; what is no gate is as high as it starts."""
        found = dict(start)
        for v, (a, b) in self.gates.items():
            found[v] = 1 + max(found.get(a // 2, 0), found.get(b // 2, 0))
        return found

    def levels(self):
        """The number of gates on the longest path to a latch or a property."""
        heights = self.heights({})
        read = [latch.next_lit for latch in self.latches.values()] + self.properties
        return max((heights.get(lit // 2, 0) for lit in read), default=0)

    def arrivals(self):
        """How high the paths to each variable are, counted from behind the latches' next literals."""
        heights = self.heights({})
        return self.heights({v: heights.get(latch.next_lit // 2, 0) for v, latch in self.latches.items()})

    def read_outside(self, members):
        """The variables that a gate outside a set reads, a next literal, or a property; and what is held."""
        read = self.held() | {latch.next_lit // 2 for latch in self.latches.values()} | {lit // 2 for lit in self.properties}
        return read | {lit // 2 for v, fan_ins in self.gates.items() if v not in members for lit in fan_ins}

    def border(self, members):
        """The known latches and members that are read outside: each needs a latch after the move."""
        return (self.known() | members) & self.read_outside(members)

    def renumbered(self, order):
        """With these latches and gates alone, in this order."""
        numbers = {v: v for v in range(1 + self.inputs)} | {v: k for k, v in enumerate(order, 1 + self.inputs)}

        def new(lit):
            return 2 * numbers[lit // 2] | lit & 1

        latches = {numbers[v]: self.latches[v] for v in order if v in self.latches}
        latches = {v: replace(latch, next_lit=new(latch.next_lit)) for v, latch in latches.items()}
        gates = {numbers[v]: tuple(map(new, self.gates[v])) for v in order if v in self.gates}
        return Circuit(self.inputs, latches, gates, [new(lit) for lit in self.properties])


# From the circuit of one block to that of the next.

def cleaned(c):
    """After as many passes as remove a latch or a gate."""
    while True:
        d = cleaned_once(c)
        if len(d.latches) == len(c.latches) and len(d.gates) == len(c.gates):
            return d
        c = d


def cleaned_once(c):
    """What is constant, or equal to what stands before it, is replaced; then what nothing rests on is dropped."""
    stand_in, latches_alike = {}, {}
    for v in sorted(c.known()):
        latch = c.latches[v]
        if not latch.held and latch.next_lit in (2 * v, latch.reset):
            stand_in[v] = latch.reset
        else:
            first = latches_alike.setdefault((latch.next_lit, latch.reset), v)
            stand_in[v] = 2 * (v if latch.held else first)
    return reached(replaced(c, stand_in))


def replaced(c, stand_in):
    """The circuit where these literals stand for latches, and gates that are constant or equal to what stands before them are replaced
    too; what stands for the gates is put into `stand_in`."""
    gates_alike = {}

    def now(lit):
        return stand_in.get(lit // 2, lit & ~1) ^ lit & 1

    for v, fan_ins in c.gates.items():
        small, large = sorted(map(now, fan_ins))
        if small == 0 or small ^ 1 == large:
            stand_in[v] = 0
        elif small == 1 or small == large:
            stand_in[v] = large
        else:
            stand_in[v] = 2 * gates_alike.setdefault((small, large), v)
    latches = {v: replace(latch, next_lit=now(latch.next_lit)) for v, latch in c.latches.items()}
    gates = {v: fan_ins for fan_ins, v in gates_alike.items()}
    return Circuit(c.inputs, latches, gates, [now(lit) for lit in c.properties])


def reached(c):
    """What properties and held latches rest on."""
    waiting, found = [*(lit // 2 for lit in c.properties), *c.held()], set()
    while waiting:
        v = waiting.pop()
        if v > c.inputs and v not in found:
            found.add(v)
            waiting += [lit // 2 for lit in c.gates.get(v) or (c.latches[v].next_lit,)]
    return c.renumbered([v for v in [*c.latches, *c.gates] if v in found])


def moved(c, members):
    """Latches moved over a closed set. A member that needs a latch is that latch now; its gate, and those of all members, get
    variables past the others and read what comes before the latches."""
    border = c.border(members)
    copies = {v: k for k, v in enumerate(sorted(members), 1 + c.inputs + len(c.latches) + len(c.gates))}
    values = {v: latch.reset == 1 for v, latch in c.latches.items()}

    def before_latch(lit):
        return (2 * copies[lit // 2] if lit // 2 in members else c.latches[lit // 2].next_lit) ^ lit & 1

    latches = {v: latch for v, latch in c.latches.items() if v in border or latch.reset is None}
    gates = {v: fan_ins for v, fan_ins in c.gates.items() if v not in members}
    for v in sorted(members):
        values[v] = all(values[lit // 2] != lit & 1 for lit in c.gates[v])
        gates[copies[v]] = tuple(map(before_latch, c.gates[v]))
        if v in border:
            latches[v] = Latch(2 * copies[v], int(values[v]))
    return Circuit(c.inputs, latches, gates, c.properties).renumbered([*latches, *gates])


# What the merged latches show.

class Gates:
    """The gates of a circuit, asked in which cases literals are 1: inputs and latches are any."""

    def __init__(self, c):
        self.gates, self.readers, self.ones, self.trail = c.gates, {}, {1}, []
        self.solver = next((words for words in SOLVERS if shutil.which(words.split()[0])), None)
        for v, fan_ins in c.gates.items():
            for lit in fan_ins:
                self.readers.setdefault(lit // 2, []).append(v)

    def are_equal(self, a, b):
        return a == b or not self.can_be([a, b ^ 1]) and not self.can_be([a ^ 1, b])

    def can_be(self, lits):
        """Whether all of these literals are 1 in a case. A gate that is 0 without a fan-in known to be 0 makes two cases."""
        self.ones, self.trail, others, cases = {1}, [], [], 0
        is_possible = all(map(self.assume, lits))
        while is_possible or others:
            if not is_possible:
                length, lit = others.pop()
                self.ones.difference_update(self.trail[length:])
                del self.trail[length:]
                is_possible = self.assume(lit)
                continue
            first = next((self.gates[lit // 2][0] for lit in self.trail if self.is_open(lit)), None)
            cases += 1
            if first is None:
                return True
            if cases > MOST_CASES and self.solver:
                return self.is_solved(lits)
            others.append((len(self.trail), first))
            is_possible = self.assume(first ^ 1)
        return False

    def is_open(self, lit):
        """Whether it says that a gate is 0, and neither fan-in is known."""
        return bool(lit & 1) and lit // 2 in self.gates and not any({one, one ^ 1} & self.ones for one in self.gates[lit // 2])

    def assume(self, lit):
        """Takes a literal as 1, and whatever gates make of that; False where it can't be."""
        waiting = [lit]
        while waiting:
            lit = waiting.pop()
            if lit ^ 1 in self.ones:
                return False
            if lit not in self.ones:
                self.ones.add(lit)
                self.trail.append(lit)
                waiting += [more for v in (lit // 2, *self.readers.get(lit // 2, ())) if v in self.gates for more in self.follows(v)]
        return True

    def follows(self, v):
        """The literals that are 1 by what is known of a gate."""
        (a, b), out = self.gates[v], 2 * v
        if out in self.ones:
            return [a, b]
        if {a ^ 1, b ^ 1} & self.ones:
            return [out ^ 1]
        if {a, b} <= self.ones:
            return [out]
        return [lit ^ 1 for lit, other in ((a, b), (b, a)) if out ^ 1 in self.ones and other in self.ones]

    def is_solved(self, lits):
        """Whether the solver finds a case in which all of these literals are 1."""
        waiting, numbers = [lit // 2 for lit in lits], {0: 1}
        while waiting:
            v = waiting.pop()
            if v not in numbers:
                numbers[v] = 1 + len(numbers)
                waiting += [lit // 2 for lit in self.gates.get(v, ())]

        def sign(lit):
            return -numbers[lit // 2] if lit & 1 else numbers[lit // 2]

        clauses = [[sign(lit)] for lit in (1, *lits)]
        for v in self.gates.keys() & numbers.keys():
            a, b = self.gates[v]
            clauses += [[sign(2 * v + 1), sign(a)], [sign(2 * v + 1), sign(b)], [sign(2 * v), sign(a ^ 1), sign(b ^ 1)]]
        with tempfile.NamedTemporaryFile('w', suffix='.cnf') as file:
            file.write(f'p cnf {len(numbers)} {len(clauses)}\n' + ''.join(' '.join(map(str, clause)) + ' 0\n' for clause in clauses))
            file.flush()
            status = subprocess.run([*self.solver.split(), file.name], capture_output=True, check=False).returncode
        if status not in (10, 20):
            raise Refused(f'{self.solver}: status {status}')
        return status == 10


def misread(c, lines):
    """The latch at which the lines of merged latches aren't a reading, or None: first by their order, then by what each reads as."""
    last, reads = c.inputs, dict(lines)
    for v, lit in lines:
        if v not in c.latches or v <= last or lit == 2 * v:
            return v
        last = v
    return next((v for v, lit in lines if not may_read(c, reads, v, lit)), None)


def may_read(c, reads, v, lit):
    """Whether a latch may read as a literal: the constant of its reset, or an earlier latch that reads as itself, negated where the resets differ.
    Both are known and not held."""
    may_merge = c.known() - c.held()
    if v not in may_merge or lit < 2:
        return v in may_merge and lit == c.latches[v].reset
    first = lit // 2
    return first < v and first in may_merge - reads.keys() and lit & 1 == c.latches[v].reset ^ c.latches[first].reset


def merged_by(c, lines):
    """What there is to print of the merged latches, and the circuit where they read so; None in its place where something speaks against it."""
    wrong = misread(c, lines)
    if wrong is not None:
        return f'merged: no, Misread {wrong}', None
    now = replaced(c, dict(lines))
    gates, told = Gates(now), {v: latch.next_lit ^ (latch.reset or 0) for v, latch in now.latches.items()}
    for v, lit in lines:
        if not gates.are_equal(told[v], told[lit // 2] if lit > 1 else 0):
            return f'merged: no, NotShown {v}', None
    return f'merged: yes, {len(lines)} latches', now


# What a block shows.

def objection(c, block, bound=None):
    """Why a block doesn't show that its gates are a least set with its count, or None; under a bound, least among sets within it."""
    members, known, passable = set(block.gates), c.known(), c.passable(bound)
    within = members | c.latches.keys()
    fan_ins = {v: {lit // 2 for lit in lits} for v, lits in c.gates.items()}
    outside = c.read_outside(passable)

    def is_step(here, there):
        """A point is a variable and its side: '-' is before a gate, '+' after a gate or a latch."""
        (v, side), (w, next_side) = here, there
        if side == '-':
            return v in passable and (v == w if next_side == '+' else w in c.gates and w in fan_ins[v])
        return next_side == '-' and w in passable and v in fan_ins[w]

    def is_route(points):
        (first, side), (last, last_side) = points[0], points[-1]
        ends = side == last_side == '+' and first in known and last in outside
        return ends and all(map(is_step, points, points[1:]))

    after = [v for points in block.routes for v, side in points if side == '+']
    if block.gates != sorted(members) or not all(v in passable and fan_ins[v] <= within for v in members):
        return 'NotClosed'
    if not all(map(is_route, block.routes)):
        return 'BadRoute'
    if len(after) != len(set(after)):
        return 'UsedTwice'
    return None if block.count == len(c.border(members)) == len(block.routes) else 'CountDiffers'


class NotShown(Exception):
    """A merged latch isn't shown, or a block, or blocks follow the end: the line that says so."""


def verify_blocks(c, blocks, first, bound):
    """The lines of the blocks, of which the first has a number; that of their end; and the circuit that they end in."""
    lines, end = [], []
    for k, block in enumerate(blocks):
        wrong = objection(c, block)
        if wrong and bound is not None and not objection(c, block, bound):
            wrong = None
        saves = block.count < len(c.known())
        after = moved(c, set(block.gates)) if saves and not wrong else c
        if after is not c and bound is not None and after.levels() > bound:
            wrong = 'TooLong'
        if wrong:
            raise NotShown(*lines, f'block {first + k}: no, {wrong}')
        lines.append(f'block {first + k}: yes, count {block.count}')
        end = ['end open' if saves else 'end certified']
        if not saves and block is not blocks[-1]:
            raise NotShown(*lines, 'blocks follow the end')
        c = cleaned(after)
    return lines, end, c


def verify(c, parts, bound):
    """What there is to print, and the status. Each part is about the circuit that the one before it ends in; only the last end is printed."""
    lines, end, number, c = [], [], 0, cleaned(c)
    try:
        for part in parts:
            if part.merged is not None:
                line, c = merged_by(c, part.merged)
                if c is None:
                    raise NotShown(line)
                lines.append(line)
                c = cleaned(c)
            said, end, c = verify_blocks(c, part.blocks, number, bound)
            lines, number = lines + said, number + len(said)
    except NotShown as fault:
        return [*lines, *fault.args], 5
    return lines + end, 0


# The two files.

class Text:
    """The bytes of a file, from `at` on; `begun` is where the last line began."""

    def __init__(self, data):
        self.data, self.at, self.begun = data, 0, 0

    def has_more(self):
        return self.at < len(self.data)

    def line(self):
        if not self.has_more():
            raise Refused(f'Truncated at {self.at}')
        end = self.data.find(b'\n', self.at)
        end = len(self.data) if end < 0 else end
        line, self.begun, self.at = self.data[self.at : end], self.at, min(end + 1, len(self.data))
        return line

    def numbers(self):
        return [number(word) for word in self.line().split(b' ')]

    def number(self):
        return self.numbers()[0]

    def delta(self):
        """Groups of seven bits, the lowest first; all but the last have the eighth bit."""
        value, shift = 0, 0
        while self.data[self.at] > 127:
            value, shift, self.at = value | (self.data[self.at] & 127) << shift, shift + 7, self.at + 1
        self.at += 1
        return value | self.data[self.at - 1] << shift


def number(digits):
    """What digits spell, however many zeros begin it."""
    if not digits.isdigit():
        raise ValueError('no number')
    return int(digits.lstrip(b'0') or b'0')


def read_circuit(data):
    """The circuit of an AIGER file, of which no latch is held, and the names of its latches, by variable."""
    text = Text(data)
    letters, *counts = text.line().split(b' ')
    is_ascii = {b'aag': True, b'aig': False}[letters]
    _, inputs, latches, outputs, gates, bad, constraints, justice, fairness = map(number, counts + [b'0'] * (9 - len(counts)))
    first_gate = 2 * (1 + inputs + latches)
    current = [text.number() for _ in range(inputs)] if is_ascii else list(range(2, 2 + 2 * inputs, 2))
    rows = []
    for lit in range(2 + 2 * inputs, first_gate, 2):
        lit, next_lit, *reset = text.numbers() if is_ascii else [lit, *text.numbers()]
        current.append(lit)
        rows.append((next_lit, None if reset == [lit] else sum(reset)))
    lits = [text.number() for _ in range(outputs + bad + constraints)]
    lits += [text.number() for _ in range(sum([text.number() for _ in range(justice)]) + fairness)]
    listed = range(first_gate, first_gate + 2 * gates, 2)
    triples = in_order([text.numbers() for _ in listed]) if is_ascii else [binary_gate(text, lhs) for lhs in listed]
    variables = {0: 0} | {lit: v for v, lit in enumerate(current + [lhs for lhs, _, _ in triples], 1)}

    def new(lit):
        return 2 * variables[lit & ~1] | lit & 1

    latches = {1 + inputs + k: Latch(new(lit), reset) for k, (lit, reset) in enumerate(rows)}
    gates = {first_gate // 2 + k: (new(a), new(b)) for k, (_, a, b) in enumerate(triples)}
    return Circuit(inputs, latches, gates, list(map(new, lits))), {1 + inputs + k: name for k, name in latch_names(text).items()}


def binary_gate(text, lhs):
    first = lhs - text.delta()
    return lhs, first, first - text.delta()


def in_order(triples):
    """Gates in the order of their variables: at each place the first of the file all of whose fan-ins stand before it."""
    waits = {lhs: {a & ~1, b & ~1} for lhs, a, b in triples}
    waits = {lhs: fan_ins & waits.keys() for lhs, fan_ins in waits.items()}
    readers = {lhs: [] for lhs in waits}
    for place, (lhs, _, _) in enumerate(triples):
        for fan_in in waits[lhs]:
            readers[fan_in].append(place)
    ready, order = [place for place, (lhs, _, _) in enumerate(triples) if not waits[lhs]], []
    while ready:
        order.append(triples[heapq.heappop(ready)])
        for place in readers[order[-1][0]]:
            waits[triples[place][0]].remove(order[-1][0])
            if not waits[triples[place][0]]:
                heapq.heappush(ready, place)
    if len(order) < len(triples):
        raise ValueError('gates in a cycle')
    return order


def latch_names(text):
    """The names of latches by their places, from the symbols up to the comment."""
    found = {}
    while text.has_more():
        line = text.line()
        if line[:1] == b'c' and not line[1:2].isdigit():
            break
        position, name = line.split(b' ', 1)
        if position[:1] == b'l':
            found[number(position[1:])] = name
    return found


def hold(path, c, name_of, names, places):
    """Holds each latch that has one of the names, and those at the places, from 0."""
    latches = list(c.latches)
    for place in places:
        if place >= len(latches):
            raise Refused(f'{path}: NoSuchLatch {place}')
    for name in names:
        if name not in name_of.values():
            raise Refused(f'{path}: NoSuchName {os.fsdecode(name)}')
    chosen = {latches[place] for place in places}
    c.latches = {v: replace(latch, held=v in chosen or name_of.get(v) in names) for v, latch in c.latches.items()}


@dataclass
class Block:
    """The count that is stated, the gates of the set, and the routes: lists of points."""
    count: int
    gates: list
    routes: list


@dataclass
class Part:
    """The merged latches, each with what it reads as, or None where none are listed; and the blocks."""
    merged: list
    blocks: list


def read_certificates(data):
    """The parts of a file. Where merged latches are listed, a line of their number begins one."""
    text = Text(data)
    first = text.line() if data else b''
    if first not in (b'fretime-cert 1', b'fretime-cert 2', b'fretime-cert 3'):
        raise Refused('BadHeader at 0')
    if first != b'fretime-cert 1':
        parts(text, rb'choice (greatest|smallest)')
    lists = first == b'fretime-cert 3'
    found = [Part(merged_latches(text) if lists else None, [])]
    while text.has_more():
        if lists and text.data.startswith(b'merged ', text.at):
            found.append(Part(merged_latches(text), []))
        else:
            found[-1].blocks.append(block(text))
    return found


def merged_latches(text):
    count = limited(*parts(text, rb'merged (\d+)'), text)
    return [merged_latch(text) for _ in range(count)]


def block(text):
    count, gates, routes = (limited(digits, text) for digits in parts(text, rb'frame (\d+) (\d+) (\d+)'))
    gates = [limited(*parts(text, rb'g (\d+)'), text) for _ in range(gates)]
    return Block(count, gates, [route(text) for _ in range(routes)])


def merged_latch(text):
    latch, lit = parts(text, rb'm (\d+) (\d+)')
    return limited(latch, text), limited(lit, text, GREATEST_LITERAL)


def parts(text, form):
    """The parts of a line that has to have this form."""
    found = re.fullmatch(form, text.line())
    if not found:
        raise Refused(f'BadLine at {text.begun}')
    return found.groups()


def limited(digits, text, greatest=GREATEST):
    if number(digits) > greatest:
        raise Refused(f'TooLarge at {text.begun}')
    return number(digits)


def route(text):
    points, = parts(text, rb'r((?: \d+[+-])+)')
    return [(limited(point[:-1], text), chr(point[-1])) for point in points.split()]


def read(path, reader):
    """What a reader makes of a file, or a fault with its path."""
    with open(path, 'rb') as file:
        data = file.read()
    try:
        return reader(data)
    except Refused as fault:
        raise Refused(f'{path}: {fault}') from fault
    except (ValueError, KeyError, IndexError) as fault:
        raise Refused(f'{path}: no circuit') from fault


def main(words):
    parser = argparse.ArgumentParser(description='Checks a file of certificates for a circuit.')
    parser.add_argument('circuit', metavar='IN')
    parser.add_argument('certificates', metavar='CERT')
    parser.add_argument('--keep', metavar='NAME', action='append', default=[], help='a latch with this name is held')
    parser.add_argument('--keep-latch', metavar='PLACE', action='append', default=[], type=int, help='the latch at this place, from 0, is held')
    parser.add_argument('--merge', action='store_true', help='the file has to list merged latches')
    bounds = parser.add_mutually_exclusive_group()
    bounds.add_argument('--levels', metavar='N', type=int, help='moves made no path longer than N gates, or than the longest of IN')
    bounds.add_argument('--no-longer', action='store_true', help='moves made no path longer than the longest of IN')
    given = parser.parse_args(words[1:] if words[:1] == ['verify'] else words)
    names = [os.fsencode(name) for name in given.keep]
    try:
        c, name_of = read(given.circuit, read_circuit)
        listed = read(given.certificates, read_certificates)
        hold(given.circuit, c, name_of, names, given.keep_latch)
        bound = max(c.levels(), given.levels or 0) if given.no_longer or given.levels is not None else None
        if given.merge and listed[0].merged is None:
            raise Refused(f'{given.certificates}: it lists no merged latches, and none are guessed here')
        lines, status = verify(c, listed, bound)
        if not any(part.blocks for part in listed):
            print(f'{given.certificates}: no certificate: {"nothing" if listed[0].merged is None else "no frame"} was checked', file=sys.stderr)
    except Refused as fault:
        lines, status = [], 1
        print(fault, file=sys.stderr)
    except OSError as fault:
        lines, status = [], 3
        print(f'{fault.filename}: device', file=sys.stderr)
    print(''.join(f'{line}\n' for line in lines), end='')
    return status


if __name__ == '__main__':
    sys.exit(main(sys.argv[1:]))

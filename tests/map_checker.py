#!/usr/bin/env python3
"""Checks by a map of states that a circuit is a retiming of another. It shares no code with the program, nor with the reference
model; how lines and gates are read it has from checker.py.

usage: tests/map_checker.py IN OUT MAP [--plain] [--solver COMMAND] [--dimacs PREFIX]

IN and OUT are AIGER circuits. MAP is a combinational one: its inputs are the latches of IN, its outputs those of OUT, and its
constraints hold in each reachable state of IN. Asked is:

  shape   are there as many inputs and properties? Is each free latch of OUT one of IN, and no two the same one?
  reset   in each initial state of IN, do the constraints hold, and are the outputs the resets of OUT?
  keep    where the constraints hold, do they hold a step later?
  next    where they hold, are the outputs a step later the next literals of OUT?
  read    where they hold, has each property of IN the value of that of OUT?

If so, all properties have the same values at all steps, whoever made the three files. Of each question there is a pair of literals
for each part, which must have the same value. Most are one gate, once gates with the same fan-ins are one. More are where an input or a
latch has one value, and where it has the other: so cases are made. The rest goes to a SAT solver, as a formula that must have no solution.
With --plain no gates are shared and no cases are made, and all goes to the solver.

The status is 0 where all is shown, 5 where it isn't, 1 where a file is refused, 3 where one can't be read.
"""
import argparse
import shutil
import subprocess
import sys
import tempfile
from dataclasses import dataclass

sys.dont_write_bytecode = True
# (the modules beside this script, which are not to leave compiled files there)
from checker import Refused, Text, binary_gate, in_order, number, read  # noqa: E402

# SAT solvers that may be installed; each reads a DIMACS file, and ends with status 20 where it has no solution.
SOLVERS = ['cadical -q', 'minisat -verb=0']
ANSWERS = {10: 'fails', 20: 'holds'}
# of how many inputs and latches a case is at most, and how many cases are made
DEEPEST, MOST_CASES = 8, 400


# Circuits, by the literals of their files.

@dataclass
class Circuit:
    """Latches are (literal, next literal, reset), where a free one has None as reset, and gates (literal, fan-in, fan-in), in an
    order in which each comes after its fan-ins. The rest is what follows the gates in the file: names and comments."""
    inputs: list
    latches: list
    outputs: list
    bad: list
    constraints: list
    justice: list
    fairness: list
    gates: list
    rest: bytes

    def properties(self):
        justice = [lit for lits in self.justice for lit in lits]
        return self.outputs + self.bad + self.constraints + justice + self.fairness

    def shape(self):
        sizes = [len(lits) for lits in self.justice]
        return [len(self.inputs), *map(len, (self.outputs, self.bad, self.constraints, self.fairness)), sizes]

    def is_combinational(self):
        return not (self.latches or self.bad or self.justice or self.fairness)


def read_circuit(data):
    """The circuit of an AIGER file of either spelling."""
    text = Text(data)
    letters, *counts = text.line().split(b' ')
    is_ascii = {b'aag': True, b'aig': False}[letters]
    _, inputs, latches, outputs, gates, bad, constraints, justice, fairness = map(number, counts + [b'0'] * (9 - len(counts)))
    first_gate = 2 * (1 + inputs + latches)

    def several(count):
        return [text.number() for _ in range(count)]

    variables = several(inputs) if is_ascii else list(range(2, 2 + 2 * inputs, 2))
    rows = [text.numbers() if is_ascii else [lit, *text.numbers()] for lit in range(2 + 2 * inputs, first_gate, 2)]
    rows = [(lit, next_lit, None if reset == [lit] else sum(reset)) for lit, next_lit, *reset in rows]
    lists = [several(outputs), several(bad), several(constraints)]
    sizes = several(justice)
    lists += [[several(size) for size in sizes], several(fairness)]
    listed = range(first_gate, first_gate + 2 * gates, 2)
    triples = in_order([text.numbers() for _ in listed]) if is_ascii else [binary_gate(text, lhs) for lhs in listed]
    defined = variables + [row[0] for row in rows + triples]
    if len(set(defined)) < len(defined) or any(lit < 2 or lit & 1 for lit in defined):
        raise ValueError('a variable is defined twice')
    return Circuit(variables, rows, *lists, triples, data[text.at :])


# Gates over unknowns, as which the three circuits are put together.

class Graph:
    """AND gates over unknowns, with literals as in AIGER. Where gates are shared, those with the same fan-ins are one, constants are
    propagated, and so is what follows from facts that are assumed."""

    def __init__(self, shares):
        self.shares, self.fan_ins, self.gate_of, self.equal = shares, [None], {}, {}

    def unknown(self):
        self.fan_ins.append(None)
        return 2 * len(self.fan_ins) - 2

    def unknowns(self, count):
        return [self.unknown() for _ in range(count)]

    def standing(self, lit):
        """What stands for a literal under the facts."""
        while lit & ~1 in self.equal:
            lit = self.equal[lit & ~1] ^ lit & 1
        return lit

    def gate(self, a, b):
        large, small = sorted(map(self.standing, (a, b)), reverse=True)
        if self.shares:
            if small == 0 or large == small ^ 1:
                return 0
            if small == 1 or large == small:
                return large
            if (large, small) in self.gate_of:
                return self.standing(self.gate_of[large, small])
        self.fan_ins.append((large, small))
        self.gate_of[large, small] = 2 * len(self.fan_ins) - 2
        return self.gate_of[large, small]

    def copied(self, c, inputs, state):
        """The gates of a circuit whose inputs and latches are these literals: what each of its literals is here."""
        if len(inputs) != len(c.inputs) or len(state) != len(c.latches):
            raise NotShown('widths differ')
        here = {0: 0, **dict(zip(c.inputs, inputs)), **dict(zip([latch[0] for latch in c.latches], state))}

        def at(lit):
            return here[lit & ~1] ^ lit & 1

        for lhs, a, b in c.gates:
            here[lhs] = self.gate(at(a), at(b))
        return at

    def sides(self, fact):
        """Two literals that are equal where the fact holds: those of an exclusive or, else the fact itself and 1."""
        first, second = (self.fan_ins[fact >> 1] or (0, 0)) if not fact & 1 else (0, 0)
        if first & second & 1 and self.fan_ins[first >> 1] and self.fan_ins[second >> 1]:
            a, b = self.fan_ins[first >> 1]
            if {a ^ 1, b ^ 1} == set(self.fan_ins[second >> 1]):
                return a, b ^ 1
        return fact, 1

    def assume(self, fact):
        """From now on one side of the fact stands for the other. Whether this is new."""
        small, large = sorted(map(self.standing, self.sides(fact)))
        if small >> 1 == large >> 1:
            return False
        self.equal[large & ~1] = small ^ large & 1
        return True

    def cone(self, lits):
        """The variables on which literals rest, themselves among them."""
        found, waiting = set(), [lit >> 1 for lit in lits]
        while waiting:
            v = waiting.pop()
            if v not in found:
                found.add(v)
                waiting += [lit >> 1 for lit in self.fan_ins[v] or ()]
        return found

    def most_read(self, pair, pairs):
        """The unknown on which a pair rests that is read most often in the cones of all pairs; None if it rests on none."""
        counts = dict.fromkeys((v for v in self.cone(pair) if v and not self.fan_ins[v]), 0)
        for v in self.cone([lit for pair in pairs for lit in pair]):
            for lit in self.fan_ins[v] or ():
                if lit >> 1 in counts:
                    counts[lit >> 1] += 1
        return max(counts, key=lambda v: (counts[v], -v), default=None)

    def formula(self, facts, pairs):
        """In DIMACS: the facts hold, and some pair differs."""
        numbers, clauses, waiting = {0: 1}, [[-1]], [lit >> 1 for lits in [facts, *pairs] for lit in lits]
        while waiting:
            v = waiting.pop()
            if v not in numbers:
                numbers[v] = len(numbers) + 1
                waiting += [lit >> 1 for lit in self.fan_ins[v] or ()]

        def signed(lit):
            return -numbers[lit >> 1] if lit & 1 else numbers[lit >> 1]

        for v in numbers:
            if self.fan_ins[v]:
                gate, a, b = map(signed, (2 * v, *self.fan_ins[v]))
                clauses += [[-gate, a], [-gate, b], [gate, -a, -b]]
        differ = range(len(numbers) + 1, len(numbers) + 1 + len(pairs))
        for pair, (a, b) in zip(differ, pairs):
            clauses += [[-pair, signed(a), signed(b)], [-pair, -signed(a), -signed(b)]]
        clauses += [[signed(fact)] for fact in facts] + [list(differ)]
        return ''.join(' '.join(map(str, words)) + '\n' for words in
                       [['p', 'cnf', len(numbers) + len(pairs), len(clauses)], *([*clause, 0] for clause in clauses)])


# What is asked.

class NotShown(Exception):
    """Already the shapes of the circuits show that the map isn't one."""


def check_shapes(c, d, m):
    if c.shape() != d.shape():
        raise NotShown('IN and OUT differ in inputs or properties')
    if not m.is_combinational():
        raise NotShown('MAP has more than inputs, outputs and constraints')
    if (len(m.inputs), len(m.outputs)) != (len(c.latches), len(d.latches)):
        raise NotShown('MAP has other widths')
    free = {lit for lit, (_, _, reset) in zip(m.inputs, c.latches) if reset is None}
    kept = [lit for lit, (_, _, reset) in zip(m.outputs, d.latches) if reset is None]
    if len(set(kept)) < len(kept) or not set(kept) <= free:
        raise NotShown("a free latch of OUT isn't one of IN")


def questions(graph, c, d, m):
    """Each question: its name, facts, and pairs of literals that must be equal where the facts hold."""
    check_shapes(c, d, m)

    def mapped(state):
        at = graph.copied(m, state, [])
        return list(map(at, m.outputs)), list(map(at, m.constraints))

    inputs, state = graph.unknowns(len(c.inputs)), graph.unknowns(len(c.latches))
    resets = [row[2] for row in d.latches]
    image, facts = mapped([lit if row[2] is None else row[2] for lit, row in zip(state, c.latches)])
    yield 'reset', [], [(fact, 1) for fact in facts] + [(lit, reset) for lit, reset in zip(image, resets) if reset is not None]
    image, facts = mapped(state)
    now = facts
    while graph.shares and any([graph.assume(fact) for fact in now]):
        image, now = mapped(list(map(graph.standing, state)))
    at = graph.copied(c, inputs, list(map(graph.standing, state)))
    later, later_facts = mapped([at(next_lit) for _, next_lit, _ in c.latches])
    to = graph.copied(d, inputs, image)
    yield 'keep', facts, [(fact, 1) for fact in later_facts]
    yield 'next', facts, [(lit, to(next_lit)) for lit, (_, next_lit, _) in zip(later, d.latches)]
    yield 'read', facts, list(zip(map(at, c.properties()), map(to, d.properties())))


class Cases:
    """Parts of a step that stay two literals, and cases of inputs and latches that show them."""

    def __init__(self, c, d, m):
        self.circuits, self.count = (c, d, m), 0

    def open_in(self, case):
        """The gates where unknowns have these values, and by part, a question and a place, the two literals if they aren't one."""
        graph = Graph(True)
        graph.equal.update({2 * v: bit for v, bit in case.items()})
        self.count += 1
        parts = [((name, place), tuple(map(graph.standing, pair)))
                 for name, _, pairs in questions(graph, *self.circuits) if name != 'reset' for place, pair in enumerate(pairs)]
        return graph, {part: pair for part, pair in parts if pair[0] != pair[1]}

    def left_in(self, case, part):
        """The parts that aren't shown where unknowns have these values; cases are made until this part is."""
        graph, pairs = self.open_in(case)
        left = set(pairs)
        split = graph.most_read(pairs[part], pairs.values()) if part in left and len(case) < DEEPEST else None
        if split is None:
            return left
        found = set()
        for bit in (1, 0):
            if self.count >= MOST_CASES:
                return left
            found |= self.left_in({**case, split: bit}, part)
            if part in found:
                return left
        return left & found

    def left(self, parts):
        """Those of these parts that no cases show."""
        left = set(parts)
        for part in parts:
            if part in left and self.count < MOST_CASES:
                left &= self.left_in({}, part)
        return left


@dataclass
class Judge:
    """Whether gates are shared and cases are made, the command of a SAT solver or None, and where formulas are written to or None."""
    shares: bool = True
    solver: str = None
    prefix: str = None

    def verdicts(self, c, d, m):
        """For each question its name, its number of pairs, how many of these neither are one gate nor shown by cases, and whether it holds."""
        graph = Graph(self.shares)
        asked = list(questions(graph, c, d, m))
        left = {(name, place) for name, _, pairs in asked for place, (a, b) in enumerate(pairs) if a != b or not self.shares}
        if self.shares:
            of_step = sorted(part for part in left if part[0] != 'reset')
            left -= set(of_step) - Cases(c, d, m).left(of_step)
        for name, facts, pairs in asked:
            open_pairs = [pair for place, pair in enumerate(pairs) if (name, place) in left]
            yield name, len(pairs), len(open_pairs), self.answer(name, graph.formula(facts, open_pairs)) if open_pairs else 'holds'

    def answer(self, name, formula):
        if self.prefix:
            with open(f'{self.prefix}.{name}.cnf', 'w', encoding='ascii') as file:
                file.write(formula)
        if not self.solver:
            return 'is left to a solver'
        with tempfile.NamedTemporaryFile('w', suffix='.cnf', encoding='ascii') as file:
            file.write(formula)
            file.flush()
            ran = subprocess.run([*self.solver.split(), file.name], capture_output=True, check=False)
        return ANSWERS.get(ran.returncode, "isn't decided")

    def shows(self, c, d, m):
        """Whether the map shows that d is a retiming of c."""
        try:
            return all(answer == 'holds' for *_, answer in self.verdicts(c, d, m))
        except NotShown:
            return False


def installed_solver():
    return next((command for command in SOLVERS if shutil.which(command.split()[0])), None)


def main(words):
    parser = argparse.ArgumentParser(description='Checks by a map of states that a circuit is a retiming of another.')
    for name in ('IN', 'OUT', 'MAP'):
        parser.add_argument(name)
    parser.add_argument('--plain', action='store_true', help='share no gates, and ask the solver everything')
    parser.add_argument('--solver', metavar='COMMAND', help='a SAT solver that reads a DIMACS file (CaDiCaL or MiniSat, where installed)')
    parser.add_argument('--dimacs', metavar='PREFIX', help='write each formula to PREFIX.NAME.cnf')
    given = parser.parse_args(words)
    judge = Judge(not given.plain, given.solver or installed_solver(), given.dimacs)
    try:
        circuits = [read(path, read_circuit) for path in (given.IN, given.OUT, given.MAP)]
    except Refused as fault:
        print(fault, file=sys.stderr)
        return 1
    except OSError as fault:
        print(f'{fault.filename}: device', file=sys.stderr)
        return 3
    shown = True
    try:
        for name, pairs, left, answer in judge.verdicts(*circuits):
            print(f'{name}: {pairs} pairs, {left} left: {answer}')
            shown = shown and answer == 'holds'
    except NotShown as objection:
        print(f'shape: {objection}')
        shown = False
    print('OUT is a retiming of IN' if shown else 'not shown')
    return 0 if shown else 5


if __name__ == '__main__':
    sys.exit(main(sys.argv[1:]))

#!/usr/bin/env python3
"""Checks that a witness circuit shows that a model reaches no bad state: the five checks of the certificates of the hardware model
checking competition, each a formula that a SAT solver must find to have no solution. It shares no code with the program; how
files are read and gates are put together it has from map_checker.py.

usage: tests/witness_checker.py MODEL WITNESS [--solver COMMAND]

Both are AIGER circuits; their bad states are their outputs, where they have none. The witness shares inputs and latches with the
model: a name `= 12` of an input or a latch says that it is the model's with the literal 12; where no name says so, the first inputs and
latches are the model's, in order. For what is shared (K), resets (R), next literals (F), constraints (C) and no bad state (P) of the model, those
of the witness with a prime, and those of the next step with a 1, asked is:

  reset       R and C                       ->  R' of K, and C'
  transition  F and C and C1, and C'        ->  F' of K, and C'1
  property    C and C' and P'               ->  P
  base        R' and C'                     ->  P'
  step        P' and F' and C' and C'1      ->  P'1

The status is 0 where all hold, 5 where one doesn't, 1 where a file is refused, 3 where one can't be read.
"""
import argparse
import re
import sys
from dataclasses import dataclass

sys.dont_write_bytecode = True
# (the modules beside this script, which are not to leave compiled files there)
from checker import Refused, read  # noqa: E402
from map_checker import Graph, Judge, installed_solver, read_circuit  # noqa: E402

NAME = re.compile(rb'([il])(\d+) = (\d+)')


class NoSuchLiteral(Exception):
    """A name says a literal that the model hasn't, or one twice."""


def said(circuit):
    """The literals that names say: of inputs and of latches, by their numbers."""
    found = {b'i': {}, b'l': {}}
    for line in circuit.rest.split(b'\n'):
        if line == b'c':
            break
        if match := NAME.fullmatch(line):
            found[match[1]][int(match[2])] = int(match[3])
    return found[b'i'], found[b'l']


def places(names, count, literals):
    """Of each of the witness's the place of the model's, or None where it is its own."""
    if not set(names.values()) <= set(literals) or len(set(names.values())) < len(names):
        raise NoSuchLiteral
    return [literals.index(names[k]) if k in names else None for k in range(count)]


def sharing(model, witness):
    """Of each input, and of each latch, of the witness the place of the model's, or None."""
    latches = [latch[0] for latch in model.latches]
    of_inputs, of_latches = said(witness)
    if of_inputs or of_latches:
        return places(of_inputs, len(witness.inputs), model.inputs), places(of_latches, len(witness.latches), latches)
    first = [[k if k < most else None for k in range(count)]
             for most, count in ((len(model.inputs), len(witness.inputs)), (len(latches), len(witness.latches)))]
    return first[0], first[1]


def agree(graph, a, b):
    return graph.gate(graph.gate(a, b ^ 1) ^ 1, graph.gate(a ^ 1, b) ^ 1)


@dataclass
class Step:
    """A circuit at one step."""
    graph: Graph
    circuit: object
    inputs: list
    state: list

    def __post_init__(self):
        at = self.graph.copied(self.circuit, self.inputs, self.state)
        self.constraints = list(map(at, self.circuit.constraints))
        self.good = [at(lit) ^ 1 for lit in self.circuit.bad or self.circuit.outputs]
        self.nexts = [at(latch[1]) for latch in self.circuit.latches]

    def resets(self, latches):
        """Each of these latches has its reset, where it has one."""
        return [self.state[k] ^ 1 ^ self.circuit.latches[k][2] for k in latches if self.circuit.latches[k][2] is not None]

    def goes(self, later, latches):
        """Each of these latches goes on to that state."""
        return [agree(self.graph, self.nexts[k], later[k]) for k in latches]


def questions(model, witness):
    """Each check: its name, what is given, and what has to follow, as a graph and lists of literals that are 1."""
    graph = Graph(True)
    of_inputs, of_latches = sharing(model, witness)

    def steps():
        inputs, state = graph.unknowns(len(model.inputs)), graph.unknowns(len(model.latches))
        own = [[graph.unknown() if place is None else shared[place] for place in row]
               for row, shared in ((of_inputs, inputs), (of_latches, state))]
        return Step(graph, model, inputs, state), Step(graph, witness, *own)

    (m, w), (m1, w1) = steps(), steps()
    shared = [k for k, place in enumerate(of_latches) if place is not None]
    of_model, of_witness = range(len(model.latches)), range(len(witness.latches))
    yield graph, 'reset', m.resets(of_model) + m.constraints, w.resets(shared) + w.constraints
    yield (graph, 'transition', m.goes(m1.state, of_model) + m.constraints + m1.constraints + w.constraints,
           w.goes(w1.state, shared) + w1.constraints)
    yield graph, 'property', m.constraints + w.constraints + w.good, m.good
    yield graph, 'base', w.resets(of_witness) + w.constraints, w.good
    yield graph, 'step', w.good + w.goes(w1.state, of_witness) + w.constraints + w1.constraints, w1.good


def answers(model, witness, solver):
    """Each check's name, and whether it holds."""
    judge = Judge(solver=solver)
    for graph, name, facts, shown in questions(model, witness):
        left = [(lit, 1) for lit in shown if lit != 1]
        yield name, judge.answer(name, graph.formula(facts, left)) if left else 'holds'


def main(words):
    parser = argparse.ArgumentParser(description='Checks that a witness circuit shows that a model reaches no bad state.')
    for name in ('MODEL', 'WITNESS'):
        parser.add_argument(name)
    parser.add_argument('--solver', metavar='COMMAND', help='a SAT solver that reads a DIMACS file (CaDiCaL or MiniSat, where installed)')
    given = parser.parse_args(words)
    try:
        model, witness = [read(path, read_circuit) for path in (given.MODEL, given.WITNESS)]
        found = list(answers(model, witness, given.solver or installed_solver()))
    except Refused as fault:
        print(fault, file=sys.stderr)
        return 1
    except NoSuchLiteral:
        print(f'{given.WITNESS}: NoSuchLiteral', file=sys.stderr)
        return 1
    except OSError as fault:
        print(f'{fault.filename}: device', file=sys.stderr)
        return 3
    for name, answer in found:
        print(f'{name}: {answer}')
    shown = all(answer == 'holds' for _, answer in found)
    print('MODEL reaches no bad state' if shown else 'not shown')
    return 0 if shown else 5


if __name__ == '__main__':
    sys.exit(main(sys.argv[1:]))

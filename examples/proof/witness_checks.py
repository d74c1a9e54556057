"""The five checks of a witness circuit for a model, as questions to a SAT solver: each has to have
no solution. R says that latches have their resets, F that they go on by their next literals, C
that all constraints are 1 and P that no bad state is; a prime marks the witness circuit, a 1 the
next step, and K what both share.

  reset       R and C                       ->  R' of K, and C'
  transition  F and C and C1, and C'        ->  F' of K, and C'1
  property    C and C' and P'               ->  P
  base        R' and C'                     ->  P'
  step        P' and F' and C' and C'1      ->  P'1
"""
import dataclasses
import re

from formulas import Frame, Graph, Question, begun, hashed


class NotShared(Exception):
    """A name says a literal that the model doesn't have, or one that another name says."""


@dataclasses.dataclass
class Sharing:
    """Of each input and each latch of the witness circuit its place in the model, or None where
    it is the witness circuit's own."""
    inputs: list
    latches: list

    def shared_latches(self):
        return [(own, place) for own, place in enumerate(self.latches) if place is not None]


def sharing(model, witness):
    said = {key: re.fullmatch(r'= (\d+)', name) for key, name in witness.names.items()}
    said = {key: int(match[1]) for key, match in said.items() if match}
    counts = [('i', model.inputs, witness.inputs, model.input),
              ('l', len(model.latches), len(witness.latches), model.latch)]
    found = []
    for kind, known, count, literal in counts:
        if not said:
            found.append([place if place < known else None for place in range(count)])
            continue
        places = {literal(place): place for place in range(known)}
        literals = [said.get((kind, own)) for own in range(count)]
        named = [lit for lit in literals if lit is not None]
        if not set(named) <= set(places) or len(set(named)) < len(named):
            raise NotShared
        found.append([places.get(lit) for lit in literals])
    return Sharing(*found)


def shared(graph, places, literals):
    """The literals of the witness circuit's inputs or latches, where those of the model are these:
    an unknown for each that is its own."""
    return [graph.unknown() if place is None else literals[place] for place in places]


def conjuncts(circuit, literals):
    """The literals that are 1 where these are: the fan-ins of gates that are 1, in turn."""
    first = 1 + circuit.inputs + len(circuit.latches)
    found, waiting = {}, list(literals)
    while waiting:
        literal = waiting.pop()
        if literal not in found:
            found[literal] = None
            if not literal & 1 and literal >> 1 >= first:
                waiting += circuit.gates[(literal >> 1) - first]
    return list(found)


def equalities(circuit, literals):
    """Pairs of literals that are equal where these are 1. Two conjunctions that are 0 say it of
    their fan-ins, where those of one are the negations of those of the other."""
    first = 1 + circuit.inputs + len(circuit.latches)
    found, seen = [], set()
    for literal in conjuncts(circuit, literals):
        if literal & 1 and literal >> 1 >= first:
            a, b = circuit.gates[(literal >> 1) - first]
            seen.add((min(a, b), max(a, b)))
            if (min(a ^ 1, b ^ 1), max(a ^ 1, b ^ 1)) in seen:
                found.append((a, b ^ 1))
        if literal > 1:
            found.append((literal, 1))
    return found


def order_of(circuit):
    """All variables, each gate after its fan-ins, and latches from the last one on: a gate before
    each latch that is before all latches on which the gate rests. So a latch that always is what
    later ones say, as those of a circuit behind a move backward, comes after the gate that says
    it, and can read as that."""
    ranks = [0] * (1 + circuit.inputs) + [*range(len(circuit.latches), 0, -1)]
    for a, b in circuit.gates:
        ranks.append(max(ranks[a >> 1], ranks[b >> 1]))
    return sorted(range(len(ranks)), key=ranks.__getitem__)


def reads_of(pairs, order):
    """What variables read as, by pairs of equal literals: those of one that are equal read as the
    first of them in this order. Pairs that contradict one another are left to the formula."""
    place = {variable: number for number, variable in enumerate(order)}
    reads = {}

    def root(literal):
        while literal >> 1 in reads:
            literal = reads[literal >> 1] ^ literal & 1
        return literal

    for pair in pairs:
        early, late = sorted(map(root, pair), key=lambda literal: place[literal >> 1])
        if early >> 1 != late >> 1:
            reads[late >> 1] = early ^ late & 1
    return {variable: root(literal) for variable, literal in reads.items()}


class Checks:
    """The questions about a model and a witness circuit, each of which is a method that bears
    its name."""

    NAMES = 'reset', 'transition', 'property', 'base', 'step'

    def __init__(self, model, witness):
        self.model, self.witness, self.sharing = model, hashed(witness), sharing(model, witness)
        self.order = order_of(self.witness)
        good = [literal ^ 1 for literal in self.witness.properties()] + self.witness.constraints
        self.reads = reads_of(equalities(self.witness, good), self.order)

    def question(self, name):
        """The question, or None where it has no solution by its gates alone."""
        graph = Graph()
        given, asked = getattr(self, name)(graph)
        left = [(a, b) for a, b in asked if a != b]
        return Question(graph, given, left) if left else None

    def sides(self, graph, state):
        """Both circuits at a step, in a state of the model."""
        inputs = graph.unknowns(self.model.inputs)
        witness = self.shown(graph, inputs, state)
        return Frame(graph, self.model, inputs, state), witness

    def shown(self, graph, inputs, state, reads=()):
        """The witness circuit beside the model with these inputs and this state."""
        own = shared(graph, self.sharing.inputs, inputs), shared(graph, self.sharing.latches, state)
        return Frame(graph, self.witness, *own, reads, self.order)

    def reset(self, graph):
        model, witness = self.sides(graph, begun(graph, self.model))
        resets = [(witness.latch(own), self.witness.latches[own][1])
                  for own, _ in self.sharing.shared_latches()]
        return model.held(), [pair for pair in resets if pair[1] is not None] + witness.held()

    def transition(self, graph):
        model, witness = self.sides(graph, graph.unknowns(len(self.model.latches)))
        later, witness_later = self.sides(graph, model.following())
        nexts = witness.following()
        goes = [(nexts[own], later.latch(place)) for own, place in self.sharing.shared_latches()]
        return model.held() + later.held() + witness.held(), goes + witness_later.held()

    def property(self, graph):
        """The model's latches have what those of the witness circuit read as, which are equal to
        them in a good state."""
        inputs, state = graph.unknowns(self.model.inputs), graph.unknowns(len(self.model.latches))
        witness = self.shown(graph, inputs, state, self.reads)
        given = graph.assume(witness.pairs)
        for own, place in self.sharing.shared_latches():
            state[place] = witness.latch(own)
        model = Frame(graph, self.model, inputs, state)
        return given + model.held() + witness.held() + witness.good(), model.good()

    def alone(self, graph, state, reads=()):
        inputs = graph.unknowns(self.witness.inputs)
        return Frame(graph, self.witness, inputs, state, reads, self.order)

    def to_be_good(self, graph, state):
        """What is given of the constraints in such a state, and what has to be equal there for no
        state to be bad. In a good state each variable is what it reads as; the first one that isn't
        is found, since all before it are what they read as."""
        inputs = graph.unknowns(self.witness.inputs)
        plain = Frame(graph, self.witness, inputs, state)
        found = Frame(graph, self.witness, inputs, state, self.reads, self.order)
        return plain.held(), found.pairs + found.good()

    def base(self, graph):
        return self.to_be_good(graph, begun(graph, self.witness))

    def step(self, graph):
        witness = self.alone(graph, graph.unknowns(len(self.witness.latches)), self.reads)
        given = graph.assume(witness.pairs)
        held, asked = self.to_be_good(graph, witness.following())
        return given + witness.held() + witness.good() + held, asked

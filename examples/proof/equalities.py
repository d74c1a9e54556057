"""A prover: which inputs, latches and gates of a circuit always agree, or say the opposite. Classes
of them are guessed by simulation, and one question to a SAT solver asks whether they stay together
from any step to the next; a solution parts them, until there is none. If they rule out each bad
state, the circuit with a bad state where two of a class differ is a witness circuit."""
import random

from aiger import Counterexample, simulated
from formulas import Frame, Graph, Question, begun
from pdr import names_of_all

# How many runs are simulated at once, how many steps at most, and after how many that part no
# class a simulation ends.
RUNS = 256
STEPS, IDLE = 192, 24
CHASE = 4
# How many parts a question is asked in at most. What Python does for a question takes longer than
# the solver, and one solution parts few of the classes of a large circuit.
MOST_PARTS = 32
ONES = (1 << RUNS) - 1


class GivenUp(Exception):
    """No classes show the circuit to be good: why."""


class Classes:
    """Variables by classes, each class in rising order, and the sign of each variable within its
    class. A variable that is alone has no class."""

    def __init__(self, words, alive):
        lane = (alive & -alive).bit_length() - 1
        self.signs = [word >> lane & 1 if alive else 0 for word in words[::2]]
        self.lists = [[*range(len(self.signs))]]
        self.part(words, alive)

    def part(self, words, alive):
        """Parts classes by their words in the runs that are alive. Whether that parted any."""
        signs, found, parted = self.signs, [], False
        for variables in self.lists:
            by_word = {}
            for variable in variables:
                word = words[2 * variable ^ signs[variable]] & alive
                by_word.setdefault(word, []).append(variable)
            parted = parted or len(by_word) > 1
            found += (those for those in by_word.values() if len(those) > 1)
        self.lists = found
        return parted

    def reads(self):
        """Each variable but the first of its class, with the literal of the first."""
        signs = self.signs
        return {variable: 2 * first ^ signs[first] ^ signs[variable]
                for first, *others in self.lists for variable in others}


class Prover:
    """The circuit, a solver and a clock; and random words, the same ones in each run."""

    def __init__(self, circuit, solver, clock):
        self.circuit, self.solver, self.clock = circuit, solver, clock
        self.random = random.Random(1)
        self.densities = [(self.word(), self.word()) for _ in range(circuit.inputs)]

    def word(self):
        return self.random.getrandbits(RUNS)

    def inputs(self):
        """A random word for each input, whose share of ones differs from run to run."""
        return [self.word() & (self.word() | a) | self.word() & b for a, b in self.densities]

    def near(self, solutions):
        """A word for each bit of solutions, each of which has as many runs: the bit itself in the
        first of them, and in others now and then not, in some of them often."""
        often, found = self.word() & self.word(), []
        first = sum(1 << place * (RUNS // len(solutions)) for place in range(len(solutions)))
        for word in self.spread(solutions):
            flips = self.word() & (self.word() & self.word() & self.word() | often)
            found.append(word ^ flips & ~first)
        return found

    def beside(self, solutions):
        """A word for each bit of solutions, as `near` has them, but in each run three bits at most
        aren't those of the solution: where more change, classes seldom agree."""
        found, width = self.spread(solutions), RUNS // len(solutions)
        for run in range(RUNS if found else 0):
            for _ in range(run % width % 4):
                found[self.random.randrange(len(found))] ^= 1 << run
        return found

    def spread(self, solutions):
        """A word for each bit of solutions, each of which has as many runs."""
        width = RUNS // len(solutions)
        own = [(1 << width) - 1 << width * place for place in range(len(solutions))]
        return [sum(runs for runs, bit in zip(own, bits) if bit) for bits in zip(*solutions)]

    def step(self, inputs, state):
        self.clock.left()
        return simulated(self.circuit, inputs, state, ONES)

    def held(self, words, alive):
        """The runs that are alive, and in which all constraints hold."""
        for literal in self.circuit.constraints:
            alive &= words[literal]
        return alive

    def bad(self, words):
        found = 0
        for literal in self.circuit.properties():
            found |= words[literal]
        return found

    def following(self, words):
        return [words[following] for following, _ in self.circuit.latches]

    def begin(self):
        """Words of latches at the first step: random ones for those that are free."""
        return [self.word() if reset is None else ONES * reset for _, reset in self.circuit.latches]

    def guess(self):
        """Classes that no simulated run from the first step on parts. A counterexample, if a run
        comes to a bad state."""
        state, alive, steps, idle, classes = self.begin(), ONES, [], 0, None
        first = state
        while alive and idle < IDLE and len(steps) < STEPS:
            steps.append(self.inputs())
            words = self.step(steps[-1], state)
            alive = self.held(words, alive)
            if self.bad(words) & alive:
                return None, self.run_of(first, steps, self.bad(words) & alive)
            if classes is None:
                classes, parted = Classes(words, alive), True
            else:
                parted = classes.part(words, alive)
            state, idle = self.following(words), 0 if parted else idle + 1
        return classes, None

    def run_of(self, state, steps, runs):
        """The counterexample that is one of these runs."""
        lane = runs.bit_length() - 1
        return Counterexample([word >> lane & 1 for word in state],
                              [[word >> lane & 1 for word in step] for step in steps])

    def asked(self, question):
        found = self.solver.solution(question, self.clock)
        if found is None:
            raise GivenUp(f'{self.solver.name} says nothing')
        return found

    def part_at_first(self, classes):
        """Parts classes until they agree at the first step; or a counterexample of one step."""
        circuit = self.circuit
        while True:
            graph = Graph()
            inputs, state = graph.unknowns(circuit.inputs), begun(graph, circuit)
            plain = Frame(graph, circuit, inputs, state)
            frame = Frame(graph, circuit, inputs, state, classes.reads())
            question = Question(graph, plain.held(), frame.pairs + frame.good())
            model = self.asked(question)
            if model is False:
                return None
            bits = question.bits(state, model), question.bits(inputs, model)
            state = [word if reset is None else ONES * reset
                     for word, (_, reset) in zip(self.near([bits[0]]), circuit.latches)]
            words = self.step(self.near([bits[1]]), state)
            if self.bad(words) & 1:
                return Counterexample(bits[0], [bits[1]])
            if not classes.part(words, self.held(words, ONES)):
                raise GivenUp('a solution parts no class')

    def question(self, classes):
        """Whether classes that agree at one step can differ at the next, or that be bad; with the
        unknowns: latches and inputs of the one, and inputs of the next. The next step's constraints
        are those of the circuit as it is, since at the first pair that differs all before agree."""
        circuit, graph, reads = self.circuit, Graph(), classes.reads()
        state = graph.unknowns(len(circuit.latches))
        inputs, later_inputs = (graph.unknowns(circuit.inputs) for _ in range(2))
        now = Frame(graph, circuit, inputs, state, reads)
        graph.assume(now.pairs)
        later = Frame(graph, circuit, later_inputs, now.following(), reads)
        given = now.pairs + now.held() + now.good()
        if circuit.constraints:
            given += Frame(graph, circuit, later_inputs, now.following()).held()
        return Question(graph, given, later.pairs + later.good()), (state, inputs, later_inputs)

    def consistent(self, reads, inputs, state):
        """Words of inputs and of latches, in which each that reads as another one has its word."""
        words = [0, *inputs, *state]
        for variable in range(1, len(words)):
            literal = reads.get(variable)
            if literal is not None:
                words[variable] = words[literal >> 1] ^ (ONES if literal & 1 else 0)
        return words[1:1 + len(inputs)], words[1 + len(inputs):]

    def agreeing(self, classes, words, alive):
        """The runs that are alive and not bad, in which constraints hold and classes agree."""
        alive = self.held(words, alive) & ~self.bad(words)
        signs, differ = classes.signs, 0
        for first, *others in classes.lists:
            word = words[2 * first ^ signs[first]]
            for variable in others:
                differ |= word ^ words[2 * variable ^ signs[variable]]
        return alive & ~differ

    def chase(self, classes, states, inputs, later_inputs):
        """Parts classes by the steps that solutions show, by others like them, and by the steps
        that follow while they are of use."""
        now = self.consistent(classes.reads(), self.beside(inputs), self.beside(states))
        words = self.step(*now)
        alive, idle = self.agreeing(classes, words, ONES), 0
        inputs, parted = self.near(later_inputs), False
        while alive and idle < CHASE:
            words = self.step(inputs, self.following(words))
            alive = self.held(words, alive)
            if self.bad(words) & alive:
                raise GivenUp('a bad state follows where all classes agree')
            idle = 0 if classes.part(words, alive) else idle + 1
            parted = parted or not idle
            alive, inputs = self.agreeing(classes, words, alive), self.inputs()
        if not parted:
            raise GivenUp('a solution parts no class')

    def solutions(self, classes, count):
        """The latches, inputs and next inputs of solutions of the question, which is asked in parts:
        one of each part that has any."""
        question, unknowns = self.question(classes)
        found = []
        for part in question.parts(count):
            model = self.asked(part)
            if model is not False:
                found.append([question.bits(literals, model) for literals in unknowns])
        return found

    def prove(self):
        """A witness circuit, or a counterexample; GivenUp where neither is found. A question is
        asked in more parts while most of them have a solution."""
        classes, found = self.guess()
        found = found or self.part_at_first(classes)
        count = 1
        while not found:
            solutions = self.solutions(classes, count)
            if not solutions:
                return self.witness(classes)
            self.chase(classes, *zip(*solutions))
            count = min(MOST_PARTS, 2 * len(solutions))
        return found

    def witness(self, classes):
        """The circuit with a bad state where one of a class differs from the first, but for those
        of which that follows from others by their fan-ins alone."""
        circuit, graph, reads = self.circuit, Graph(), classes.reads()
        unknowns = graph.unknowns(circuit.inputs), graph.unknowns(len(circuit.latches))
        told = Frame(graph, circuit, *unknowns, reads).told
        found = circuit.copy(outputs=[], bad=[])
        good = [found.agree(2 * variable, reads[variable]) for variable in told]
        good += [literal ^ 1 for literal in circuit.properties()]
        found.bad = [found.all(good) ^ 1]
        found.names = names_of_all(found)
        return found

"""Provers of a circuit with few latches: the circuit as its own witness circuit, equalities, ABC's
pdr, and any command. Each gives the file of a witness circuit, a counterexample, or why it has
neither."""
import dataclasses
import shlex

import aiger
import equalities
import pdr
from programs import ABC, DIFFERENT, MISSING, Failed, tool
from runs import OutOfTime, started
from witness_checks import Checks, NotShared

# The share of the time for what is tried before a prover that takes longer.
SHARE = 0.1
PLACES = 'model', 'proof', 'counterexample', 'seconds'
# How a program ends that has an answer, or none: those of ABC and of model checkers.
STATUSES = 0, 10, 20, 30


@dataclasses.dataclass
class Answer:
    """Who answers: with the file of a witness circuit, with a counterexample, or with neither, and
    why."""
    prover: str
    proof: str = ''
    counterexample: aiger.Counterexample | None = None
    why: str = ''

    def is_open(self):
        return not self.proof and self.counterexample is None


def first_that_fails(model, witness, solver, clock, show=lambda _: None):
    """The first of the five checks that has a solution, or on which the solver says nothing, with
    its answer; None where none has. Without a solver the gates alone have to settle them."""
    checks = Checks(model, witness)
    for name in checks.NAMES:
        show(name)
        question = checks.question(name)
        if question:
            found = solver.solution(question, clock) if solver else None
            if found is not False:
                return name, found
    return None


class Provers:
    """The circuit `least` that fretime's stages left in a folder, a solver or None, and the clock
    of the whole."""

    def __init__(self, least, stages, solver, show):
        self.least, self.stages, self.solver, self.show = least, stages, solver, show
        self.folder, self.clock, self.file = stages.folder, stages.clock, stages.done[-1].after

    def answers(self, asked):
        """The answer of each prover that is tried before the one that is asked for, and of that
        one, with the clock by which it has to be checked: all of the time for the last one, a part
        of it for those before."""
        own = {'equalities': [self.equalities], 'pdr': [self.equalities, self.pdr]}
        tried = [self.itself, *own.get(asked, [lambda clock: self.command(asked, clock)])]
        for number, prover in enumerate(tried, 1):
            clock = self.clock if number == len(tried) else self.clock.part(SHARE)
            try:
                found = prover(clock)
            except OutOfTime:
                found = Answer(asked, why='no answer in time')
            yield found, self.clock if number == len(tried) else self.clock.part(SHARE)

    def itself(self, clock):
        """Whether a good state is followed by good ones alone."""
        self.show('is it its own witness circuit? ..')
        fails = first_that_fails(self.least, self.least, self.solver, clock)
        return Answer('itself', why='not inductive') if fails else Answer('itself', self.file)

    def equalities(self, clock):
        if not self.solver:
            return Answer('equalities', why='no SAT solver is here')
        self.show('equalities ..')
        try:
            found = equalities.Prover(self.least, self.solver, clock).prove()
        except equalities.GivenUp as why:
            return Answer('equalities', why=str(why))
        if isinstance(found, aiger.Counterexample):
            return Answer('equalities', counterexample=found)
        return Answer('equalities', self.written(found))

    def written(self, witness):
        (self.folder / 'proof.aag').write_text(witness.text(), encoding='ascii')
        return 'proof.aag'

    def pdr(self, clock):
        """The invariant or the counterexample that ABC's pdr finds."""
        self.show('pdr ..')
        abc, model = tool(ABC), pdr.model_of(self.least)
        (self.folder / 'model.aag').write_text(model.text(), encoding='ascii')
        self.stages.fretime('convert', 'model.aag', 'model.aig', '--binary')
        words = 'read_aiger model.aig; pdr -d -e; write_cex -a model.cex'
        done = started([abc, '-q', words], self.folder, clock)
        invariant, found = self.folder / 'model_inv.pla', self.folder / 'model.cex'
        if found.exists() and 'was asserted' in done.stdout:
            text = found.read_text(encoding='latin-1')
            found = pdr.counterexample_of(self.least, text)
            if found is None:
                raise Failed(MISSING, 'pdr: what it wrote is no counterexample of its circuit')
            return Answer('pdr', counterexample=found)
        if 'Property proved' not in done.stdout:
            self.refuse_dead('pdr', done)
            return Answer('pdr', why='no proof')
        cubes = pdr.cubes_of(invariant, len(model.latches))
        if cubes is None:
            raise Failed(MISSING, 'pdr: its invariant is of another circuit')
        return Answer('pdr', self.written(pdr.witness_of(self.least, cubes)))

    def refuse_dead(self, name, done):
        """Refuses a program that didn't end as one that has an answer or none."""
        if done.returncode not in STATUSES:
            lines = (done.stderr or done.stdout).strip().splitlines()
            by_signal, status = done.returncode < 0, abs(done.returncode)
            ended = f'{name} ended {"by signal" if by_signal else "with"} {status}'
            raise Failed(MISSING, f'{ended}{": " + lines[-1] if lines else ""}')

    def command(self, asked, clock):
        """What a command writes that has places for the names of files."""
        self.show(f'{asked.split()[0]} ..')
        self.stages.fretime('convert', self.file, 'model.aig', '--binary')
        files = {name: self.folder / name for name in ('proof', 'counterexample')}
        places = {'model': self.folder / 'model.aig', **files, 'seconds': int(clock.left())}
        words = shlex.split(asked)
        for name, value in places.items():
            words = [word.replace(f'{{{name}}}', str(value)) for word in words]
        done = started([tool(words[:1]), *words[1:]], self.folder, clock)
        if files['proof'].exists():
            return Answer(asked, 'proof')
        text = done.stdout
        if files['counterexample'].exists():
            text = files['counterexample'].read_text(encoding='latin-1')
        found = aiger.read_counterexample(text, self.least)
        if found:
            return Answer(asked, counterexample=found)
        if files['counterexample'].exists():
            raise Failed(MISSING, f'{words[0]}: what it wrote is no counterexample of its circuit')
        self.refuse_dead(words[0], done)
        return Answer(asked, why='it wrote neither a proof nor a counterexample')


def refuse_rubbish(answer, provers):
    """Refuses the proof of a prover from outside that is no circuit, or that shares what its
    circuit doesn't have."""
    if answer.proof == 'proof':
        provers.stages.refuse_rubbish('proof', "the prover's witness circuit")
        try:
            Checks(provers.least, provers.stages.read('proof'))
        except NotShared as error:
            raise Failed(DIFFERENT, "the prover's witness circuit: NoSuchLiteral") from error

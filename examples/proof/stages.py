"""The runs of fretime that leave few latches, and the way back over them: of a witness circuit by
their maps, of a counterexample by simulation."""
import dataclasses
import os

import aiger
from programs import DIFFERENT, MEMORY, MISSING, REFUSED, Failed
from runs import started


@dataclasses.dataclass
class Stage:
    """A run: its command, the circuits before and after it, and the map."""
    command: str
    before: str
    after: str
    map: str

    def options(self):
        return ['--merge'] if self.command == 'retime' else []


class Stages:
    """The program and a folder for its files. The clock may be changed."""

    def __init__(self, program, folder, clock):
        self.program, self.folder, self.clock, self.done = program, folder, clock, []

    def run(self, *words, **more):
        # (pages of 2 MB make a run over millions of gates quicker)
        environment = {'GLIBC_TUNABLES': 'glibc.malloc.hugetlb=1', **os.environ}
        return started([self.program, *words], self.folder, self.clock, env=environment, **more)

    def fretime(self, *words):
        """What a command of fretime prints; it is a failure if it does anything but end well."""
        done = self.run(*words)
        if done.returncode:
            why = (done.stderr or done.stdout).strip() or f'ended with {done.returncode}'
            status = MEMORY if done.returncode == MEMORY else MISSING
            raise Failed(status, f'fretime {words[0]}: {why}')
        return done.stdout

    def refuse_rubbish(self, file, path):
        """Refuses a file that is no circuit, by its first fault."""
        with open(self.folder / file, 'rb') as given:
            done = self.run('stat', '-', stdin=given)
        if done.returncode:
            status = done.returncode if done.returncode in (REFUSED, MEMORY) else MISSING
            raise Failed(status, done.stderr.strip().replace('stdin:', f'{path}:', 1))

    def reduce(self, circuit):
        """The circuit with few latches: moved backward, merged and moved forward, and backward
        again. Proofs don't come back over a move backward of one with free latches, so such a
        circuit is moved forward alone."""
        (self.folder / 'problem.aag').write_text(circuit.text(), encoding='ascii')
        commands = ['retime'] if circuit.free() else ['backward', 'retime', 'backward']
        before = 'problem.aag'
        for number, command in enumerate(commands, 1):
            stage = Stage(command, before, f'stage{number}.aag', f'stage{number}_map.aag')
            words = [*stage.options(), '--ascii', '--quiet', '--map', stage.map]
            self.fretime(command, before, stage.after, *words)
            self.done.append(stage)
            before = stage.after
        return self.read(before)

    def read(self, name):
        """A circuit that fretime wrote; a file that is none is a failure."""
        try:
            return aiger.read(self.folder / name)
        except (ValueError, IndexError, KeyError) as error:
            raise Failed(DIFFERENT, f'{name}: fretime wrote no circuit') from error

    def lift(self, proof, spelling):
        """The witness circuit for the first circuit, of one for the last: its name."""
        for number, stage in reversed([*enumerate(self.done, 1)]):
            found = f'proof{number}.aag' if number > 1 else 'certificate'
            words = ['--back'] if stage.command == 'backward' else []
            words += [stage.before, stage.after, stage.map, proof, found]
            self.fretime('lift', *words, '--ascii' if number > 1 else spelling)
            proof = found
        return proof

    def carry_back(self, found, property):
        """The counterexample for the first circuit, of one for the last; by simulating both."""
        text = found.text(property)
        for stage in reversed(self.done):
            (self.folder / 'counterexample').write_text(text, encoding='ascii')
            words = ['witness', *stage.options(), stage.before, stage.after, 'counterexample']
            done = self.run(*words)
            if done.returncode == DIFFERENT:
                why = f'the counterexample is none of {stage.before}: {done.stdout.strip()}'
                raise Failed(DIFFERENT, why)
            if done.returncode:
                raise Failed(MISSING, f'fretime witness: {(done.stderr or done.stdout).strip()}')
            text = done.stdout
        (self.folder / 'counterexample').write_text(text, encoding='ascii')
        return aiger.read_counterexample(text, self.read('problem.aag'))

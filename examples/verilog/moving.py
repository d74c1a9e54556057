"""Runs of fretime on the circuit of a design: its moves as they were asked for, and what others would leave."""
import dataclasses
import os
import re

from programs import MEMORY, MISSING, Failed, started


@dataclasses.dataclass
class Moved:
    """What a run left: the lines of its frames, whether a latch moved, and one that holds with others, how many latches there are, and
    each step: its command, what it read and what it wrote."""
    lines: list
    moved: bool = False
    together: bool = False
    latches: int = 0
    steps: list = dataclasses.field(default_factory=list)


class Mover:
    """The program, the folder with the circuit in.aag, the symbols of latches that are held, and what was asked for."""

    def __init__(self, program, folder, held, asked):
        self.program, self.folder, self.held, self.asked = program, folder, held, asked

    def is_bounded(self):
        return self.asked.no_longer or self.asked.levels is not None

    def move(self, out, merge, enables, backward, bounded):
        """Moves latches forward, those that hold after them, and then backward as far as either is wanted, and writes the circuit. Those
        that hold move backward, too, if both are wanted. If they moved at all, each run has a map, by which it can be checked."""
        asked, found = self.asked, Moved([])
        keeps = [word for symbol in self.held for word in ('--keep', symbol)]
        limits = [] if asked.frames is None else ['--frames', str(asked.frames)]
        if bounded:
            limits += [*['--no-longer'] * asked.no_longer, *([] if asked.levels is None else ['--levels', str(asked.levels)])]
        forward = [*keeps, *['--near'] * asked.near, *['--merge'] * merge, *limits]
        behind = [*keeps, *['--enables'] * enables, *limits]
        runs = [('retime', forward), *[('enables', [*keeps, *limits])] * enables, *[('backward', behind)] * backward]
        read = 'in.aag'
        for command, words in runs:
            written = out if command == runs[-1][0] else f'{command}.aag'
            maps = ['--map', f'{command}.map'] if enables else []
            self.run(found, '' if command == 'retime' else f'{command} ', command, read, written, *words, *maps)
            found.steps.append((command, read, written))
            read = written
        return found

    def move_as_asked(self):
        """The moves that were asked for; the circuit is out.aag."""
        return self.move('out.aag', self.asked.merge, self.asked.enables, self.asked.backward, self.is_bounded())

    def run(self, found, before, command, *words):
        """Runs a command of fretime, and adds what it prints, with a word before it, and what it left."""
        # (pages of 2 MB make a run over millions of gates quicker)
        environment = {'GLIBC_TUNABLES': 'glibc.malloc.hugetlb=1', **os.environ}
        done = started([self.program, command, *words], self.folder, env=environment)
        latches = re.search(r'(?m)^latches \d+ to (\d+)$', done.stdout)
        if done.returncode != 0 or not latches:
            why = done.stderr.strip() or f'{self.program} ended with {done.returncode}, and {"left no circuit" if latches is None else "said nothing"}'
            raise Failed(MEMORY if done.returncode == MEMORY else MISSING, f'fretime: {why}')
        lines = [before + line for line in done.stdout.splitlines() if not line.startswith('latches ')]
        found.lines += lines
        moves = any(re.match(rf'{before}(frame \d|frames [1-9])', line) for line in lines)
        opened = command == 'enables' or '--enables' in words
        found.moved, found.together = found.moved or moves, found.together or moves and opened
        found.latches = int(latches[1])

    def is_shown(self, steps, *others):
        """Whether fretime's check shows each of these steps by its map, and two circuits more to be equal."""
        # (a map of a move backward is of what it wrote)
        pairs = [(*((written, read) if command == 'backward' else (read, written)), f'{command}.map') for command, read, written in steps]
        said = [started([self.program, 'check', *words], self.folder).stdout for words in (*pairs, others)]
        return said == ['retiming\n'] * len(pairs) + ['equal\n']

    def better(self, left):
        """What would leave fewer latches than these, and how many: moves past the bound, and the options that weren't given. Each is
        tried; one whose run fails isn't named."""
        asked = self.asked
        ways = [('without the bound', self.is_bounded(), {'bounded': False}), ('with --merge', not asked.merge, {'merge': True}),
                ('with --enables', not asked.enables, {'enables': True}), ('with --backward', not asked.backward, {'backward': True})]
        found = []
        for way, is_open, change in ways:
            choice = {'merge': asked.merge, 'enables': asked.enables, 'backward': asked.backward, 'bounded': self.is_bounded(), **change}
            try:
                latches = self.move('trial.aag', **choice).latches if is_open else left
            except Failed:
                continue
            if latches < left:
                found.append((way, latches))
        return found

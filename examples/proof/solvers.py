"""SAT solvers: whichever is there, or one that is asked for. Each reads a formula in DIMACS, and
ends with status 10 where it has a solution and 20 where it has none."""
import shlex
import shutil

from programs import MISSING, Failed
from runs import started

# Those that may be installed, with the words before the formula; MiniSat alone writes a solution
# to a file in place of lines that begin with a v.
KNOWN = {'cadical': ['-q'], 'kissat': ['-q'], 'minisat': ['-verb=0'], 'picosat': []}
SATISFIABLE, UNSATISFIABLE = 10, 20


class Solver:
    """A solver: its words, and a folder and a clock for its runs."""

    def __init__(self, words, folder):
        self.words, self.folder, self.calls = words, folder, 0
        self.name = words[0].rpartition('/')[2]

    def solution(self, question, clock):
        """A solution of a formula, as the set of its variables that are 1; False where it has
        none, and None where the solver doesn't say."""
        self.calls += 1
        path, told = self.folder / 'question.cnf', self.folder / 'question.model'
        path.write_text(question.text, encoding='ascii')
        writes = [told] if self.name == 'minisat' else []
        done = started([*self.words, path, *writes], self.folder, clock)
        if done.returncode == UNSATISFIABLE:
            return False
        if done.returncode != SATISFIABLE:
            return None
        lines = told.read_text().splitlines()[1:] if writes else done.stdout.splitlines()
        lines = lines if writes else [line[1:] for line in lines if line.startswith('v')]
        return {number for line in lines for number in map(int, line.split()) if number > 0}


def solver(asked, folder):
    """The solver that is asked for, or the first that is there; None where none is, or where
    `none` is asked for."""
    if asked == 'none':
        return None
    if asked:
        words = shlex.split(asked)
        if not words or not shutil.which(words[0]):
            raise Failed(MISSING, f'{asked}: there is no such solver')
        return Solver([shutil.which(words[0]), *words[1:]], folder)
    found = next((name for name in KNOWN if shutil.which(name)), None)
    return found and Solver([shutil.which(found), *KNOWN[found]], folder)

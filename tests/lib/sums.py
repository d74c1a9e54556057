"""The sum of a script of tests: how many cases passed and failed, and what was left out. Its last line is what ./test reads."""
from skips import LeftOut


class Sum:
    """The cases of a script so far."""

    def __init__(self):
        self.passed, self.failed, self.left_out = 0, 0, LeftOut()

    def count(self, name, wrong, *more, most=None):
        """Counts a case, which failed if something is wrong: a line of `most` characters says what, and more lines may follow."""
        self.passed, self.failed = self.passed + (not wrong), self.failed + bool(wrong)
        if wrong:
            print(f'FAILED {name}: {wrong}'[:most], *more, sep='\n')

    def count_all(self, name, faults, most=None):
        """Counts a case that failed if there are faults, a line each."""
        self.passed, self.failed = self.passed + (not faults), self.failed + bool(faults)
        for fault in faults:
            print(f'FAILED {name}: {fault}'[:most])

    def end(self):
        """Prints what was left out, and the sum. Returns the exit status: 0 if no case failed, and any passed or was left out."""
        self.left_out.tell()
        print(f'{self.passed} passed, {self.failed} failed')
        return 0 if not self.failed and (self.passed or self.left_out.counts) else 1

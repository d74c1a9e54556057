"""What a script leaves out, and for want of what: it says so in lines of one form, which ./test counts."""
import collections
import shutil


class Skipped(Exception):
    """A case is left out for want of what the message names."""


def need(*tools):
    """Leaves a case out for want of the first of these tools that isn't on the machine."""
    for tool in tools:
        if not shutil.which(tool):
            raise Skipped(tool)


class LeftOut:
    """How many cases are left out, by what they want."""

    def __init__(self):
        self.counts = collections.Counter()

    def add(self, wanted, count=1):
        self.counts[str(wanted)] += count

    def tell(self):
        """Prints a line for each thing that is wanted."""
        for wanted, count in self.counts.items():
            print(f'left out: {count} case{"s" * (count != 1)}: want of {wanted}')

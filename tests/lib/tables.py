"""Values in all rows of a table: a column for each input and latch, and a word with a bit for each row."""


class Words:
    """Values of literals in all rows of a table, a bit each."""

    def __init__(self, c, inputs, state, ones):
        self.values, self.ones = {0: 0, **dict(zip(c.inputs, inputs)), **dict(zip([latch[0] for latch in c.latches], state))}, ones
        for lhs, a, b in c.gates:
            self.values[lhs] = self.at(a) & self.at(b)

    def at(self, lit):
        return self.values[lit & ~1] ^ (self.ones if lit & 1 else 0)

    def all(self, lits):
        return list(map(self.at, lits))


def all_rows(columns):
    """So many columns of a table of all rows, and the word of ones."""
    rows = 1 << columns
    return [sum(1 << row for row in range(rows) if row >> k & 1) for k in range(columns)], (1 << rows) - 1

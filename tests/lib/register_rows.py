"""Rows of registers with an enable, each one shorter than the row before: all of them move to the last row."""
from random_registers import Gates
from reference.circuit import Circuit, text

RESET, ENABLE = 2, 4


def register_rows(rows, is_reset):
    """The file: a register loads an input, or what two registers of the row before have. With a reset too if `is_reset` says so."""
    widths = [rows + 1 - k for k in range(rows)]
    inputs = 2 + widths[0]
    gates, nexts = Gates(inputs, sum(widths)), []
    before = [6 + 2 * k for k in range(inputs - 2)]
    for width in widths:
        loads = before if width == widths[0] else list(map(gates.both, before, before[1:]))
        own = [2 * (1 + inputs + len(nexts) + k) for k in range(width)]
        held = [gates.choice(ENABLE, load, lit) for load, lit in zip(loads, own)]
        nexts += [gates.both(lit, RESET ^ 1) for lit in held] if is_reset else held
        before = own
    return text(Circuit(inputs, [(lit, 0) for lit in nexts], gates.gates, [gates.both(*before)]), 'aig')

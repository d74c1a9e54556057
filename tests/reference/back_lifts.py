"""A witness circuit of a circuit whose states map to those of another one: made one of that other circuit."""
from reference.circuit import Circuit
from reference.lifts import lifted_over, sharing
from reference.miters import Asked


def turned(c, d, m):
    """The map of the latches of c and then d to those of d, with one constraint: that m, of these, gives those of c."""
    first, second = ([2 * (1 + before + k) for k in range(many)] for before, many in ((0, len(c.latches)), (len(c.latches), len(d.latches))))
    asked = Asked(1 + len(first) + len(second))
    kept, outputs = asked.image(m, second)
    return Circuit(len(first) + len(second), [], asked.gates, second, [], [asked.gate(kept, asked.all_equal(outputs, first))])


def lifted_back(c, d, m, w):
    """The witness circuit for c, which has no free latch, that is made of w, which is one for d, by a map m of the states of d to those of c:
    the latches of d are its own."""
    nothing = Circuit(len(c.latches), [], [], [], [], [])
    both = lifted_over(c, nothing, d, ([*range(d.inputs)], [None] * len(d.latches)), c)
    return lifted_over(both, turned(c, d, m), w, sharing(d, w), c)

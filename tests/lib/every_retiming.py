"""The least latches of any retiming of a small circuit, with every one tried: what bench/least_retimer is tested against."""
import itertools

from reference.circuit import FREE


def stays(c, var):
    """Whether a latch has no known reset, or stands in a ring of latches without a gate."""
    at = var
    for _ in c.latches:
        if c.latch(at) is None or c.latch(at)[1] is FREE:
            break
        at = c.latch(at)[0] // 2
        if at == var:
            return True
    return c.latch(var)[1] is FREE


def source(c, lit):
    """The input, gate, constant or latch that stays behind a literal, and the latches between both."""
    var, between = lit // 2, 0
    while c.latch(var) and not stays(c, var):
        var, between = c.latch(var)[0] // 2, between + 1
    return var, between


def edges(c):
    """Each source with a reader, which is a gate or nothing that moves, and the latches between both."""
    places = range(c.first_latch(), c.first_gate())
    still = [*c.outputs, *c.bad, *c.constraints, *(c.latch(var)[0] for var in places if stays(c, var))]
    reads = [(lit, None) for lit in still]
    reads += [(lit, c.first_gate() + k) for k, pair in enumerate(c.gates) for lit in pair]
    return [(*source(c, lit), reader) for lit, reader in reads]


def gates_of(c):
    return range(c.first_gate(), c.end())


def longest(between, gates):
    """The gates of the longest path without a latch."""
    def to(gate):
        return 1 + max((to(var) for var, count, reader in between if reader == gate and count == 0 and var in gates), default=0)
    return max(map(to, gates), default=0)


def levels(c):
    """The gates of the circuit's longest path."""
    return longest(edges(c), gates_of(c))


def retimings(c):
    """The latches and levels of each retiming by labels of at most as many steps as there are latches."""
    gates, steps = gates_of(c), range(-len(c.latches), len(c.latches) + 1)
    held = sum(stays(c, var) for var in range(c.first_latch(), c.first_gate()))
    read = edges(c)
    for chosen in itertools.product(steps, repeat=len(gates)):
        moved = dict(zip(gates, chosen))
        between = [(var, count + moved.get(reader, 0) - moved.get(var, 0), reader) for var, count, reader in read]
        if all(count >= 0 for _, count, _ in between):
            most = {var: max(count for it, count, _ in between if it == var) for var, _, _ in between}
            yield held + sum(most.values()), longest(between, gates)


def least(c):
    """The least latches of all retimings, and of those whose levels are at most the circuit's."""
    found, bound = list(retimings(c)), levels(c)
    return min(count for count, _ in found), min(count for count, length in found if length <= bound)

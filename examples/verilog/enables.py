"""Which latches of a circuit have an enable: under a hold, a literal of the circuit, such a latch keeps its value, and else it takes
its load. A synchronous reset may stand over both."""
import collections
import dataclasses


@dataclasses.dataclass(frozen=True)
class Step:
    """What a latch takes: where the reset is 1 its value, 0 or 1; else where the hold is 1 what it holds; else the load. A literal that
    isn't there is None. Latches of one register are written together where all but the load is the same."""
    load: int
    hold: int | None = None
    reset: int | None = None
    value: int = 0

    def kind(self):
        return self.hold, self.reset, self.value


def choice(gates, literal):
    """The three literals (test, one, other) of a literal that is 'test ? one : other', in either order of the two; or nothing."""
    top = gates.get(literal >> 1)
    if top is None or not all(fanin & 1 and fanin >> 1 in gates for fanin in top):
        return
    first, second = (gates[fanin >> 1] for fanin in top)
    for test, one in (first, first[::-1]):
        for against, other in (second, second[::-1]):
            if test == against ^ 1:
                # (the gate itself is 'test ? !one : !other')
                flip = literal & 1 ^ 1
                yield test, one ^ flip, other ^ flip


def held(gates, literal, own, kept=1):
    """The hold and the load of a literal that is 'hold ? own : load' where a literal kept is 1, or None. 'test ? own : !own' is an
    exclusive or, and no hold."""
    def known(it):
        """A literal, or the other fan-in of 'kept & other': where kept is 1 both are one."""
        fanins = gates.get(it >> 1, ())
        others = [other for one, other in zip(fanins, fanins[::-1]) if one == kept and other >> 1 == own >> 1]
        return others[0] ^ it & 1 if others else it

    for test, *values in choice(gates, literal):
        one, other = map(known, values)
        if one == own and other != own ^ 1:
            return test, values[1]
        if other == own and one != own ^ 1:
            return test ^ 1, values[0]
    return None


def step_of(gates, latch):
    """The step of a latch that holds, also behind one reset; or None."""
    own, taken = latch.variable * 2, latch.following
    found = held(gates, taken, own)
    if found:
        return Step(found[1], found[0])
    # 'kept & rest' is 0 where kept is 0, else the rest; its complement is 1 there, else the complement of the rest
    value, fanins = taken & 1, gates.get(taken >> 1, ())
    for kept, rest in zip(fanins, fanins[::-1]):
        found = held(gates, rest ^ value, own, kept)
        if found:
            return Step(found[1], found[0], kept ^ 1, value)
    return None


def steps(circuit):
    """The step of each latch, in their order. A hold is one of two latches at least."""
    gates = {variable: fanins for variable, *fanins in circuit.gates}
    found = [step_of(gates, latch) for latch in circuit.latches]
    count = collections.Counter(step.hold for step in found if step)
    return [step if step and count[step.hold] > 1 else Step(latch.following) for step, latch in zip(found, circuit.latches)]


def plain_steps(circuit):
    """Each latch takes its next value, as it stands in the circuit."""
    return [Step(latch.following) for latch in circuit.latches]

"""Retiming by definition: closed sets of gates, least ones found in two ways, latches moved over them, frame by frame; and rounds of these,
each of which merges latches first. `merge` is False, True, or the lines of each round, where these are given."""
import dataclasses
import itertools

from reference.circuit import FREE, Circuit, ordered
from reference.cleaning import cleaned
from reference.merging import merged, merged_lines

MOST_ENUMERATED = 9


class NoSuchName(Exception):
    """No latch has this name."""


class NoSuchLatch(Exception):
    """No latch has this place."""


def held_latches(c, wanted):
    """The positions of the latches that are held: of names, which are bytes, and of places, which are numbers."""
    places, names = [one for one in wanted if isinstance(one, int)], [one for one in wanted if isinstance(one, bytes)]
    for place in places:
        if place >= len(c.latches):
            raise NoSuchLatch(place)
    for name in names:
        if name not in c.symbols['l'].values():
            raise NoSuchName(name)
    return {k for k, name in c.symbols['l'].items() if name in names} | set(places)


def passable(c, held=frozenset(), bound=None):
    """Gates whose fan-ins all are known latches that aren't held, or such gates, in order; under a bound those alone that arrive within it."""
    passed = {c.first_latch() + k for k in range(len(c.latches)) if c.is_known(c.first_latch() + k) and k not in held}
    for k, fan_ins in enumerate(c.gates):
        if all(lit // 2 in passed for lit in fan_ins):
            passed.add(c.first_gate() + k)
    arrivals = [] if bound is None else c.arrivals()
    return sorted(var for var in passed if var >= c.first_gate() and (bound is None or arrivals[var] <= bound))


def closed_sets(c, held, bound):
    """All sets of passable gates that have each gate that a member reads."""
    gates = passable(c, held, bound)
    for size in range(len(gates) + 1):
        for chosen in itertools.combinations(gates, size):
            members = set(chosen)
            if all(c.latch(lit // 2) or lit // 2 in members for v in members for lit in c.gate(v)):
                yield members


def read_outside(c, members, held):
    """The variables that a next literal, a property or a gate outside a set reads, and the held latches."""
    read = {lit // 2 for k, fan_ins in enumerate(c.gates) if c.first_gate() + k not in members for lit in fan_ins}
    read |= {next_lit // 2 for next_lit, _ in c.latches} | {lit // 2 for lit in c.properties()}
    return read | {c.first_latch() + k for k in held}


def border(c, members, held):
    """The known latches, and gates of a set, that are read outside it: each needs a latch after the move."""
    read = read_outside(c, members, held)
    return [v for v in range(c.first_latch(), c.end()) if v in read and (c.is_known(v) or v in members)]


def least_of_all(c, held, smallest, bound):
    """By trying every closed set."""
    sets = [(len(border(c, members, held)), members) for members in closed_sets(c, held, bound)]
    least = min(count for count, _ in sets)
    sets = [members for count, members in sets if count == least]
    return least, set.intersection(*sets) if smallest else set.union(*sets)


def arcs_of(c, held, bound):
    """The flow network, node by node: heads with their capacities. A gate has a node for its fan-in side, '-', and one for its
    fan-out side, '+'; a latch has the latter alone."""
    gates, unlimited = passable(c, held, bound), len(c.latches) + 1
    inside = set(gates)
    arcs = {'source': {}, 'sink': {}}
    for v in range(c.first_latch(), c.first_gate()):
        if c.is_known(v):
            arcs['source'][v, '+'] = 1
            arcs[v, '+'] = {}
    for v in gates:
        arcs[v, '-'], arcs[v, '+'] = {(v, '+'): 1}, {}
    for v in gates:
        for var in {lit // 2 for lit in c.gate(v)}:
            arcs[var, '+'][v, '-'] = unlimited
            if var in inside:
                arcs[v, '-'][var, '-'] = unlimited
    for v in read_outside(c, inside, held):
        if (v, '+') in arcs:
            arcs[v, '+']['sink'] = unlimited
    return arcs


def path_to_sink(residual):
    """An augmenting path from the source to the sink, as arcs, or None."""
    parent, stack = {'source': None}, ['source']
    while stack:
        node = stack.pop()
        for head, capacity in residual[node].items():
            if capacity and head not in parent:
                parent[head] = node
                if head == 'sink':
                    return arcs_to(head, parent)
                stack.append(head)
    return None


def arcs_to(node, parent):
    """The arcs by which a search came to a node, the last one first."""
    arcs = []
    while parent[node] is not None:
        arcs.append((parent[node], node))
        node = parent[node]
    return arcs


def maximum_flow(c, held, bound):
    """By augmenting paths of one unit each: the units, and what room is left on each arc."""
    arcs = arcs_of(c, held, bound)
    residual = {tail: dict(heads) for tail, heads in arcs.items()}
    for tail, heads in arcs.items():
        for head in heads:
            residual[head].setdefault(tail, 0)
    count, path = 0, path_to_sink(residual)
    while path:
        count += 1
        for tail, head in path:
            residual[tail][head] -= 1
            residual[head][tail] += 1
        path = path_to_sink(residual)
    return count, residual


def greatest_least_by_flow(c, held, bound):
    """The gates before which the sink can't be reached any more."""
    count, residual = maximum_flow(c, held, bound)
    reaching, queue = {'sink'}, ['sink']
    for node in queue:
        for tail in residual[node]:
            if residual[tail][node] and tail not in reaching:
                reaching.add(tail)
                queue.append(tail)
    return count, {v for v in passable(c, held, bound) if (v, '-') not in reaching}


def smallest_least_by_flow(c, held, bound):
    """The gates whose fan-in side can be reached from the source still."""
    count, residual = maximum_flow(c, held, bound)
    reached, queue = {'source'}, ['source']
    for node in queue:
        for head, room in residual[node].items():
            if room and head not in reached:
                reached.add(head)
                queue.append(head)
    return count, {v for v in passable(c, held, bound) if (v, '-') in reached}


def greatest_least(c, held=frozenset(), bound=None):
    few = len(passable(c, held, bound)) <= MOST_ENUMERATED
    return least_of_all(c, held, False, bound) if few else greatest_least_by_flow(c, held, bound)


def smallest_least(c, held=frozenset(), bound=None):
    few = len(passable(c, held, bound)) <= MOST_ENUMERATED
    return least_of_all(c, held, True, bound) if few else smallest_least_by_flow(c, held, bound)


def values_at_start(c):
    """The value at step 0 of each variable that known resets decide; false for others."""
    values = {}
    for v in range(c.first_latch(), c.end()):
        gate = c.gate(v)
        values[v] = all(values.get(lit // 2, False) ^ bool(lit & 1) for lit in gate) if gate else bool(c.latch(v)[1])
    return values


def latched_after(c, members, held):
    """The latches that stay where latches move over a closed set, and the gates of it that get one, in order."""
    needed = set(border(c, members, held))
    staying = [v for v in range(c.first_latch(), c.first_gate()) if v in needed or c.latch(v)[1] is FREE]
    return staying, [v for v in sorted(members) if v in needed]


def moved(c, members, held=frozenset()):
    """The circuit with its latches moved over a closed set, and the positions of its held latches. Its latches are those that
    stay, then a new one for each gate of the border; its gates those outside the set, then the members, whose fan-ins are now
    those before the latches."""
    staying, new = latched_after(c, members, held)
    values = values_at_start(c)
    outside = [v for v in range(c.first_gate(), c.end()) if v not in members]
    start = c.first_latch()
    variables = {v: start + k for k, v in enumerate(staying + new + outside)}
    copies = {v: start + len(variables) + k for k, v in enumerate(sorted(members))}

    def now(lit):
        return 2 * variables.get(lit // 2, lit // 2) + (lit & 1)

    def before_latch(lit):
        return (2 * copies[lit // 2] if lit // 2 in members else now(c.latch(lit // 2)[0])) ^ (lit & 1)

    names = c.symbols['l']
    d = c.with_parts(
        [(now(c.latch(v)[0]), c.latch(v)[1]) for v in staying] + [(2 * copies[v], int(values[v])) for v in new],
        [ordered(*map(now, c.gate(v))) for v in outside] + [ordered(*map(before_latch, c.gate(v))) for v in sorted(members)],
        now,
        {k: names[v - start] for k, v in enumerate(staying) if v - start in names},
    )
    return d, {staying.index(start + k) for k in held}


@dataclasses.dataclass
class Frame:
    """A circuit, its held latches, its least count and the set that is taken; the bound is that within which the set is least, None where
    it is least of all."""
    circuit: Circuit
    held: set
    count: int
    members: set
    bound: int

    def saves(self):
        return self.count < self.circuit.known_latches()

    def taken(self):
        return cleaned(*moved(self.circuit, self.members, self.held))


def frame_of(c, held, smallest, bound):
    """The least set of all; where latches moved over it make a path longer than the bound, that of the gates that arrive within the bound."""
    least_set = smallest_least if smallest else greatest_least
    frame = Frame(c, held, *least_set(c, held), None)
    if bound is None or not frame.saves() or moved(c, frame.members, held)[0].levels() <= bound:
        return frame
    return Frame(c, held, *least_set(c, held, bound), bound)


@dataclasses.dataclass
class Round:
    """The cleaned circuit that it begins with, and its held latches; the lines of merged latches, None where none were to be merged; and the
    frames from there, with the look at the last circuit where the limit of frames didn't end the run."""
    circuit: Circuit
    held: set
    listed: list
    frames: list = dataclasses.field(default_factory=list)

    def start(self):
        """The circuit before the first frame, and its held latches."""
        c, held = self.circuit, self.held
        return (c, held) if self.listed is None else cleaned(merged(c, held, self.listed), held)

    def taken(self):
        """The frames that move latches."""
        return [frame for frame in self.frames if frame.saves()]

    def end(self):
        """The circuit after the last frame, and its held latches."""
        taken = self.taken()
        return taken[-1].taken() if taken else self.start()

    def take_frames(self, most, smallest, bound):
        """Takes frames while they save latches, at most so many."""
        c, held = self.start()
        while most is None or len(self.frames) < most:
            self.frames.append(frame_of(c, held, smallest, bound))
            if not self.frames[-1].saves():
                break
            c, held = self.frames[-1].taken()


def lines_of_round(c, held, merge, number):
    """The latches that a round merges in a cleaned circuit; none where lines are given, but not for this round."""
    if merge is False:
        return None
    if merge is True:
        return merged_lines(c, held, True)
    return merge[number] if number < len(merge) else []


def rounds_of(c, most=None, names=(), smallest=False, merge=False, bound=None):
    """The rounds, one by one: a further one where the one before took a frame and then a latch can be merged. The limit is that of all frames."""
    c, held = cleaned(c, held_latches(c, names))
    for number in itertools.count():
        listed = lines_of_round(c, held, merge, number)
        if number and not listed:
            break
        found = Round(c, held, listed)
        found.take_frames(most, smallest, bound)
        yield found
        if not found.taken():
            break
        most = None if most is None else most - len(found.taken())
        c, held = found.end()


def retimed(c, most=None, names=(), smallest=False, merge=False, bound=None):
    """The retimed circuit, and for each frame its known latches before and the count of its set."""
    rounds = list(rounds_of(c, most, names, smallest, merge, bound))
    return rounds[-1].end()[0], [(frame.circuit.known_latches(), frame.count) for one in rounds for frame in one.taken()]

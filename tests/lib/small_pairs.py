"""Pairs of small circuits with equal properties at all steps, and pairs that are bent: a literal, a reset, a constraint, a name or the list
of free latches is another, or free latches are exchanged. A seed gives the same pairs everywhere."""
import dataclasses
import functools

import map_checker
import random_files
import small_circuits
from reference.circuit import FREE, ascii_text
from reference.reading import read


@dataclasses.dataclass
class Pair:
    """What it is, two circuits, and the places among the free latches of the first of those of the second; None if all stay."""
    what: str
    c: map_checker.Circuit
    d: map_checker.Circuit
    kept: list = None
    is_bent: bool = False

    def free_kept(self):
        """The places of the latches of the first circuit for which the free ones of the second stand."""
        free = free_of(self.c)
        return free if self.kept is None else [free[place] for place in self.kept]

    def fits(self):
        """Whether both have one shape, and the list is one of the free latches of the second."""
        most = len(free_of(self.c))
        places = range(most) if self.kept is None else self.kept
        return self.c.shape() == self.d.shape() and len(places) == len(free_of(self.d)) and all(place < most for place in places)

    def files(self, rng):
        """Both circuits as files: in either spelling, with other variables, and with gates and names in any order."""
        return [random_files.any_file(rng, read(small_circuits.text_of(c))[0]) for c in (self.c, self.d)]


def free_of(c):
    return [k for k, latch in enumerate(c.latches) if latch[2] is None]


def of_reference(*circuits):
    """Circuits of the reference model, as the checker of maps reads them."""
    return [map_checker.read_circuit(ascii_text(c)) for c in circuits]


def random_circuit(rng):
    return random_files.circuit(rng, 3, 5, 9)


def free_places(c):
    """The places of the free latches of a circuit of the reference model."""
    return [k for k, (_, reset) in enumerate(c.latches) if reset is FREE]


def with_free_latches(rng, least):
    """A random circuit with so many free latches or more."""
    while True:
        c = random_circuit(rng)
        if len(free_places(c)) >= least:
            return c


# Pairs with equal properties.

def with_a_map(maker, rng):
    """A pair that has a map: a free latch of the second circuit is an input of the map."""
    c, d, m = maker(rng)
    inputs, free = {lit: k for k, lit in enumerate(m.inputs)}, free_of(c)
    kept = [free.index(inputs[m.outputs[k]]) for k in free_of(d)]
    return Pair(maker.__name__, c, d, None if len(kept) == len(free) else kept)


def in_order(c, order):
    """A circuit of the reference model with its latches in this order."""
    first = c.first_latch()
    new = {first + k: first + place for place, k in enumerate(order)}

    def now(lit):
        return 2 * new.get(lit // 2, lit // 2) + lit % 2

    gates = [tuple(map(now, fan_ins)) for fan_ins in c.gates]
    return c.with_parts([(now(c.latches[k][0]), c.latches[k][1]) for k in order], gates, now, {})


def itself(rng):
    """A circuit, and the same one with its latches in another order, in which free ones keep theirs."""
    c = random_circuit(rng)
    free = iter(free_places(c))
    order = rng.sample(range(len(c.latches)), len(c.latches))
    order = [next(free) if c.latches[k][1] is FREE else k for k in order]
    return Pair('itself', *of_reference(c, in_order(c, order)))


def doubled(rng):
    """A circuit without free latches, and all of it twice; each property reads one of the two."""
    c = random_circuit(rng)
    c.latches = [(lit, rng.randrange(2) if reset is FREE else reset) for lit, reset in c.latches]
    return Pair('doubled', *of_reference(c, random_files.with_copies(rng, c)))


def dropped(rng):
    """A circuit with one to three free latches on which nothing rests, and the circuit without them."""
    d, more = with_free_latches(rng, 1), rng.randint(1, 3)
    every = range(len(d.latches) + more)
    places, first = set(rng.sample(every, more)), d.first_latch()
    now_at = {first + k: first + place for k, place in enumerate(place for place in every if place not in places)}

    def now(lit):
        return 2 * now_at.get(lit // 2, lit // 2 + more * (lit // 2 >= d.first_gate())) + lit % 2

    own = iter([(now(lit), reset) for lit, reset in d.latches])
    latches = [(rng.randrange(2 * (d.end() + more)), FREE) if place in places else next(own) for place in every]
    c = d.with_parts(latches, [tuple(map(now, fan_ins)) for fan_ins in d.gates], now, {})
    return Pair('dropped', *of_reference(c, d), [k for k, place in enumerate(free_places(c)) if place not in places])


MAKERS = [*(functools.partial(with_a_map, maker) for maker in small_circuits.MAKERS), itself, doubled, dropped]


def constrained(pair):
    """The pair with a constraint more in both circuits, which no state meets."""
    c, d = (dataclasses.replace(c, constraints=[*c.constraints, 0]) for c in (pair.c, pair.d))
    return dataclasses.replace(pair, c=c, d=d)


def turned(pair):
    """The pair the other way round, if all free latches stay."""
    return dataclasses.replace(pair, c=pair.d, d=pair.c) if pair.kept is None else pair


def straight(rng, maker):
    """A pair of this maker, at times turned round, and at times with a constraint that no state meets."""
    pair = maker(rng)
    pair = turned(pair) if rng.random() < 0.3 else pair
    return constrained(pair) if rng.random() < 0.1 else pair


# Pairs that are bent.

def exchanged(rng):
    """A circuit with several free latches, and the same one with two of them exchanged."""
    c = with_free_latches(rng, 2)
    one, other = rng.sample(free_places(c), 2)
    order = [{one: other, other: one}.get(k, k) for k in range(len(c.latches))]
    return Pair('free latches exchanged', *of_reference(c, in_order(c, order)), is_bent=True)


def with_another_list(rng, pair):
    """The pair with another free latch of the first circuit in the place of one."""
    others = [place for place in range(len(free_of(pair.c))) if place not in pair.kept]
    kept = sorted({*pair.kept} - {rng.choice(pair.kept)} | {rng.choice(others)})
    return dataclasses.replace(pair, kept=kept, is_bent=True)


def with_another_reset(rng, pair):
    """The pair with the other reset of a known latch of the second circuit."""
    latches = list(pair.d.latches)
    k = rng.choice([k for k, latch in enumerate(latches) if latch[2] is not None])
    latches[k] = (*latches[k][:2], 1 - latches[k][2])
    return dataclasses.replace(pair, d=dataclasses.replace(pair.d, latches=latches), is_bent=True)


def bent(rng, pair):
    """The pair with one thing changed, or now and then with several; else one with free latches exchanged."""
    way = rng.random()
    if way < 0.1:
        return exchanged(rng)
    if way < 0.4 and pair.kept and len(pair.kept) < len(free_of(pair.c)):
        return with_another_list(rng, pair)
    if way < 0.4 and len(free_of(pair.d)) < len(pair.d.latches):
        return with_another_reset(rng, pair)
    c, d = pair.c, pair.d
    for _ in range(rng.choice([1, 1, 1, 1, 1, 1, 1, 6])):
        c, d = small_circuits.changed(rng, (c, d))
    return dataclasses.replace(pair, c=c, d=d, is_bent=True)


def pairs(rng):
    """Five pairs, and each of them bent."""
    for maker in rng.sample(MAKERS, 5):
        pair = straight(rng, maker)
        yield pair
        yield bent(rng, pair)

"""Pairs of circuits of some hundred gates, of the families of bench: a circuit, and the same one with gates written in other ways, over
which questions run out of steps; and such pairs bent."""
import functools
import subprocess

import map_checker
import small_circuits
from small_pairs import Pair
from tree import TOP

FAMILIES = ('multiplier 4', 'multiplier 6', 'cordic 4', 'fir 4 4', 'gates 300 60', 'lockstep 2 4', 'voted 4 3', 'serial_ports 2 6', 'counter 12',
            'gray 6', 'rounds 8 2', 'tied_off 2 4')


@functools.lru_cache(maxsize=None)
def made(family):
    ran = subprocess.run([TOP / 'bench' / 'families.py', *family.split()], capture_output=True, check=True)
    return map_checker.read_circuit(ran.stdout)


def written_anew(rng, c, share):
    """The circuit with this share of its gates written in other ways."""
    b = small_circuits.Builder(len(c.inputs), [latch[2] for latch in c.latches])
    here = {0: 0, **{lit: lit for lit in b.leaves()}}

    def at(lit):
        return here[lit & ~1] ^ lit & 1

    for lhs, one, other in c.gates:
        if rng.random() < share:
            here[lhs] = small_circuits.rewritten(rng, b, [(lhs, one, other)], here)(lhs)
        else:
            here[lhs] = b.gate(at(one), at(other))
    return b.circuit([at(latch[1]) for latch in c.latches], [at(lit) for lit in c.outputs])


def pairs(rng):
    """A pair, and the pair bent. Families have outputs and no other properties, and no free latches."""
    c = made(rng.choice(FAMILIES))
    pair = Pair('large', c, written_anew(rng, c, rng.choice([0.02, 0.2, 1])))
    yield pair
    c, d = small_circuits.changed(rng, (pair.c, pair.d))
    yield Pair('large', c, d, is_bent=True)

#!/usr/bin/env python3
"""Families of circuits by size, as binary AIGER files.

usage: bench/families.py [copies COUNT] FAMILY SIZE .. > FILE
       bench/families.py --list

The same words give the same bytes. `copies COUNT` gives so many copies of the circuit side by side, each with its own inputs.
"""
import inspect
import os
import math
import random
import re
import sys


class Builder:
    """Nodes in any order; `file` numbers inputs first, then latches, then gates. A literal is twice a node, and 1 more where it
    is negated."""

    def __init__(self):
        self.inputs, self.latches, self.gates, self.outputs = [], [], [], []
        self.nodes = 1
        self.following = {}
        self.begun_with_1 = set()
        self.fan_ins = {}

    def node(self, kind):
        kind.append(self.nodes)
        self.nodes += 1
        return 2 * (self.nodes - 1)

    def input(self):
        return self.node(self.inputs)

    def latch(self, following, reset=0):
        """A latch; what it takes may be told later, by `follow`."""
        lit = self.node(self.latches)
        self.following[lit // 2] = following
        if reset:
            self.begun_with_1.add(lit // 2)
        return lit

    def register(self, bits):
        """A word of latches that take what `follow` tells later."""
        return [self.latch(0) for _ in range(bits)]

    def follow(self, word, following):
        """Tells what the latches of a word take."""
        self.following.update({lit // 2: bit for lit, bit in zip(word, following)})

    def land(self, a, b):
        if a == 0 or b == 0 or a == b ^ 1:
            return 0
        if a == 1 or a == b:
            return b
        if b == 1:
            return a
        lit = self.node(self.gates)
        self.fan_ins[lit // 2] = (a, b)
        return lit

    def lor(self, a, b):
        return self.land(a ^ 1, b ^ 1) ^ 1

    def xor(self, a, b):
        return self.land(self.land(a, b) ^ 1, self.lor(a, b))

    def add(self, a, b):
        """The sum of two numbers, bit by bit from the lowest, one bit longer than the longer."""
        total, carry = [], 0
        for k in range(max(len(a), len(b))):
            one, other = a[k] if k < len(a) else 0, b[k] if k < len(b) else 0
            half = self.xor(one, other)
            total.append(self.xor(half, carry))
            carry = self.lor(self.land(one, other), self.land(half, carry))
        return total + [carry]

    def subtract(self, a, b):
        """The difference of two numbers of equal length, and whether the first is no less."""
        total = self.add_with(a, [bit ^ 1 for bit in b], 1)
        return total[:-1], total[-1]

    def add_with(self, a, b, carry):
        """The sum of two numbers of equal length and a carry, one bit longer."""
        total = []
        for one, other in zip(a, b):
            half = self.xor(one, other)
            total.append(self.xor(half, carry))
            carry = self.lor(self.land(one, other), self.land(half, carry))
        return total + [carry]

    def all_of(self, bits):
        """Whether all of these bits are 1."""
        while len(bits) > 1:
            bits = [self.land(*bits[k : k + 2]) if k + 1 < len(bits) else bits[k] for k in range(0, len(bits), 2)]
        return bits[0] if bits else 1

    def is_number(self, word, number):
        """Whether a word, from its lowest bit, is this number."""
        return self.all_of([bit ^ 1 ^ (number >> place & 1) for place, bit in enumerate(word)])

    def chosen(self, place, words):
        """The word at a place, which is given from its lowest bit; there are as many words as it has values."""
        for bit in place:
            words = [self.choose(bit, two[1], two[0]) for two in zip(words[::2], words[1::2])]
        return words[0]

    def choose(self, test, a, b):
        """The first word where the test holds, else the second."""
        return [self.lor(self.land(test, one), self.land(test ^ 1, other)) for one, other in zip(a, b)]

    def word(self, bits):
        return [self.input() for _ in range(bits)]

    def held(self, word):
        """The word one step later."""
        return [self.latch(bit) if bit > 1 else bit for bit in word]

    def numbers(self, count, which):
        """The variable of each node in one of so many copies: all inputs come first, then all latches, then all gates."""
        number, first = {0: 0}, 1
        for kind in (self.inputs, self.latches, self.gates):
            number.update(zip(kind, range(first + which * len(kind), first + (which + 1) * len(kind))))
            first += count * len(kind)
        return number

    def pieces(self, count=1):
        """The file of so many copies side by side, in pieces."""
        new = lambda number, lit: 2 * number[lit // 2] + (lit & 1)
        sizes = [count * len(kind) for kind in (self.inputs, self.latches, self.outputs, self.gates)]
        yield f'aig {sum(sizes) - sizes[2]} {sizes[0]} {sizes[1]} {sizes[2]} {sizes[3]}\n'.encode()
        ends = [' 1\n' if node in self.begun_with_1 else '\n' for node in self.latches]
        for lits, after in (([self.following[node] for node in self.latches], ends), (self.outputs, ['\n'] * len(self.outputs))):
            for which in range(count):
                number = self.numbers(count, which)
                yield ''.join(f'{new(number, lit)}{end}' for lit, end in zip(lits, after)).encode()
        for which in range(count):
            number, deltas = self.numbers(count, which), bytearray()
            for node in self.gates:
                low, high = sorted(new(number, lit) for lit in self.fan_ins[node])
                put_delta(deltas, 2 * number[node] - high)
                put_delta(deltas, high - low)
            yield deltas


def put_delta(deltas, value):
    while value > 127:
        deltas.append(128 | value & 127)
        value >>= 7
    deltas.append(value)


def products(bits):
    """A multiplier with a register behind each partial product: all of them can move to the sum in one frame."""
    c = Builder()
    a, b = c.word(bits), c.word(bits)
    rows = [c.held([c.land(x, y) for x in a]) for y in b]
    total = rows[0]
    for k, row in enumerate(rows[1:], 1):
        total = total[:k] + c.add(total[k:], row)
    c.outputs = total[: 2 * bits]
    return c


def multiplier(bits):
    """A multiplier with registers before and behind each of its rows, operands included: a pipeline of many frames."""
    c = Builder()
    a, b, total = c.held(c.word(bits)), c.held(c.word(bits)), []
    for k in range(bits):
        row = [c.land(x, b[k]) for x in a]
        total = total[:k] + (c.add(total[k:], row) if k else row)
        a, b, total = c.held(a), b[: k + 1] + c.held(b[k + 1 :]), c.held(total)
    c.outputs = total[: 2 * bits]
    return c


def adder_tree(words, bits):
    """The sum of many words, each in a register: the registers can move to the sum."""
    c = Builder()
    c.outputs = sum_of(c, [c.held(c.word(bits)) for _ in range(words)])
    return c


def delay_lines(width, length):
    """Lines of latches before a tree of gates: a frame for each place in a line."""
    c = Builder()
    row = c.word(width)
    for _ in range(length):
        row = c.held(row)
    while len(row) > 1:
        row = [c.land(*row[k : k + 2]) if k + 1 < len(row) else row[k] for k in range(0, len(row), 2)]
    c.outputs = row
    return c


def rounds(bits, count):
    """A round function of rotations, AND and XOR, unrolled, with the two words and all keys in registers."""
    c = Builder()
    x, y = c.held(c.word(bits)), c.held(c.word(bits))
    turned = lambda word, by: word[-by:] + word[:-by]
    for key in [c.held(c.word(bits)) for _ in range(count)]:
        mixed = [c.xor(c.land(p, q), r) for p, q, r in zip(turned(x, 1), turned(x, 8), turned(x, 2))]
        x, y = [c.xor(c.xor(p, q), k) for p, q, k in zip(y, mixed, key)], x
    c.outputs = x + y
    return c


def divider(bits):
    """A restoring divider with registers between its rows: a bit of the quotient in each."""
    c = Builder()
    dividend, divisor = c.held(c.word(bits)), c.held(c.word(bits))
    rest, quotient = [0] * (bits + 1), []
    for k in range(bits):
        rest = [dividend[-1 - k]] + rest[:-1]
        less, fits = c.subtract(rest, divisor + [0])
        rest = c.held(c.choose(fits, less, rest))
        quotient = c.held([fits] + quotient)
        dividend, divisor = c.held(dividend[: bits - 1 - k]) + dividend[bits - 1 - k :], c.held(divisor)
    c.outputs = quotient + rest
    return c


def cordic(bits):
    """A CORDIC rotation with registers between its steps, one for each bit but the last."""
    c = Builder()
    x, y, angle = (c.held(c.word(bits)) for _ in range(3))
    for k in range(bits - 1):
        turn = int(math.atan(2.0**-k) / (math.pi / 2) * 2 ** (bits - 2))
        constant = [turn >> place & 1 for place in range(bits)]
        down = angle[-1]
        by = lambda word, test: [c.xor(bit, test) for bit in word]
        shifted = lambda word: word[k:] + word[-1:] * k
        one, other = shifted(x), shifted(y)
        x, y, angle = (
            c.add_with(x, by(other, down ^ 1), down ^ 1)[:-1],
            c.add_with(y, by(one, down), down)[:-1],
            c.add_with(angle, by(constant, down ^ 1), down ^ 1)[:-1],
        )
        x, y, angle = c.held(x), c.held(y), c.held(angle)
    c.outputs = x + y
    return c


def filter_products(c, taps, bits):
    """Each of the last samples times a constant."""
    rng = random.Random(taps)
    sample = c.word(bits)
    for _ in range(taps):
        sample, product = c.held(sample), [0] * bits
        for place in range(bits):
            if rng.randrange(2):
                product = product[:place] + c.add(product[place:], sample)
        yield product


def sum_of(c, rows):
    """The sum of words, by a tree."""
    while len(rows) > 1:
        rows = [c.add(*rows[k : k + 2]) if k + 1 < len(rows) else rows[k] for k in range(0, len(rows), 2)]
    return rows[0]


def fir(taps, bits):
    """A filter: each of the last samples times a constant, with a register behind each product, and the sum of all."""
    c = Builder()
    c.outputs = sum_of(c, [c.held(product) for product in filter_products(c, taps, bits)])
    return c


def two_stages(taps, bits):
    """A filter as `fir`, with registers behind the first sums of two products too: two frames."""
    c = Builder()
    rows = [c.held(row) for row in filter_products(c, taps, bits)]
    rows = [c.held(c.add(*rows[k : k + 2])) if k + 1 < len(rows) else c.held(rows[k]) for k in range(0, len(rows), 2)]
    c.outputs = sum_of(c, rows)
    return c


def gates(count, latches):
    """Random gates, most of which read something near; one latch in four takes an input."""
    rng = random.Random(count)
    c = Builder()
    inputs = c.word(max(8, latches // 8))
    state = [c.latch(0) for _ in range(latches)]
    known = inputs + state
    among = lambda last: known[rng.randrange(max(0, len(known) - last), len(known))] ^ rng.randrange(2)
    while len(c.gates) < count:
        last = max(200, latches) if rng.random() < 0.9 else len(known)
        known.append(c.land(among(last), among(last)))
    for lit in state:
        c.following[lit // 2] = rng.choice(inputs) if rng.random() < 0.25 else among(count)
    c.outputs = [among(count) for _ in range(32)]
    return c


def processor(c, order, data, bits):
    """A small processor over 2^p registers, from the words of an order (operation, two places of p bits, whether it writes): what
    it reads, and its counter. Registers hold their words but where they are written."""
    operation, one, other, writes = order
    registers = [c.register(bits) for _ in range(1 << len(one))]
    counter = c.register(bits)
    a, b = c.chosen(one, registers), c.chosen(other, registers)
    both = [c.land(x, y) for x, y in zip(a, b)]
    result = c.choose(operation[0], c.add(a, b)[:bits], both)
    result = c.choose(operation[1], data, result)
    for number, register in enumerate(registers):
        c.follow(register, c.choose(c.land(writes, c.is_number(one, number)), result, register))
    c.follow(counter, c.choose(c.land(operation[0], operation[1]), result, c.add(counter, [1])[:bits]))
    return a + b + counter


def order_of(c, places):
    """The inputs of an order of `processor`."""
    return c.word(2), c.word(places), c.word(places), c.input()


def lockstep(places, bits):
    """A small processor of 2^places registers twice, fed alike, and whether what both show differs."""
    c = Builder()
    order, data = order_of(c, places), c.word(bits)
    first, second = (processor(c, order, data, bits) for _ in range(2))
    c.outputs = [*first, c.all_of([c.xor(x, y) ^ 1 for x, y in zip(first, second)]) ^ 1]
    return c


def voted(states, copies):
    """A controller with a latch a state, of which one is 1, in so many times three copies; a vote among three gives each output."""
    c = Builder()
    for _ in range(copies):
        moves, back = c.input(), c.input()
        three = []
        for _ in range(3):
            state = [c.latch(0, reset=k == 0) for k in range(states)]
            on = c.land(moves, back ^ 1)
            steps = [c.lor(c.land(on, state[k - 1]), c.land(on ^ 1, state[k])) for k in range(states)]
            c.follow(state, [c.lor(steps[0], back), *(c.land(step, back ^ 1) for step in steps[1:])])
            three.append(state)
        c.outputs += [c.lor(c.land(x, y), c.land(z, c.lor(x, y))) for x, y, z in zip(*three)]
    return c


def serial_ports(count, bits):
    """Ports that send a byte bit by bit at the beat of a counter of so many bits; each port has such a counter."""
    c = Builder()
    for _ in range(count):
        send, byte = c.input(), c.word(8)
        counter, line = c.register(bits), [c.latch(0, reset=1) for _ in range(10)]
        c.follow(counter, c.add(counter, [1])[:bits])
        moved = c.choose(c.is_number(counter, (1 << bits) - 1), line[1:] + [1], line)
        c.follow(line, c.choose(send, [0, *byte, 1], moved))
        c.outputs.append(line[0])
    return c


def tied_off(places, bits):
    """A small processor whose second unit never runs: its enable is a latch that stays 0, and so do the latches behind it."""
    c = Builder()
    order, data = order_of(c, places), c.word(bits)
    shown = processor(c, order, data, bits)
    asks, runs, answer, ready = c.input(), c.latch(0), c.register(bits), c.latch(0)
    c.follow([runs, ready], [c.land(asks, runs), c.land(runs, asks ^ 1)])
    c.follow(answer, c.choose(runs, c.add(shown[:bits], data)[:bits], answer))
    c.outputs = [*(c.lor(bit, c.land(runs, part)) for bit, part in zip(shown, answer)), *shown[bits:], ready]
    return c


def counter(bits):
    """A counter that an input steps: no two of its bits agree, which shows bit after bit."""
    c = Builder()
    word, step = c.register(bits), c.input()
    c.follow(word, c.add(word, [step])[:bits])
    c.outputs = [c.all_of(word)]
    return c


def gray(bits):
    """A counter that an input steps, and its Gray code in registers behind the XORs of neighbouring bits."""
    c = Builder()
    word, step = c.register(bits), c.input()
    following = c.add(word, [step])[:bits]
    c.follow(word, following)
    c.outputs = [c.latch(c.xor(a, b)) for a, b in zip(following, following[1:] + [0])]
    return c


def decoders(count, bits):
    """Decoders of so many bits, each line of which has a register behind it."""
    c = Builder()
    for _ in range(count):
        address = c.word(bits)
        c.outputs += [c.latch(c.is_number(address, line), reset=line == 0) for line in range(1 << bits)]
    return c


FAMILIES = {it.__name__: it for it in (products, multiplier, divider, cordic, fir, two_stages, adder_tree, delay_lines, rounds,
                                       gates, lockstep, voted, serial_ports, tied_off, counter, gray, decoders)}


def main(words):
    if words[:1] == ['--list']:
        for name, family in FAMILIES.items():
            print(f'{name}: {family.__doc__}')
        return 0
    count, family = (words[1], words[2:]) if words[:1] == ['copies'] and len(words) > 1 else ('1', words)
    if not count.isdigit() or not family or family[0] not in FAMILIES:
        print(__doc__, file=sys.stderr)
        return 2
    sizes = [name for name in inspect.signature(FAMILIES[family[0]]).parameters]
    if len(family) - 1 != len(sizes) or not all(re.fullmatch('[0-9]+', word) for word in family[1:]):
        print(f'{family[0]} takes these numbers: {" ".join(sizes)}', file=sys.stderr)
        return 2
    try:
        for piece in FAMILIES[family[0]](*map(int, family[1:])).pieces(int(count)):
            sys.stdout.buffer.write(piece)
        sys.stdout.flush()
    except BrokenPipeError:
        # (nobody reads on; what is still kept must not be written at the end either)
        os.dup2(os.open(os.devnull, os.O_WRONLY), sys.stdout.fileno())
        return 1
    return 0


if __name__ == '__main__':
    sys.exit(main(sys.argv[1:]))

"""Large files whose retimed form follows from how they are made, without a run of any program. A case names one as `== made FILE
GENERATOR NUMBER ..`, and what has to come of it as `== after FILE made GENERATOR ..`."""
import functools


def make(words):
    """The bytes of a generated file."""
    return made(*words)


@functools.lru_cache(maxsize=4)
def made(name, *numbers):
    text = GENERATORS[name](*map(int, numbers))
    return text if isinstance(text, bytes) else text.encode()


def header(inputs, latches, outputs, gates):
    return f'aag {inputs + latches + gates} {inputs} {latches} {outputs} {gates}\n'


def chain(gates):
    """Inputs that are ANDed one after another: each gate reads the one before it and an input of its own, so there is
    nothing to move, to merge or to drop, and the circuit comes back as it is."""
    inputs = gates + 1
    first = 1 + inputs
    lines = [header(inputs, 0, 1, gates)]
    lines += [f'{2 * v}\n' for v in range(1, inputs + 1)]
    lines.append(f'{2 * (first + gates - 1)}\n')
    for k in range(gates):
        first_fan_in, second_fan_in = (2 * (first + k - 1), 2 * (2 + k)) if k else (4, 2)
        lines.append(f'{2 * (first + k)} {first_fan_in} {second_fan_in}\n')
    return ''.join(lines)


def pair_then_chain(gates):
    """Two latches that feed a gate, and after it a chain of further gates over inputs."""
    inputs = gates + 2
    first_latch = 1 + inputs
    first_gate = first_latch + 2
    lines = [header(inputs, 2, 1, gates + 1)]
    lines += [f'{2 * v}\n' for v in range(1, inputs + 1)]
    lines += [f'{2 * first_latch} 2\n', f'{2 * first_latch + 2} 4\n']
    lines.append(f'{2 * (first_gate + gates)}\n')
    lines.append(f'{2 * first_gate} {2 * first_latch + 2} {2 * first_latch}\n')
    lines += [f'{2 * (first_gate + k)} {2 * (first_gate + k - 1)} {2 * (2 + k)}\n' for k in range(1, gates + 1)]
    return ''.join(lines)


def pair_then_chain_moved(gates):
    """The same with one latch at the gate's output in place of the two: the chain first, then the copy of the gate."""
    inputs = gates + 2
    latch = 1 + inputs
    first_gate = latch + 1
    copy = first_gate + gates
    lines = [header(inputs, 1, 1, gates + 1)]
    lines += [f'{2 * v}\n' for v in range(1, inputs + 1)]
    lines.append(f'{2 * latch} {2 * copy}\n')
    lines.append(f'{2 * (first_gate + gates - 1)}\n')
    lines += [f'{2 * (first_gate + k)} {2 * (first_gate + k - 1) if k else 2 * latch} {2 * (3 + k)}\n' for k in range(gates)]
    lines.append(f'{2 * copy} 4 2\n')
    return ''.join(lines)


def shifted(previous, own, first_gate):
    """The gates of a bit that takes the previous one while the second input is 1; the last of them is its next value, negated."""
    taken, kept = 2 * first_gate, 2 * first_gate + 2
    gates = [(taken, previous, 4) if previous > 4 else (taken, 4, previous), (kept, own, 5), (kept + 2, kept + 1, taken + 1)]
    return [' '.join(map(str, gate)) + '\n' for gate in gates], kept + 3


def registers(length, opposites):
    """A shift register under an enable, and, where there are to be opposites, one that begins with 1s and holds the opposite bits."""
    many = length * (2 if opposites else 1)
    first_gate = 3 + many
    latches, gates = [], []
    for k in range(many):
        own, sign = 2 * (3 + k), int(k >= length)
        more, following = shifted(2 if k % length == 0 else own - 2 + sign, own + sign, first_gate + 3 * k)
        latches.append(f'{own} {following ^ sign}{" 1" * sign}\n')
        gates += more
    last = 4 + 2 * length
    outputs = [last, 4 + 2 * many if opposites else last + 1]
    return ''.join([header(2, many, 2, 3 * many), '2\n4\n', *latches, *(f'{lit}\n' for lit in outputs), *gates])


def shift_registers(length):
    """Two shift registers under one enable, of which the second holds the opposites; and the last bit of each."""
    return registers(length, opposites=True)


def shift_register(length):
    """The first of them alone; its last bit, and the opposite of that."""
    return registers(length, opposites=False)


def outputs(count):
    """One input that many outputs have."""
    return header(1, 0, count, 0) + '2\n' + '2\n' * count


def ones(steps):
    """A sequence of so many steps of one input, which is 1 at each."""
    return '=\n' + ':1\n' * steps


def printed_ones(count, steps):
    """What `sim` prints of so many outputs that have that input."""
    return '=\n' + (':' + '1' * count + '\n') * steps


def waves_of_ones(count, steps):
    """Their waves, and that of the input: nothing changes before the end."""
    names = ['i0', *(f'o{k}' for k in range(count))]
    declared = ''.join(f'$var wire 1 v0.{k} {name} $end\n' for k, name in enumerate(names))
    head = f'$timescale 1 ns $end\n$scope module sequence0 $end\n{declared}$upscope $end\n$enddefinitions $end\n'
    first, last = (''.join(f'{value}v0.{k}\n' for k in range(count + 1)) for value in '1x')
    return f'{head}#0\n$dumpvars\n{first}$end\n' + ''.join(f'#{time}\n' for time in range(1, steps + 1)) + last


def properties(outputs, bad):
    """Outputs and bad states that read the constant, but for the first output, which reads the one input."""
    return f'aag 1 1 0 {outputs} 0 {bad}\n2\n2\n' + '0\n' * (outputs - 1 + bad)


CAPTION = 'labeljust=l;\nfontsize=10;\nlabel="' + ''.join(line + '\\l' for line in (
    "dot: negated; dashed arrow: from a literal that isn't drawn",
    'box: latch and its reset; dashed box: without one; double box: held',
    'circle: gate, by its literal; gray: no latch can move over it',
    'blue: latches move over it next; bold: holds a latch afterwards',
    'red: what was asked for, or what that reads',
)) + '";\n'


def drawn_properties(outputs, bad):
    """The picture of that: a note for each property, with an edge from what it reads."""
    names = [f'o{k}' for k in range(outputs)] + [f'b{k}' for k in range(bad)]
    notes = [f'{name} [shape=note];\n{0 if k else 2} -> {name};\n' for k, name in enumerate(names)]
    head = 'digraph circuit {\nrankdir=LR;\nnode [shape=plaintext];\n' + CAPTION
    return head + '2 [shape=cds,label=i0];\n' + ''.join(notes) + '}\n'


def delta(number):
    """Groups of seven bits, the lowest first; all but the last have the eighth bit."""
    groups = []
    while number > 127:
        groups.append(128 | number & 127)
        number >>= 7
    return bytes([*groups, number])


def chain_in_binary(gates):
    """The chain in binary: each gate reads the one before it, and an input."""
    inputs = gates + 1
    first = 1 + inputs
    text = [f'aig {inputs + gates} {inputs} 0 1 {gates}\n{2 * (first + gates - 1)}\n'.encode()]
    for k in range(gates):
        first_fan_in, second_fan_in = (2 * (first + k - 1), 2 * (2 + k)) if k else (4, 2)
        text.append(delta(2 * (first + k) - first_fan_in) + delta(first_fan_in - second_fan_in))
    return b''.join(text)


def backward(gates, last):
    """Gates each of which reads the next line's twice; the last reads a given literal twice. Literal 2 is the one input."""
    lines = [header(1, 0, 1, gates), '2\n4\n']
    for k in range(gates):
        fan_in = 2 * (k + 3) if k + 1 < gates else last
        lines.append(f'{2 * (k + 2)} {fan_in} {fan_in}\n')
    return ''.join(lines)


def refused_early(lines):
    """A file whose second line is none of an input, and many lines after it."""
    return header(1, 0, 0, 0) + 'x\n' * lines


def zeros(count):
    """The empty circuit's header with a number of many leading zeros."""
    return f'aag {"0" * count} 0 0 0 0\n'


def entries(count):
    """A list of so many lines, each of two empty paths."""
    return b'\t\n' * count


def entries_and_a_bad_one(count):
    """The same, and a line without a tab after them."""
    return entries(count) + b'\n'


def empty():
    """A circuit without a part."""
    return header(0, 0, 0, 0)


def long_literal(count):
    """An output whose literal has many leading zeros."""
    return header(1, 0, 1, 0) + '2\n' + '0' * count + '2\n'


def alternating_stimulus(sequences):
    """For one free latch and one input: sequence k has the digit k mod 2, and k mod 3 steps with input 1."""
    return ''.join(f'={k % 2}\n' + ':1\n' * (k % 3) for k in range(sequences))


def alternating_trace(sequences):
    """What a free latch that takes the input gives then: its digit, and 1 from the next step on."""
    return ''.join('=\n' + ''.join([f':{k % 2}\n', ':1\n'][: k % 3]) for k in range(sequences))


def sequences(count):
    """A stimulus of sequences without a step, for one free latch."""
    return '=0\n' * count


def bare_sequences(count):
    """A stimulus of sequences without a step, for no free latch."""
    return '=\n' * count


def decoder_gates(first, high, low):
    """The four gates of two literals, or of one of them or both negated, from a first literal on."""
    return [f'{first + 2 * k} {high + k // 2} {low + k % 2}\n' for k in range(4)]


def decoder_rows(length):
    """The four gates of two inputs, with a row of so many latches behind each. Those of the first row start at 1."""
    first_gate = 6 + 8 * length
    lines = [header(2, 4 * length, 4, 4), '2\n4\n']
    for row in range(4):
        own = 6 + 2 * row * length
        lines.append(f'{own} {first_gate + 2 * row}{"" if row else " 1"}\n')
        lines += [f'{own + 2 * k} {own + 2 * k - 2}{"" if row else " 1"}\n' for k in range(1, length)]
    lines += [f'{4 + 2 * (row + 1) * length}\n' for row in range(4)]
    return ''.join([*lines, *decoder_gates(first_gate, 4, 2)])


def decoder_rows_moved(length):
    """The same with the rows before the gates. Both inputs were 1 at each step, so each latch starts at 1; those of a frame stand behind
    those of the frame before, which they read."""
    first_gate = 6 + 4 * length
    lines = [header(2, 2 * length, 4, 4), '2\n4\n']
    lines += [f'{6 + 2 * k} {2 + 2 * k} 1\n' for k in range(2 * length)]
    lines += [f'{first_gate + 2 * row}\n' for row in range(4)]
    return ''.join([*lines, *decoder_gates(first_gate, first_gate - 2, first_gate - 4)])


def decoder_rows_map(length):
    """The map of the latter's states to those of the former: a latch of a row is the row's gate, of the latches that are as far from the
    inputs as it was from its gate. The gates of the last frame come first."""
    first_gate = 2 + 4 * length
    lines = [header(2 * length, 0, 4 * length, 4 * length)]
    lines += [f'{2 + 2 * k}\n' for k in range(2 * length)]
    lines += [f'{first_gate + 8 * (length - 1 - k) + 2 * row}\n' for row in range(4) for k in range(length)]
    for k in range(length):
        step = length - 1 - k
        lines += decoder_gates(first_gate + 8 * k, 4 + 4 * step, 2 + 4 * step)
    return ''.join(lines)


def decoder_rows_frames(length):
    """The lines of `backward` there: each frame takes four latches, and leaves two."""
    lines = [f'frame {k + 1}: {4 * length - 2 * k} to {4 * length - 2 * k - 2}\n' for k in range(length)]
    return ''.join([*lines, f'latches {4 * length} to {2 * length}\n'])


def rows_before_gate(length):
    """A gate of two rows of so many latches, each row behind an input."""
    last = 4 + 4 * length
    lines = [header(2, 2 * length, 1, 1), '2\n4\n']
    for row in range(2):
        own = 6 + 2 * row * length
        lines += [f'{own + 2 * k} {own + 2 * k - 2 if k else 2 + 2 * row}\n' for k in range(length)]
    return ''.join([*lines, f'{last + 2}\n{last + 2} {last} {4 + 2 * length}\n'])


def rows_before_gate_moved(length):
    """The same with a row of so many latches behind the gate, of which the output reads the one that was put first."""
    gate = 6 + 2 * length
    lines = [header(2, length, 1, 1), '2\n4\n']
    return ''.join([*lines, *(f'{6 + 2 * k} {8 + 2 * k}\n' for k in range(length)), f'6\n{gate} 4 2\n'])


GENERATORS = {it.__name__: it for it in (
    chain, chain_in_binary, pair_then_chain, pair_then_chain_moved, backward, refused_early, outputs, properties, drawn_properties,
    ones, printed_ones, waves_of_ones,    zeros, empty, long_literal, alternating_stimulus, alternating_trace, sequences, bare_sequences, entries, entries_and_a_bad_one,
    shift_registers, shift_register, decoder_rows, decoder_rows_moved, decoder_rows_map, decoder_rows_frames, rows_before_gate,
    rows_before_gate_moved,
)}

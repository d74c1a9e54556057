"""Large files, and small ones with numbers around each limit. Each is what its function returns for the words of a table."""
import generators
from reference.circuit import delta

AROUND = {2**bits + add for bits in (7, 8, 14, 16, 21, 24, 28, 29, 31, 32, 35, 63, 64) for add in (-2, -1, 0, 1, 2)}
LIMITS = sorted(AROUND | {10**19, 10**20 - 1, 10**40})
SECTIONS = ('inputs', 'latches', 'outputs', 'bad', 'constraints', 'justice', 'fairness')


def section(kind, count):
    """One input, and a section of so many lines; a line of a latch reads the latch before it."""
    place = ('M', 'inputs', 'latches', 'outputs', 'gates', 'bad', 'constraints', 'justice', 'fairness').index(kind)
    numbers = [0, 1, 0, 0, 0, 0, 0, 0, 0]
    numbers[place] = count
    numbers[0] = numbers[1] + numbers[2]
    lines = [f'{2 * k + 2}\n' for k in range(numbers[1])]
    if kind == 'latches':
        lines += [f'{2 * k + 4} {2 * k + 2}\n' for k in range(count)] + [f'{2 * count + 2}\n']
        numbers[3] = 1
    elif kind == 'justice':
        lines += ['1\n'] * count + ['2\n'] * count
    elif kind != 'inputs':
        lines += ['2\n'] * count
    return f'{header(numbers)}{"".join(lines)}'.encode()


def header(numbers):
    """With the numbers past the first five up to the last that isn't 0."""
    shown = max([5] + [k + 1 for k in range(len(numbers)) if numbers[k]])
    return ' '.join(['aag', *map(str, numbers[:shown])]) + '\n'


def section_in_binary(kind, count):
    """The same in binary: no line for an input, and a latch is what it reads."""
    first, *lines = section(kind, count).decode().splitlines(keepends=True)
    if kind == 'latches':
        lines[1 : count + 1] = [line.split()[1] + '\n' for line in lines[1 : count + 1]]
    return (first.replace('aag', 'aig') + ''.join(lines[1:])).encode()


def free_latches(count):
    """One input, and so many free latches: the first reads the input, each other one the latch before it, an output the last."""
    lines = [f'{2 * k + 4} {2 * k + 2} {2 * k + 4}\n' for k in range(count)]
    return f'aag {count + 1} 1 {count} 1 0\n2\n{"".join(lines)}{2 * count + 2}\n'.encode()


def justice_of_one(count):
    """A justice property of so many literals."""
    return f'aag 1 1 0 0 0 0 0 1\n2\n{count}\n'.encode() + b'2\n' * count


def binary_outputs(count):
    return f'aig 1 1 0 {count} 0\n'.encode() + b'2\n' * count


def symbols(count):
    """So many inputs, each with a name."""
    return section('inputs', count) + ''.join(f'i{k} n{k}\n' for k in range(count)).encode()


def symbols_of_each_kind(count):
    """So many latches, outputs, bad states, constraints, justice and fairness properties, each with a name."""
    latches = [f'{2 * k + 4} {2 * k + 2}\n' for k in range(count)]
    lines = latches + ['2\n'] * (3 * count) + ['1\n'] * count + ['2\n'] * (2 * count)
    lines[count] = f'{2 * count + 2}\n'
    names = [f'{kind}{k} n{k}\n' for kind in 'lobcjf' for k in range(count)]
    return f'{header([count + 1, 1, count, count, 0, *[count] * 4])}2\n{"".join(lines + names)}'.encode()


def commented(count):
    return b'aag 1 1 0 1 0\n2\n2\nc\n' + b'2\n' * count


def uncommented(_):
    return b'aag 1 1 0 1 0\n2\n2\n'


def long_name(length):
    return b'aag 1 1 0 1 0\n2\n2\ni0 ' + b'n' * length + b'\no0 ' + b'm' * length + b'\n'


def long_line(length):
    """A comment of one line."""
    return uncommented(0) + b'c' + b'x' * length


def no_newline(length):
    return b'9' * length


def wide_step(inputs):
    """A step of so many digits."""
    return b'=\n:' + b'1' * inputs + b'\n'


def nothing(_):
    return b''


def steps(count):
    """A sequence of so many steps of one input."""
    return b'=\n' + b':1\n' * count


def sequences(count):
    """So many sequences of a step each."""
    return b'=\n:1\n' * count


def bad_input(_):
    """An input that is a bad state."""
    return b'aag 1 1 0 0 0 1\n2\n2\n'


def witness_of_steps(count):
    """So many steps, of which the last reaches the bad state."""
    return b'1\nb0\n\n' + b'0\n' * (count - 1) + b'1\n.\n'


def witness_carried(count):
    """The same, with what was reached told after it."""
    return witness_of_steps(count) + b'c b0 holds at step %d\n' % (count - 1)


def long_property(length):
    """A number of so many zeros."""
    return b'1\nb' + b'0' * length + b'\n\n1\n.\n'


def list_of_missing(count):
    """Files that aren't there, of which each would be written to another one."""
    return b''.join(b'missing\tout%d\n' % k for k in range(count))


def list_with_itself(count):
    """The same, but the last line writes the list, by another path."""
    return list_of_missing(count - 1) + b'missing\t./list\n'


def list_of_one(count):
    """One file, so many times; what is written goes nowhere."""
    return b'in\t/dev/null\n' * count


def read_latches(count):
    """So many latches, each of which reads the one before it, and an output that reads it."""
    lines = [f'{2 * k + 4} {2 * k + 2}\n' for k in range(count)] + [f'{2 * k + 4}\n' for k in range(count)]
    return f'aag {count + 1} 1 {count} {count} 0\n2\n{"".join(lines)}'.encode()


def route_each(count):
    """A block whose set is empty, with a route of one point for each latch."""
    return f'fretime-cert 1\nframe {count} 0 {count}\n'.encode() + b''.join(b'r %d+\n' % (k + 2) for k in range(count))


def listed_gates(count):
    return f'fretime-cert 1\nframe 1 {count} 0\n'.encode() + b''.join(b'g %d\n' % (k + 2) for k in range(count))


def long_route(count):
    return b'fretime-cert 1\nframe 1 0 1\nr' + b' 2+' * count + b'\n'


def blocks(count):
    """So many blocks of nothing."""
    return b'fretime-cert 1\n' + b'frame 0 0 0\n' * count


def announced_gates(_):
    """Gates that aren't there."""
    return b'fretime-cert 1\nframe 0 9999999 0\n'


def announced_routes(_):
    return b'fretime-cert 1\nframe 0 0 9999999\n'


def merged_lines(count):
    """So many latches that are said to be 0."""
    return f'fretime-cert 3\nchoice greatest\nmerged {count}\n'.encode() + b''.join(b'm %d 0\n' % (k + 2) for k in range(count))


def announced_latches(_):
    """Merged latches that aren't there."""
    return b'fretime-cert 3\nchoice greatest\nmerged 9999999\n'


def chain(gates):
    return generators.make(['chain', str(gates)])


def chain_in_binary(gates):
    return generators.make(['chain_in_binary', str(gates)])


def many_inputs(gates):
    """As many inputs as there may be, less 1 for a gate of the first two."""
    inputs = 2**28 - 1 - gates
    return f'aig {2**28 - 1} {inputs} 0 0 {gates}\n'.encode() + (delta(2 * inputs + 2 - 4) + delta(2)) * gates


def decoder_rows(length):
    """A row of so many latches behind each of four gates."""
    return generators.made('decoder_rows', length)


def decoder_rows_moved(length):
    """The same, moved backward."""
    return generators.made('decoder_rows_moved', length)


def rows_before_gate(length):
    """A row of so many latches before each fan-in of a gate."""
    return generators.made('rows_before_gate', length)


def rows_before_gate_moved(length):
    """The same, retimed."""
    return generators.made('rows_before_gate_moved', length)


MAKERS = {it.__name__: it for it in (
    justice_of_one, binary_outputs, symbols, commented, uncommented, long_name, long_line, no_newline, wide_step, nothing, chain,
    chain_in_binary, many_inputs, read_latches, route_each, listed_gates, long_route, blocks, announced_gates, announced_routes,
    merged_lines, announced_latches, free_latches, symbols_of_each_kind, steps, sequences, bad_input, witness_of_steps, witness_carried, long_property,
    list_of_missing, list_with_itself, list_of_one, decoder_rows, decoder_rows_moved, rows_before_gate, rows_before_gate_moved,
)}


def made(name, number):
    kind = name.removesuffix('_in_binary')
    if kind in SECTIONS:
        return section(kind, number) if kind == name else section_in_binary(kind, number)
    return MAKERS[name](number)


def headers():
    """Headers that announce what isn't there: each number at each limit, and the greatest variable there or at its limit."""
    for letters in ('aag', 'aig'):
        for place in range(9):
            for value in LIMITS:
                for most in (value, 2**28 - 1, 2**64):
                    numbers = [most] + [0] * 8
                    numbers[place] = value
                    yield f'{letters} {" ".join(map(str, numbers))}\n'.encode()


def padded(number, length):
    """A delta of so many bytes, where it takes no more than that."""
    found = delta(number)
    extra = length - len(found)
    return found if extra <= 0 else found[:-1] + bytes([found[-1] | 128]) + b'\x80' * (extra - 1) + b'\0'


def deltas():
    """A gate after so many inputs, whose two deltas are at each limit, and of each length."""
    values = sorted({max(0, 2**bits + add) for bits in (0, 7, 14, 21, 28, 29, 32, 35) for add in (-2, -1, 0, 1)})
    for inputs in (1, 63, 64, 8191, 8192, 2**20 - 1, 2**20, 2**27 - 1, 2**27, 2**28 - 3, 2**28 - 2):
        top, gate = 2 * inputs + 2, f'aig {inputs + 1} {inputs} 0 0 1\n'.encode()
        for value in [*values, top - 1, top, top + 1]:
            for length in range(1, 7):
                first = padded(value, length)
                yield gate + first + b'\0'
                yield gate + b'\x02' + first
            yield gate + delta(value)
            yield gate + delta(value)[:-1]


def numbers():
    """Digits of every length around 2^32 and 2^64, and these numbers around the limits with zeros before them or without."""
    for length in range(1, 26):
        yield from ('1' * length, '9' * length, '0' * length + '2', '4294967298'.rjust(length, '0'))
    for value in LIMITS:
        yield from (str(value), f'00{value}')


def numbered():
    """Each number in the place of each literal, size, reset and position of a file."""
    parts = ('aag 4 1 1 1 1 1 1 1 1', '{}', '4 {}', '4 2 {}', '{} 2', '{}', '1', '8 2 {}', '8 {} 2', '{} 2 2')
    for number in numbers():
        for place in range(1, len(parts)):
            lines = ['2', '4 2', '6', '2', '2', '1', '2', '2', '8 4 2']
            at = {1: 0, 2: 1, 3: 1, 4: 1, 5: 2, 6: 3, 7: 8, 8: 8, 9: 8}[place]
            lines[at] = parts[place].replace('{}', number)
            yield ('\n'.join([parts[0], *lines]) + '\n').encode()
        for place in (4, 5, 6):
            lines = ['2', '4 2', '2', '2', '2', '1', '2', '2', '8 4 2']
            lines[place] = number
            yield ('\n'.join([parts[0], *lines]) + '\n').encode()
        yield from (f'aag 1 1 0 1 0\n2\n2\n{kind}{number} name\n'.encode() for kind in 'io')


def pair():
    """Two latches before a gate."""
    return b'aag 5 2 2 1 1\n2\n4\n6 2\n8 4\n10\n10 6 8\n'


def certified():
    """Each number in the place of each number of a certificate file."""
    words = ['frame', '1', '1', '1\ng', '5\nr', '3+', '5-', '5+']
    blocks_of = [[*words[:k], words[k].replace(words[k][0], '{}', 1), *words[k + 1 :]] for k in range(1, len(words))]
    for digits in numbers():
        for line in map(' '.join, blocks_of):
            for first in ('fretime-cert 1', 'fretime-cert 2\nchoice smallest', 'fretime-cert 3\nchoice smallest\nmerged 0'):
                yield f'{first}\n{line.format(digits)}\n'.encode()
        for lines in ('merged {}', 'merged 1\nm {} 0', 'merged 1\nm 4 {}'):
            yield f'fretime-cert 3\nchoice greatest\n{lines.format(digits)}\n'.encode()
        yield f'fretime-cert {digits}\nframe 0 0 0\n'.encode()


def properties():
    """A bad state and a justice property."""
    return b'aag 1 1 0 0 0 1 0 1\n2\n2\n1\n2\n'


def witnessed():
    """Each number in the place of that of a property of a witness."""
    for digits in numbers():
        yield from (f'1\n{kind}{digits}\n\n1\n.\n'.encode() for kind in 'bj')


SMALL = {'headers': headers, 'deltas': deltas, 'numbers': numbered, 'certificates': certified, 'witnesses': witnessed}

"""The commands of fretime over files and standard streams: what is printed, what is written, and the exit status."""
import os
import sys

from reference.certificates import audit, certificates, first_difference, objection_to_merged, read_certificates, written
from reference.checks import are_alike, are_fitting, checked, is_map
from reference.circuit import text
from reference.cleaning import cleaned
from reference.back_lifts import lifted_back
from reference.clashes import clash, clash_of_list
from reference.lifts import NoSuchLiteral, lifted
from reference.maps import state_map
from reference.merging import merge_counts
from reference.miters import miter, product
from reference.pictures import MOST_NODES, middle, neighbourhood, nodes, picture
from reference.reading import Fault, read
from reference.retiming import NoSuchLatch, NoSuchName, held_latches, passable, retimed, rounds_of
from reference.side_by_side import compared
from reference.simulation import difference_text, is_too_long, random_stimulus, read_kept, read_stimulus, trace, trace_text
from reference.waves import dump
from reference.witnesses import carried_text

PATHS = {'retime': 2, 'batch': 1, 'stat': 1, 'convert': 2, 'sim': 2, 'same': 3, 'verify': 2, 'check': 3, 'miter': 4, 'product': 5, 'lift': 5, 'dot': 2,
         'witness': 3}
OPTIONS = {'retime': {'--ascii', '--binary', '--workers', '--frames', '--near', '--merge', '--classes', '--levels', '--no-longer', '--keep', '--keep-from', '--keep-latch', '--cert', '--map',
                      '--progress', '--quiet'},
           'verify': {'--keep', '--keep-from', '--keep-latch', '--merge', '--levels', '--no-longer', '--out'},
           'dot': {'--frame', '--merge', '--levels', '--no-longer', '--keep', '--keep-from', '--keep-latch', '--around', '--depth'},
           'batch': {'--ascii', '--binary', '--workers', '--frames', '--near', '--merge', '--levels', '--no-longer'}, 'convert': {'--ascii', '--binary'},
           'miter': {'--ascii', '--binary', '--certificate'}, 'product': {'--ascii', '--binary'}, 'lift': {'--ascii', '--binary', '--back'}, 'stat': {'--merge'}, 'witness': {'--merge'}, 'sim': {'--random', '--steps', '--seed', '--vcd'},
           'same': {'--random', '--steps', '--seed', '--kept'}, 'check': {'--kept'}}
# How many of the last paths of a command are written.
WRITING = {'retime': 1, 'convert': 1, 'dot': 1, 'miter': 1, 'product': 2, 'lift': 1}
GREATEST = {'--workers': 64, '--frames': 2**28, '--keep-latch': 2**28 - 1, '--depth': 100, '--random': 2**20, '--steps': 2**22, '--seed': 2**32 - 1, '--levels': 2**32 - 1}
LEAST = {'--seed': 0, '--keep-latch': 0, '--levels': 0}
VALUED = {'--workers', '--frames', '--levels', '--keep', '--keep-from', '--keep-latch', '--classes', '--cert', '--map', '--out', '--certificate', '--around', '--depth', '--random',
          '--steps', '--seed', '--kept', '--vcd'}
EXCLUSIVE = (('--ascii', '--binary'), ('--progress', '--quiet'), ('--levels', '--no-longer'))
READING = ('--kept', '--out', '--classes', '--keep-from')
BESIDE = ('--map', '--cert', '--certificate', '--vcd')
LINES = 2**20


class Ends(Exception):
    """A run that ends early: its status, and the line on standard error."""


def names_in(path, data):
    """The names in the bytes of a file, a name a line; an empty line is none."""
    offset, names = 0, []
    for line in data.split(b'\n'):
        try:
            names.append(line.decode())
        except UnicodeDecodeError as error:
            raise Ends(1, f'{source_name(path)}: BadLine at {offset}') from error
        offset += len(line) + 1
    return [name for name in names if name]


def parsed(words):
    """What the words ask for: wrong words are refused first, then those of which two files are one, and then the files of names are
    read, whose names follow those of the words."""
    command, paths, options = arguments(words)
    said = clash(command, paths, options)
    if said:
        raise Ends(2, f'error: {said}')
    files = [(path, bytes_of(path)) for path in options.pop('--keep-from', [])]
    names = [name for path, data in files for name in names_in(path, data)]
    return command, paths, options | ({'--keep': options.get('--keep', []) + names} if names else {})


def arguments(words):
    """The command, its paths and its options; each option has the list of its values."""
    command, paths, options = words[0] if words else None, [], {}
    if any(not os.fsencode(word).decode(errors='replace') == word for word in words):
        raise Ends(2, 'error: an argument is not UTF-8')
    if command not in PATHS:
        raise Ends(2, 'error: no command')
    rest = iter(words[1:])
    for word in rest:
        if word == '-' or not word.startswith('-'):
            paths.append(word)
            continue
        name, _, value = word.partition('=')
        if name not in OPTIONS.get(command, ()) or (name in options and name not in {'--keep', '--keep-from', '--keep-latch'}):
            raise Ends(2, f'error: {word}')
        if name in VALUED and '=' not in word:
            value = next(rest, '--')
            if value != '-' and value.startswith('-'):
                raise Ends(2, f'error: {word} without a value')
        if name in GREATEST and not (value.isdigit() and LEAST.get(name, 1) <= int(value) <= GREATEST[name]):
            raise Ends(2, f'error: {name} {value}')
        options.setdefault(name, []).append(value)
    wanted = PATHS[command] - ('--random' in options or is_without_a_map(command, paths, options))
    if len(paths) != wanted or any(set(both) <= set(options) for both in EXCLUSIVE):
        raise Ends(2, 'error: wrong arguments')
    if {'--steps', '--seed'} & set(options) and '--random' not in options:
        raise Ends(2, 'error: steps or a seed of no random sequences')
    if '--depth' in options and '--around' not in options:
        raise Ends(2, 'error: a depth of no neighbourhood')
    if command == 'dot' and {'--merge', '--levels', '--no-longer'} & set(options) and '--frame' not in options:
        raise Ends(2, 'error: --merge or a bound without --frame')
    if '--classes' in options and '--merge' not in options:
        raise Ends(2, 'error: --classes without --merge')
    outputs = paths[len(paths) - WRITING.get(command, 0):]
    read = paths[:len(paths) - len(outputs)] + [path for option in READING for path in options.get(option, [])]
    if read.count('-') > 1:
        raise Ends(2, 'error: standard input is read once')
    printed = ['-'] if command == 'sim' else []
    if (outputs + printed + beside(options)).count('-') > 1:
        raise Ends(2, 'error: standard output is written once')
    return command, paths, options


def is_without_a_map(command, paths, options):
    """Whether two circuits are checked by themselves, as with a list of the free latches that were kept."""
    return command == 'check' and (len(paths) == 2 or '--kept' in options)


def beside(options):
    """The files that are written beside a circuit or a trace."""
    return [path for name in BESIDE for path in options.get(name, [])]


def source_name(path):
    """How messages name what is read."""
    return 'stdin' if path == '-' else path


def bytes_of_file(path):
    try:
        with open(path, 'rb') as file:
            return file.read()
    except OSError as error:
        raise Ends(3, f'{path}: device') from error


def bytes_of(path):
    """All bytes of a file or of standard input."""
    if path != '-':
        return bytes_of_file(path)
    try:
        return sys.stdin.buffer.read()
    except OSError as error:
        raise Ends(3, 'stdin: device') from error


def circuit_of(path):
    try:
        return read(bytes_of(path))
    except Fault as fault:
        raise Ends(1, f'{source_name(path)}: {fault}') from fault


def no_such_name(path, c, name):
    """How a run ends where no latch has the name: a file is read again for the nearest one, standard input isn't."""
    return Ends(1, f'{source_name(path)}: NoSuchName {os.fsdecode(name)}')


def stimulus_of(paths, options, c):
    """The stimulus that is read, or the random one; the paths are those of the circuits, and then of the stimulus."""
    if '--random' in options:
        sequences, steps, seed = (int(options.get(name, [other])[0]) for name, other in (('--random', 1), ('--steps', 100), ('--seed', 0)))
        if is_too_long(c, sequences, steps, waves='--vcd' in options):
            raise Ends(1, f'{source_name(paths[0])}: TooManySteps: take fewer steps or sequences')
        return random_stimulus(c.inputs, c.free_latches(), sequences, steps, seed)
    try:
        return read_stimulus(bytes_of(paths[-1]), c.inputs, c.free_latches())
    except Fault as fault:
        raise Ends(1, f'{source_name(paths[-1])}: {fault}') from fault


def kept_of(options, c, d):
    """The places among the free latches of the first circuit of those of the second: of the list that is given, else all."""
    if '--kept' not in options:
        return None
    path = options['--kept'][0]
    try:
        return read_kept(bytes_of(path), c.free_latches(), d.free_latches())
    except Fault as fault:
        raise Ends(1, f'{source_name(path)}: {fault}') from fault


def write_file(path, data):
    try:
        with open(path, 'wb') as file:
            file.write(data)
    except OSError as error:
        raise Ends(3, f'{path}: device') from error


def write(path, data):
    """Writes to a file or to standard output."""
    if path != '-':
        write_file(path, data)
        return
    try:
        with os.fdopen(os.dup(1), 'wb') as stdout:
            stdout.write(data)
    except OSError as error:
        raise Ends(3, 'stdout: device') from error


def letters_of(options, otherwise):
    return 'aag' if '--ascii' in options else 'aig' if '--binary' in options else otherwise


def held_by(options):
    """The latches that are held: names as bytes, places as numbers."""
    return [os.fsencode(name) for name in options.get('--keep', [])] + [int(place) for place in options.get('--keep-latch', [])]


def bound_of(options, c):
    """The greatest number of gates that a path may get: what is asked for, or the longest path of the circuit as it was read, if that
    has more; None where there is no bound."""
    if '--no-longer' not in options and '--levels' not in options:
        return None
    return max(c.levels(), int(options.get('--levels', ['0'])[0]))


def no_such_latch(path, place):
    return Ends(1, f'{source_name(path)}: NoSuchLatch {place}')


def merge_of(options):
    """False, True, or for each round the lines that say which latches are merged."""
    lines = options.get('--merge', False)
    return True if lines == [''] else lines


def first_merge_of(options):
    """What the first round merges: False, True, or lines."""
    merge = merge_of(options)
    return merge if isinstance(merge, bool) else merge[0]


def classes_of(options):
    """What latches are merged by the options: as `merge_of` says, or by the lines that are given, in one round."""
    if '--classes' not in options:
        return merge_of(options)
    path = options['--classes'][0]
    try:
        lines = read_certificates(bytes_of(path))[0].listed
    except Fault as fault:
        raise Ends(1, f'{source_name(path)}: {fault}') from fault
    if lines is None:
        raise Ends(1, f'{source_name(path)}: BadHeader at 0')
    return [lines]


def judge(c, options, lines):
    """Ends the run if lines that are given don't hold in the cleaned circuit."""
    said = objection_to_merged(*cleaned(c, held_latches(c, held_by(options))), lines)
    if said:
        raise Ends(1, f'{source_name(options["--classes"][0])}: {said}')


def run_of(c, options):
    """What a circuit is retimed by: the most frames, the held latches, whether each set is the smallest, what is merged, and the bound."""
    most = int(options['--frames'][0]) if '--frames' in options else None
    return most, held_by(options), '--near' in options, classes_of(options), bound_of(options, c)


def retime(paths, options):
    c, letters = circuit_of(paths[0])
    run = run_of(c, options)
    try:
        if '--classes' in options:
            judge(c, options, run[3][0])
        d, frames = retimed(c, *run)
    except NoSuchName as missing:
        raise no_such_name(paths[0], c, missing.args[0]) from missing
    except NoSuchLatch as missing:
        raise no_such_latch(paths[0], missing.args[0]) from missing
    write(paths[1], text(d, letters_of(options, letters)))
    for path in options.get('--map', []):
        write(path, text(state_map(c, *run)[0], letters_of(options, letters)))
    for path in options.get('--cert', []):
        write(path, written('smallest' if '--near' in options else 'greatest', certificates(c, *run)))
    lines = [f'frame {k + 1}: {before} to {after}\n' for k, (before, after) in enumerate(frames)]
    return 0, ''.join(lines) + f'latches {len(c.latches)} to {len(d.latches)}\n'


def entries_of(path):
    """The paths of each line of a list."""
    data, at, found = bytes_of(path), 0, []
    lines = data.split(b'\n')
    for line in lines[:-1] if lines[-1] == b'' else lines:
        try:
            input_path, output_path = line.decode().split('\t')
        except ValueError as error:
            raise Ends(1, f'{source_name(path)}: BadLine at {at}') from error
        if len(found) == LINES:
            raise Ends(1, f'{source_name(path)}: TooLarge at {at}')
        found.append((input_path, output_path))
        at += len(line) + 1
    said = clash_of_list(path, found)
    if said:
        raise Ends(2, f'error: {said}')
    return found


def say(line):
    """Prints a line at once."""
    try:
        os.write(1, line.encode())
    except OSError as error:
        raise Ends(3, 'stdout: device') from error


def batch(paths, options):
    entries = entries_of(paths[0])
    jobs = [bytes_of_file(input_path) for input_path, _ in entries]
    ended = 0
    for k, (data, (_, output_path)) in enumerate(zip(jobs, entries)):
        try:
            c, letters = read(data)
        except Fault as fault:
            ended = ended or 1
            say(f'{k + 1} refused {fault}\n')
            continue
        d, _ = retimed(c, *run_of(c, options))
        write_file(output_path, text(d, letters_of(options, letters)))
        say(f'{k + 1} done {len(c.latches)} to {len(d.latches)}\n')
    return ended, ''


def stat(paths, options):
    c, _ = circuit_of(paths[0])
    counts = {
        'inputs': c.inputs, 'latches': len(c.latches), 'free': c.free_latches(), 'gates': len(c.gates), 'outputs': len(c.outputs),
        'bad': len(c.bad), 'constraints': len(c.constraints), 'justice': len(c.justice), 'fairness': len(c.fairness),
        'passable': len(passable(c)),
    }
    if '--merge' in options:
        counts['merged'], counts['constant'] = merge_counts(c, first_merge_of(options))
    return 0, ''.join(f'{name} {count}\n' for name, count in counts.items())


def convert(paths, options):
    c, letters = circuit_of(paths[0])
    write(paths[1], text(c, letters_of(options, 'aig' if letters == 'aag' else 'aag')))
    return 0, ''


def sim(paths, options):
    c, _ = circuit_of(paths[0])
    sequences = stimulus_of(paths, options, c)
    for path in options.get('--vcd', []):
        write(path, dump(c, sequences).encode())
    return 0, trace_text(trace(c, sequences))


def same(paths, options):
    c, d = circuit_of(paths[0])[0], circuit_of(paths[1])[0]
    kept = kept_of(options, c, d)
    said = difference_text(c, d, stimulus_of(paths, options, c), kept)
    return {'same\n': 0, 'shapes differ\n': 1}.get(said, 5), said


def verify(paths, options):
    c, _ = circuit_of(paths[0])
    try:
        parts = read_certificates(bytes_of(paths[1]))
    except Fault as fault:
        raise Ends(1, f'{source_name(paths[1])}: {fault}') from fault
    outs = [bytes_of(path) for path in options.get('--out', [])]
    try:
        lines, status, last = audit(c, held_by(options), parts, first_merge_of(options), bound_of(options, c))
    except NoSuchName as missing:
        raise no_such_name(paths[0], c, missing.args[0]) from missing
    except NoSuchLatch as missing:
        raise no_such_latch(paths[0], missing.args[0]) from missing
    for data in outs if last else []:
        at = first_difference(text(last, 'aig' if data[:3] == b'aig' else 'aag'), data)
        lines.append('out same' if at is None else f'out differs at {at}')
        status = 0 if at is None else 5
    checked_then = 'nothing was checked' if parts[0].listed is None and not outs else 'no frame was checked'
    told = '' if any(part.blocks for part in parts) else f'{source_name(paths[1])}: no certificate: {checked_then}\n'
    return status, ''.join(f'{line}\n' for line in lines), told


def is_map_for(c, d, m):
    """False for what isn't a map, and for one without the latches of circuits that have one shape."""
    return is_map(m) and (not are_alike(c, d) or are_fitting(c, d, m))


def check(paths, options):
    c, d = circuit_of(paths[0])[0], circuit_of(paths[1])[0]
    kept = kept_of(options, c, d)
    if len(paths) == 2:
        said, status = compared(c, d, kept)
        return status, said
    m, _ = circuit_of(paths[2])
    if not is_map_for(c, d, m):
        raise Ends(1, f'{source_name(paths[2])}: NotAMap')
    said, status = checked(c, d, m)
    return status, said


def asked(paths, options):
    c, d, m = (circuit_of(path) for path in paths[:3])
    if not is_map_for(c[0], d[0], m[0]):
        raise Ends(1, f'{source_name(paths[2])}: NotAMap')
    if not are_alike(c[0], d[0]):
        return 1, 'shapes differ\n'
    spelling = letters_of(options, m[1])
    certificates_to = options.get('--certificate', []) + paths[4:]
    if not certificates_to:
        write(paths[3], text(miter(c[0], d[0], m[0]), spelling))
        return 0, ''
    model, witness_circuit = (text(product(c[0], d[0], m[0], is_model), spelling) for is_model in (True, False))
    write(paths[3], model)
    write(certificates_to[0], witness_circuit)
    return 0, ''


def lift(paths, options):
    c, d, m, w = (circuit_of(path) for path in paths[:4])
    is_back = '--back' in options
    ends = (d[0], c[0]) if is_back else (c[0], d[0])
    if not is_map_for(*ends, m[0]):
        raise Ends(1, f'{source_name(paths[2])}: NotAMap')
    if not are_alike(*ends) or is_back and c[0].free_latches():
        return 1, 'shapes differ\n'
    try:
        found = (lifted_back if is_back else lifted)(c[0], d[0], m[0], w[0])
    except NoSuchLiteral as missing:
        raise Ends(1, f'{source_name(paths[3])}: NoSuchLiteral') from missing
    write(paths[4], text(found, letters_of(options, w[1])))
    return 0, ''


def drawn_circuit(c, path, options):
    """What a picture shows: the circuit, its held latches and a set. With --frame the circuit is cleaned, and the set is the one that
    its next frame takes."""
    names = held_by(options)
    try:
        held = held_latches(c, names)
        if '--frame' not in options:
            return c, held, None
        frame = next(rounds_of(c, 1, names, merge=merge_of(options), bound=bound_of(options, c))).frames[0]
    except NoSuchName as missing:
        raise no_such_name(path, c, missing.args[0]) from missing
    except NoSuchLatch as missing:
        raise no_such_latch(path, missing.args[0]) from missing
    return frame.circuit, frame.held, frame.members if frame.saves() else None


def dot(paths, options):
    whole, _ = circuit_of(paths[0])
    c, held, members = drawn_circuit(whole, paths[0], options)
    around, drawn, centre = options.get('--around'), range(c.end()), ()
    if around:
        name = os.fsencode(around[0])
        centre = middle(c, name)
        if centre is None:
            raise no_such_name(paths[0], whole, name)
        drawn = neighbourhood(c, centre, int(options.get('--depth', ['2'])[0]))
    elif nodes(c) > MOST_NODES:
        raise Ends(1, f'{source_name(paths[0])}: TooManyNodes, over 2000: --around NAME draws a neighbourhood')
    write(paths[1], picture(c, held, members, drawn, centre))
    return 0, ''


def witness(paths, options):
    c, d = circuit_of(paths[0])[0], circuit_of(paths[1])[0]
    try:
        said, status = carried_text(c, d, bytes_of(paths[2]), merge_of(options))
    except Fault as fault:
        raise Ends(1, f'{source_name(paths[2])}: {fault}') from fault
    return status, said


COMMANDS = {'retime': retime, 'batch': batch, 'stat': stat, 'convert': convert, 'sim': sim, 'same': same, 'verify': verify,
            'check': check, 'miter': asked, 'product': asked, 'lift': lift, 'dot': dot, 'witness': witness}


def run(words, merged=None):
    """The status, and the texts of standard output and standard error. With `--merge` these latches are merged, round by round, where they are
    given."""
    try:
        command, paths, options = parsed(words)
        if merged is not None and '--merge' in options:
            options['--merge'] = merged
        status, said, *told = COMMANDS[command](paths, options)
        takes_stdout = command == 'retime' and '-' in paths[1:] + beside(options)
        return (status, '', said) if takes_stdout else (status, said, ''.join(told))
    except Ends as end:
        return end.args[0], '', end.args[1] + '\n'

"""The stored results of the scripts: a file of JSON with the machine, the sum of the one program that was measured, an entry a
circuit, and the tables of bench/batch and bench/certificates; and, each with the sum of its own program, what bench/levels,
bench/backward, bench/least and bench/steps counted, which is no time, what bench/settled, bench/enables and bench/areas found, and the run of
which README.md tells."""
import datetime
import hashlib
import json
import os

import measure


# What has a program of its own.
APART = ['levels', 'backward', 'least', 'settled', 'enables', 'steps', 'areas', 'readme']


def read(path):
    with open(path, encoding='utf-8') as file:
        return json.load(file)


def text_of(stored):
    """The file's text: an entry a line, so that a change of one shows as one line."""
    lines = ',\n'.join('  ' + json.dumps(entry) for entry in stored['circuits'])
    head = {name: value for name, value in stored.items() if name != 'circuits'}
    return json.dumps(head)[:-1] + ', "circuits": [\n' + lines + '\n]}\n'


def quicker(one, other):
    """Of two runs that did the same, the quicker; one that failed is the slower, and one that isn't there the slowest."""
    rank = lambda run: (not run, 'seconds' not in run, run.get('seconds', 0))
    return min(one, other, key=rank)


def quickest(old, new):
    """Of two lists of runs by name, the quicker of each, with the instructions that were counted of either."""
    counted = {name: it['instructions'] for runs in (old, new) for name, it in runs.items() if it.get('instructions')}
    both = old | {name: quicker(run, old.get(name, {})) for name, run in new.items()}
    return {name: run | ({'instructions': counted[name]} if name in counted else {}) for name, run in both.items()}


def merged(old, new):
    """An entry with what both have: the quicker runs, and other fields of the newer where it has them."""
    both = old | {name: value for name, value in new.items() if value is not None}
    both['workers'] = quickest(old['workers'], new['workers'])
    if 'abc' in old and 'abc' in new:
        both['abc'] = quicker(new['abc'], old['abc'])
    if 'plain' in old and 'plain' in new:
        both['plain'] = quickest(old['plain'], new['plain'])
    return both


def sum_of(program):
    with open(program, 'rb') as file:
        return hashlib.sha256(file.read()).hexdigest()


def of_others(entry):
    """What an entry has that isn't of the program: the circuit, and what others took on the same machine."""
    others = {name: entry[name] for name in ('circuit', 'gates', 'latches', 'date', 'abc', 'plain') if name in entry}
    if 'abc' in others:
        others['abc'] = {'date': entry['date']} | others['abc']
    return others | {'left': None, 'frames': [], 'workers': {}}


def begun(path, program):
    """What is stored of this program on this machine. Of another program nothing stays beside it but what others took there."""
    head = {'machine': measure.kind(), 'program': sum_of(program)}
    stored = read(path) if os.path.exists(path) else {}
    if all(stored.get(name) == value for name, value in head.items()):
        return stored
    others = map(of_others, stored['circuits']) if stored.get('machine') == head['machine'] else []
    apart = {name: stored[name] for name in APART if name in stored}
    return head | apart | {'circuits': list(others), 'tables': {}}


def write(path, stored):
    with open(path, 'w', encoding='utf-8') as file:
        file.write(text_of(stored))


def put(path, program, found):
    """Adds what was measured of a circuit. What another program took goes, and all that was measured on another machine."""
    stored = begun(path, program)
    entries = {entry['circuit']: entry for entry in stored['circuits']}
    old = entries.get(found['circuit'])
    entries[found['circuit']] = merged(old, found) if old else found
    order = lambda entry: (entry['circuit'].split()[0], entry['gates'], entry['latches'])
    write(path, stored | {'circuits': sorted(entries.values(), key=order)})


def put_table(path, program, name, head, rows):
    """Adds a table of a script, in place of the one that it had."""
    stored = begun(path, program)
    table = {'date': str(datetime.date.today()), 'load': round(os.getloadavg()[0], 1), 'head': head, 'rows': rows}
    write(path, stored | {'tables': stored['tables'] | {name: table}})


LEVELS_HEAD = ['Circuit', 'Bound', 'Latches', 'Levels', 'Equal', 'ABC latches', 'ABC levels', 'ABC equal']


def put_apart(path, program, name, date, circuits):
    """Stores what was found of a program of its own, in place of what had been found before."""
    write(path, read(path) | {name: {'program': sum_of(program), 'machine': measure.kind(), 'date': date, 'circuits': circuits}})


def rows_of_levels(circuit):
    """The rows of a circuit: as it was read, then a row a bound."""
    cells = lambda run: [run['latches'], run['levels'], run['equal']] if 'latches' in run else [run['failed'], '', '']
    yield [circuit['circuit'], 'as read', circuit['latches'], circuit['levels'], '', '', '', '']
    for run in circuit['runs']:
        bound = 'none' if run['bound'] is None else f'{run["times"]:g} times: {run["bound"]}'
        yield ['', bound, *cells(run['ours']), *cells(run['abc'])]


BACKWARD_HEAD = ['Circuit', 'As read', 'Forward', 'Backward', 'Both', 'Forward, no longer', 'Backward, no longer', 'Both, no longer',
                 'ABC `retime -M 3`', 'ABC `dretime`']


def row_of_backward(circuit):
    """The row of a circuit: latches/levels of each run, and what was said of it."""
    def cell(run):
        if 'latches' not in run:
            return run['failed']
        free = f', {run["free"]} free' if run['free'] else ''
        equal = '**no**' if run['equal'] == 'no' else run['equal']
        return f'{run["latches"]}/{run["levels"]} {equal}{free}'

    runs = [*circuit['without'].values(), *circuit['bounded'].values(), *circuit['abc'].values()]
    return [circuit['circuit'], f'{circuit["latches"]}/{circuit["levels"]}', *map(cell, runs)]


LEAST_HEAD = ['Circuit', 'As read', 'Forward', 'Both', 'Least', 'Apart by resets', 'Forward, no longer', 'Both, no longer',
              'Least, no longer']


def row_of_least(circuit):
    """The row of a circuit: latches/levels as read and of each run, without a bound and within that of the circuit."""
    cell = lambda run: f'{run["latches"]}/{run["levels"]}' if 'latches' in run else run['failed']
    runs = lambda name: [cell(circuit[name][way]) for way in ('forward', 'both', 'least')]
    return [circuit['circuit'], cell(circuit), *runs('without'), circuit['without'].get('apart', ''), *runs('bounded')]


SETTLED_HEAD = ['Circuit', 'Latches', '`fretime -f`', '`dretime`', '`lcorr`', '`scleanup`', '`scorr`', '`dc2`']


def row_of_settled(circuit):
    """The row of a circuit: the latches as read, and of each result the latches, what the program says and what ABC says, with seconds."""
    def cell(run):
        if 'failed' in run:
            return run['failed']
        ours, abc = run['ours'], run['abc']
        said = ours['failed'] if 'failed' in ours else f'{"equal" if ours["settled"] else "open"} {ours["seconds"]:.2f}'
        return f'{run["latches"]}: {said}, {abc["equal"]} {abc["seconds"]:.2f}'

    return [circuit['circuit'], circuit['latches'], *map(cell, circuit['runs'].values())]


AREAS_HEAD = ['Design', '`synth`', '`abc -dff`', '`--merge`', '`--merge --enables`', '`--merge --enables --backward`', '`--merge --no-longer`',
              '`--merge --enables --no-longer`', '`--merge --enables --backward --no-longer`']


def rows_of_areas(circuit):
    """The row of a design: of each way flip-flops, those with an enable, levels and area."""
    def cell(run):
        if 'failed' in run:
            return run['failed']
        return f'{run["registers"]}, {run["enabled"]} enabled, {run["levels"]} levels, {run["area"]}'

    return [[circuit['circuit'], *map(cell, circuit['ways'].values())]]


STEPS_OF_ENABLES = ('merge', 'enables', 'backward')
ENABLES_HEAD = ['Pipeline', 'Form', 'As read', '`retime --merge`', 's', '`enables` after it', 's', '`backward --enables` after that', 's',
                '`check`', '`dretime`', '`abc -dff`']


def row_of_enables(circuit):
    """The row of a pipeline in a form: latches/levels of each way, seconds, and what `check` says of each step, with its seconds."""
    cell = lambda run: f'{run["latches"]}/{run["levels"]}' if 'latches' in run else run['failed']
    steps = [circuit[way] for way in STEPS_OF_ENABLES]
    said = ', '.join(f'{run["check"]} {run["checking"]:.2f}' for run in steps if 'check' in run)
    ours = [text for run in steps for text in (cell(run), f'{run["seconds"]:.2f}' if 'seconds' in run else '')]
    return [circuit['circuit'], circuit['form'], cell(circuit['read']), *ours, said, cell(circuit['dretime']), cell(circuit['yosys'])]


STEPS_HEAD = ['Pipeline', 'Form', '`synth`', '`scorr`', '`dc2`', '`dretime`', '`scorr`, `dretime`', '`abc -dff`', '`retime --merge`', '`enables`',
              '`backward --enables`']


def row_of_steps(circuit):
    """The row of a pipeline in a form: latches/levels of each way."""
    cell = lambda run: f'{run["latches"]}/{run["levels"]}' if 'latches' in run else run['failed']
    return [circuit['circuit'], circuit['form'], *map(cell, circuit['abc'].values()), *map(cell, circuit['ours'].values())]

"""What bench/RESULTS.md and README.md show of the stored results: the table, the aims, and what program and machine it was."""
import os
import re
import textwrap

import measure
import results

RESULTS, README = (os.path.join(measure.TOP, *words) for words in (('bench', 'RESULTS.md'), ('README.md',)))
RECORD = os.path.join(measure.TOP, 'release', 'record')
OF_README = ['multiplier 64', 'adder_tree 4096 32', 'delay_lines 16384 32', 'gates 1000000 50000']
OF_FAST = ['Circuit', 'Gates', 'Latches', 'Left', 's', 'MB', 'ABC left', 'ABC s']
TEN_MILLION = 'copies 34 two_stages 256 16'
MOST_A_NODE_FRAME = {'multiplier': 1500, 'divider': 1500, 'delay_lines': 1500, 'cordic': 2500}
CHARTS = {'time_beside_abc.svg': 'Seconds of the whole process, beside ABC',
          'latches_by_frame.svg': 'Known latches of multiplier 64, frame by frame',
          'cost_by_size.svg': 'Instructions by size', 'cost_by_node_frames.svg': 'Instructions by node-frames'}
LEVELS_CHART = ('latches_by_levels.svg', 'Latches against levels, under bounds')


def row(fields):
    return '| ' + ' | '.join(map(str, fields)) + ' |'


def table(names, rows):
    return [row(names), '|' + '---|' * len(names), *map(row, rows)]


def seconds_of(run):
    """A run's seconds, or why there are none."""
    return f'{run["seconds"]:.2f}' if 'seconds' in run else run.get('failed', '')


def megabytes_of(run):
    return f'{run["megabytes"]:.0f}' if run.get('megabytes') else ''


def millions_of(number):
    return f'{number / 1e6:.0f}' if number else ''


def a_node_frame(entry):
    """Instructions a node-frame, where both were counted."""
    both = entry.get('instructions') and entry.get('node_frames')
    return round(entry['instructions'] / entry['node_frames']) if both else None


def ends_of(entry):
    """A circuit's frames, and the latches that are left, where the program was run on it."""
    return ['', ''] if entry['left'] is None else [len(entry['frames']), entry['left']]


def cells(entry):
    """A circuit's row of the table."""
    one, four = entry['workers'].get('1', {}), entry['workers'].get('4', {})
    abc, plain = entry.get('abc', {}), entry.get('plain', {})
    pulses, blocking = plain.get('pulses', {}), plain.get('blocking', {})
    return [entry['circuit'], entry['gates'], entry['latches'], *ends_of(entry), seconds_of(one),
            seconds_of(four), megabytes_of(one), millions_of(entry.get('instructions')), a_node_frame(entry) or '',
            abc.get('left', ''), seconds_of(abc), megabytes_of(abc), seconds_of(pulses), megabytes_of(pulses),
            millions_of(pulses.get('instructions')), seconds_of(blocking), megabytes_of(blocking)]


HEAD = ['Circuit', 'Gates', 'Latches', 'Frames', 'Left', 's', 's, 4 workers', 'MB', 'M instr.', 'a node-frame', 'ABC left',
        'ABC s', 'ABC MB', 'Plain s', 'Plain MB', 'Plain M instr.', 'Blocking s', 'Blocking MB']


def circuits(stored):
    return table(HEAD, map(cells, stored['circuits']))


def is_of_release(stored):
    """Whether the program that was measured is the one of release/."""
    with open(RECORD, encoding='utf-8') as file:
        return f'program {stored["program"]}\n' in file.read()


def counts(stored, name, head, rows_of):
    """What a script counted, and of which program."""
    it = stored.get(name)
    if not it:
        return [f'Not counted: `bench/{name} --store=bench/results.json` does it.']
    which = 'the program of `release/`' if is_of_release(it) else f'an earlier program, whose SHA-256 begins with {it["program"][:12]}'
    rows = [cells for circuit in it['circuits'] for cells in rows_of(circuit)]
    return [f'On {it["date"]}, by {which}.', '', *table(head, rows)]


def levels(stored):
    """What bench/levels counted, and its chart."""
    name, title = LEVELS_CHART
    chart = ['', f'![{title}](../docs/pictures/{name})'] if 'levels' in stored else []
    return counts(stored, 'levels', results.LEVELS_HEAD, results.rows_of_levels) + chart


def backward(stored):
    """What bench/backward counted."""
    return counts(stored, 'backward', results.BACKWARD_HEAD, lambda circuit: [results.row_of_backward(circuit)])


def pairs(stored, name):
    """What `retime` and `backward` leave of each circuit, and the least, under a bound or none, if both are known."""
    runs = [it[name] for it in stored['least']['circuits']]
    return [(it['both']['latches'], it['least']['latches']) for it in runs if 'latches' in it['both'] and 'latches' in it['least']]


def reached(stored, name):
    """On how many circuits no retiming leaves fewer."""
    known = pairs(stored, name)
    return f'{sum(both <= least for both, least in known)} of {len(known)}'


def gaps(stored, name):
    """How far the program is from the least, under a bound or none."""
    both, least = (sum(column) for column in zip(*pairs(stored, name)))
    return (f'no retiming leaves fewer latches than both on {reached(stored, name)} circuits; in all both leave {both}, '
            f'and the least is {least}')


def least(stored):
    """What bench/least counted, and how far the program is in all."""
    table = counts(stored, 'least', results.LEAST_HEAD, lambda circuit: [results.row_of_least(circuit)])
    if 'least' not in stored:
        return table
    apart = sum(it['without'].get('apart', 0) for it in stored['least']['circuits'])
    said = (f'Without a bound {gaps(stored, "without")}; {apart} latches are apart by resets. '
            f'Where no path gets longer, {gaps(stored, "bounded")}.')
    return [*table, '', *textwrap.wrap(said, 128)]


def settled_by(runs):
    """Of how many results the program says `equal`, and ABC yes, if there are any."""
    made = [run for run in runs if 'ours' in run]
    ours = sum(run['ours'].get('settled', False) for run in made)
    return f'{ours} and {sum(run["abc"]["equal"] == "yes" for run in made)} of {len(made)}'


def settled(stored):
    """What bench/settled found, and how many results of each command each settles."""
    table = counts(stored, 'settled', results.SETTLED_HEAD, lambda circuit: [results.row_of_settled(circuit)])
    found = stored.get('settled', {'circuits': []})['circuits']
    columns = zip(*(circuit['runs'].values() for circuit in found))
    return [*table, row(['settled', '', *map(settled_by, columns)])] if found else table


def enables(stored):
    """What bench/enables counted."""
    return counts(stored, 'enables', results.ENABLES_HEAD, lambda circuit: [results.row_of_enables(circuit)])


def steps(stored):
    """What bench/steps counted."""
    return counts(stored, 'steps', results.STEPS_HEAD, lambda circuit: [results.row_of_steps(circuit)])


def areas(stored):
    """What bench/areas counted, and the sum of each way over the designs that all have."""
    table = counts(stored, 'areas', results.AREAS_HEAD, results.rows_of_areas)
    found = [it['ways'] for it in stored.get('areas', {'circuits': []})['circuits']]
    whole = [ways for ways in found if not any('failed' in run for run in ways.values())]
    sums = [{name: sum(run[name] for run in runs) for name in ('registers', 'enabled', 'area')} for runs in zip(*(it.values() for it in whole))]
    said = [f'{it["registers"]}, {it["enabled"]} enabled, {it["area"]}' for it in sums]
    return [*table, row([f'all {len(whole)}', *said])] if whole else table


def span(values):
    """The least and the greatest value, as text."""
    values = sorted(set(values)) or ['no day']
    return str(values[0]) if values[0] == values[-1] else f'{values[0]} to {values[-1]}'


def priority(stored):
    """That each time was taken at real-time priority, where it was."""
    runs = [run for entry in stored['circuits'] for run in entry['workers'].values() if 'seconds' in run]
    return ' at real-time priority' if runs and all(run.get('real_time') for run in runs) else ''


def loads(stored):
    return [run['load'] for entry in stored['circuits'] for run in entry['workers'].values() if 'load' in run]


def measured(stored):
    """Which program was measured, when and where, in a sentence."""
    dates = span([entry['date'] for entry in stored['circuits'] if entry['left'] is not None])
    load = f',{priority(stored)} under a load of {span(loads(stored))} running processes' if loads(stored) else ''
    if is_of_release(stored):
        which = f'Of the program of `release/`, whose SHA-256 begins with {stored["program"][:12]}'
    else:
        which = ('**Not of the program of `release/`**, which wasn\'t measured yet, but of an earlier one, whose SHA-256 begins with '
                 f'{stored["program"][:12]}')
    days = span([entry['abc']['date'] for entry in stored['circuits'] if 'date' in entry.get('abc', {})] or [dates])
    other = '' if days == dates else f" ABC's times are of {days}."
    return f'{which}: measured on {dates}, on a machine of the kind {stored["machine"]}{load}.{other}'


def found(stored, name):
    return next((entry for entry in stored['circuits'] if entry['circuit'] == name), None)


def verdict(values, limit):
    """Whether an aim of at most so much is met by what was measured, and by which of it."""
    known = [value for value in values if value is not None]
    if not known:
        return 'not measured'
    missed = sum(value > limit for value in known)
    return 'met' if not missed else 'missed' if missed == len(known) else f'missed by {missed} of {len(known)}'


def of_node_frames(stored):
    for family, limit in MOST_A_NODE_FRAME.items():
        entries = [entry for entry in stored['circuits'] if entry['circuit'].split()[0] == family and a_node_frame(entry)]
        shown = ', '.join(f'`{entry["circuit"]}` {a_node_frame(entry)}' for entry in entries)
        yield [f'{limit} instructions a node-frame at most, `{family}`', shown, verdict(map(a_node_frame, entries), limit)]


def of_time(stored, name, what, most_seconds, most_megabytes):
    run = (found(stored, name) or {'workers': {}})['workers'].get('1', {})
    shown = f'{seconds_of(run)} s, {megabytes_of(run)} MB' if 'seconds' in run else seconds_of(run)
    memory = ' and 1.2 GB' if most_megabytes else ''
    shares = [run['seconds'] / most_seconds] if 'seconds' in run else []
    shares += [run['megabytes'] / most_megabytes] if most_megabytes and run.get('megabytes') else []
    return [f'{what} in {most_seconds} s{memory}', shown, verdict([max(shares)] if shares else [], 1)]


def of_abc(stored):
    both = [(entry['workers']['1']['seconds'], entry['abc']['seconds']) for entry in stored['circuits']
            if 'seconds' in entry['workers'].get('1', {}) and 'seconds' in entry.get('abc', {})]
    times = span([round(abc / ours, 1) for ours, abc in both]) if both else ''
    shown = f'ABC took {times} times as long on the {len(both)} circuits that it finished' if both else ''
    return ["never slower than ABC's `fretime -f`", shown, verdict([ours / abc for ours, abc in both], 1)]


def of_certificates(stored):
    rows = stored['tables'].get('certificates', {'rows': []})['rows']
    for what, column, limit in (('`--cert` adds a third at most', 5, 1.34), ('`verify` takes no longer than `retime --cert`', 6, 1)):
        values = [float(cells[column]) for cells in rows if cells[column]]
        yield [what, f'{span(values)} times as long' if values else '', verdict(values, limit)]


def of_networks(stored):
    """Hints that don't show a set cost a network and its flow, which no answer tells."""
    counts = {entry['circuit']: entry['network'] for entry in stored['circuits'] if entry.get('network') is not None}
    needed = ', '.join(f'`{circuit}` {count}' for circuit, count in counts.items() if count)
    shown = f'on {len(counts)} circuits {needed or "none"}' if counts else ''
    return ['no set found by a network', shown, verdict(counts.values(), 0)]


def aims(stored):
    rows = [*of_node_frames(stored), of_networks(stored), of_time(stored, 'multiplier 64', '`multiplier 64`', 1, None),
            of_time(stored, TEN_MILLION, '10^7 gates with two frames', 20, 1200), of_abc(stored), *of_certificates(stored)]
    return table(['Aim', 'Measured', ''], rows)


def stored_table(stored, name):
    """A script's table, or that there is none of this program."""
    it = stored['tables'].get(name)
    if not it:
        return [f'Not measured of this program: `bench/remake --measure` runs `bench/{name}`.']
    return [f'On {it["date"]}, load {it["load"]}.', '', *table(it['head'], it['rows'])]


def pictures(drawn):
    """The charts that there are."""
    return '\n\n'.join(f'![{text}](../docs/pictures/{name})' for name, text in CHARTS.items() if name in drawn).split('\n')


def blocks(stored, drawn):
    """The texts between the marks of bench/RESULTS.md, by name."""
    return {'program': [measured(stored)], 'circuits': circuits(stored), 'charts': pictures(drawn), 'aims': aims(stored),
            'batch': stored_table(stored, 'batch'), 'certificates': stored_table(stored, 'certificates'), 'levels': levels(stored),
            'backward': backward(stored), 'least': least(stored), 'settled': settled(stored),
            'enables': enables(stored), 'steps': steps(stored), 'areas': areas(stored)}


def results_text(text, stored, drawn):
    """bench/RESULTS.md with what stands between its marks made anew."""
    for name, lines in blocks(stored, drawn).items():
        begin, end = f'<!-- {name} -->\n', f'<!-- end of {name} -->'
        text = re.sub(f'{re.escape(begin)}.*?{re.escape(end)}', lambda _: begin + '\n'.join(lines) + '\n' + end, text, flags=re.S)
    return text


def fast(stored):
    """The section of README.md about time: the run of its circuits that is stored for it."""
    run, wanted = stored['readme'], [HEAD.index(name) for name in OF_FAST]
    rows = [cells(found(run, name)) for name in OF_README]
    large = found(run, TEN_MILLION)['workers']['1']
    which = 'the program of `release/`' if is_of_release(run) else 'an earlier program than that of `release/`'
    days = span([run['date'], *(entry['abc']['date'] for entry in run['circuits'] if 'abc' in entry)])
    paragraph = ('Seconds and megabytes of the whole process by one worker, beside `fretime -f` of ABC 1.01; `bench/RESULTS.md` has more. '
                 f'Measured on {days} with {which} (SHA-256 {run["program"][:12]}), on a machine of the kind {run["machine"]}. A circuit of '
                 f'10^7 gates with two frames took {seconds_of(large)} s and {megabytes_of(large)} MB.')
    if 'least' in stored:
        paragraph += (f' No retiming leaves fewer latches than `retime` and then `backward` on {reached(stored, "without")} circuits, '
                      f'with `--no-longer` on {reached(stored, "bounded")}.')
    return [*textwrap.wrap(paragraph, 128), '', *table([HEAD[k] for k in wanted], [[cells[k] for k in wanted] for cells in rows])]


def readme_text(text, stored):
    """README.md with its section about time made anew."""
    lines = '\n'.join(fast(stored))
    return re.sub(r'(?s)(\n## How fast\n\n).*?(\n\n## )', lambda it: it[1] + lines + it[2], text)

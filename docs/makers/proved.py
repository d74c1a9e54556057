"""What docs/PROVED.md leads to: the README of each crate, from the head of its lib, the first sentence of each public call's doc comment,
its clauses with the words that they cite, what docs/claims.txt says of the crate beside them, and its wrong bodies; and the links to all."""
import re

import tree
from crates import head, link, sentences
from marks import text_of

SOURCE = 'docs/claims.txt'


def beside():
    """By crate what is said of it by hand."""
    return dict(part.split('\n', 1) for part in re.split(r'(?m)^== ', text_of(SOURCE))[1:])


def shown(clause):
    """A clause: its name, and the words that it cites or, if it cites none, its text."""
    said = ', '.join(f'`{word}`' for word in [it.name for it in clause.cites] or [clause.text])
    return f'`{clause.name}` ({said})' if clause.name else said


def line_of(function):
    """What is said of a call."""
    name = '::'.join(part for part in (function.owner, function.name) if part)
    parts = [f'- `{name}`: {sentences(function.doc)[0]}' if function.doc else f'- `{name}`.']
    for kind in ('requires', 'ensures'):
        clauses = dict.fromkeys(shown(it) for it in function.clauses if it.kind == kind)
        parts += [f'{kind.capitalize()} {", ".join(clauses)}.'] if clauses else []
    return ' '.join(parts)


def stands_on(crate):
    """The crates that a crate's own files name: links to ours, and the names of the kit's."""
    known, names = tree.crates(), tree.map_of_crates()[1][crate]
    ours = [link(name, '..') for name in names if name in known]
    others = [f'`{name}`' for name in names if name not in known]
    lines = [f'It stands on {", ".join(ours)}.'] * bool(ours) + [f'Of the kit it stands on {", ".join(others)}.'] * bool(others)
    return ' '.join(lines)


def wrong_bodies(crate):
    """The names of a crate's edits, as words: those that the gate tries, and those that are tried on demand."""
    folders = {'In the gate': tree.CRATES / crate / 'must-fail', 'On demand': tree.TOP / 'tests' / 'edits' / crate}
    names = {when: [path.stem.replace('_', ' ') for path in sorted(folder.glob('*.edit'))] for when, folder in folders.items()}
    return '\n'.join(f'- {when}: {"; ".join(found)}.' for when, found in names.items() if found)


def readme(crate, said):
    """The README of a crate: what it is, what it stands on, its calls, what is said beside them, and its wrong bodies."""
    calls = '\n'.join(map(line_of, tree.exported_functions(crate))) if not crate.endswith('_tests') else ''
    parts = [f'<!-- docs/make makes this page from crates.txt, src/ and {SOURCE} -->', f'# `{crate}`', *head(crate), stands_on(crate)]
    parts += ['## What its calls ensure', 'How to read this: `docs/READING.md`.', calls] if calls else []
    parts += ['## What no clause says', said.strip()] if said.strip() else []
    parts += ['## Wrong bodies that the prover refuses', wrong_bodies(crate)] if wrong_bodies(crate) else []
    return '\n\n'.join(filter(None, parts)) + '\n'


def readmes():
    """The README of each crate, with its path."""
    notes = beside()
    for crate in tree.crates():
        yield f'crates/{crate}/README.md', readme(crate, notes.get(crate, ''))


def links():
    """Links to the READMEs, under the headings of crates.txt."""
    listed = [(heading, crates) for heading, crates in tree.map_of_crates()[0] if crates]
    return '\n'.join(f'- {heading}: {", ".join(link(crate, "../crates") for crate in crates)}.' for heading, crates in listed) + '\n'


def faults():
    """Crates of docs/claims.txt that aren't there."""
    yield f'{SOURCE} has crates of crates.txt', sorted(set(beside()) - set(tree.crates()))

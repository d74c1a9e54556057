"""What each crate is, from the head of its lib: the tables of docs/ARCHITECTURE.md, and the paragraphs that stand in docs/PROVED.md."""
import re

import tree
from manual import table

# Sentences of a head stand in a table until it has so many characters.
ENOUGH = 80


def head(crate):
    """The paragraphs at the head of a crate's lib, or of its program."""
    paths = [path for path in tree.sources(crate) if path.stem in ('lib', 'main')]
    lines = [line[3:].strip() for path in paths[:1] for line in path.read_text(encoding='utf-8').splitlines() if line.startswith('//!')]
    return [without_links(' '.join(part.split())) for part in '\n'.join(lines).split('\n\n') if part]


def without_links(text):
    """A comment, with names in place of links to them."""
    return re.sub(r'\[(`[^`]*`)\](?:\([^)]*\))?', r'\1', text)


def sentences(text):
    """The sentences of a comment, up to its first heading."""
    text = without_links(' '.join(text.split(' # ')[0].split()))
    return re.split(r'(?<=\.)(?<! al\.) +(?=[A-Z`])', text)


def row(crate):
    """The name of a crate, and the first sentences of its head."""
    said = ''
    for sentence in sentences(' '.join(head(crate)[:1])):
        said += ' ' * bool(said) + sentence if len(said) < ENOUGH else ''
    return [link(crate, '../crates'), said]


def link(crate, above):
    """A link to a crate's README, from a folder of which this leads to crates/."""
    return f'[`{crate}`]({above}/{crate}/README.md)'


def tables():
    """A table for each heading of crates.txt."""
    lines = []
    for heading, crates in tree.map_of_crates()[0]:
        if crates:
            lines += [f'### {heading}', '', *table(['Crate', 'What it is'], [row(crate) for crate in crates]), '']
    return '\n'.join(lines)


def faults():
    """Crates whose lib has no head."""
    yield 'libs have a head', [crate for crate in tree.crates() if not head(crate)]

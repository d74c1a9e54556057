"""The crates of the kit that this repository stands on, from crates.txt: their statements are trusted."""
import textwrap

import tree


def crates(indent=''):
    """Their names, in lines of some 130 columns."""
    stands_on = tree.map_of_crates()[1]
    names = sorted({name for names in stands_on.values() for name in names} - set(stands_on))
    text = ', '.join(f'`{name}`' for name in names) + '.'
    return '\n'.join(textwrap.wrap(text, 128, initial_indent=indent, subsequent_indent=indent)) + '\n'

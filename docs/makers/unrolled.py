"""One promise, unrolled: the clauses of a public call as they stand in its source, and below them the definitions of the words that they
cite, and of the words that these cite, as they stand in specs/. A word that only gives a name to others is no level of its own. Past the last
level stand those alone that say what a round is."""
import collections

import tree
from definitions import files_of
from marks import NotMade

CALL = ('frames', 'retime')
LEVELS = 2
TITLES = ['What the clauses cite', 'What these cite', 'What these cite in turn']
# The files whose words say what a round is, as far as the promise reaches them.
OF_ROUNDS = {('frame_runs', 'Retiming'), ('retimed_circuits', 'Retiming'), ('retimed_circuits', 'Merging'), ('retimed_circuits', 'Frames')}


class Words:
    """All words of specs/, and what each cites."""

    def __init__(self):
        self.files = {(crate, file.name): file for crate in tree.crates() for file in files_of(crate)}
        self.words = {word.place(): word for file in self.files.values() for word in file.words}

    def below(self, place):
        """The words that the definition of a word cites."""
        file = self.files[place.crate, place.file]
        known = {**file.imports, **{word.name: word.place() for word in file.words}}
        cited = tree.words_in('\n'.join(self.words[place].lines), known)
        return [it for it in cited if it in self.words and it != place]

    def levels(self, first):
        """The level of each word that is reached from the first ones, in the order in which they are met."""
        found, left = {it: 0 for it in first}, collections.deque(first)
        while left:
            place = left.popleft()
            level = found[place] + (not self.words[place].is_name_alone())
            for it in self.below(place):
                if it not in found or level < found[it]:
                    found[it] = level
                    (left.append if level > found[place] else left.appendleft)(it)
        return found


def source_of(crate, name):
    """The source of a public call, and the call."""
    for path in tree.sources(crate):
        for function in tree.functions_of(crate, path):
            if function.name == name and not function.owner:
                return path, function
    raise NotMade(f'{crate} has no public call {name}')


def signature(path, name):
    """The lines of a call from its head to its last clause."""
    lines = path.read_text(encoding='utf-8').splitlines()
    begin = next(number for number, line in enumerate(lines) if line.startswith((f'pub fn {name}(', f'pub fn {name}<')))
    return lines[begin:lines.index('{', begin)]


def block(lines):
    return ['```', *lines, '```', '']


def level(words, places):
    """The definitions of a level, those of one file together."""
    lines, of_files = [], collections.defaultdict(list)
    for place in places:
        of_files[place.crate, place.file].append(words.words[place].verbatim())
    for key, shown in of_files.items():
        lines += [f'`{words.files[key].path.relative_to(tree.TOP)}`', '']
        lines += block([line for number, each in enumerate(shown) for line in ([''] * bool(number) + each)])
    return lines


def promise():
    """The clauses, the levels, and the names of the words where it ends."""
    path, function = source_of(*CALL)
    words = Words()
    first = [it for clause in function.clauses for it in clause.cites if it in words.words]
    levels = words.levels(dict.fromkeys(first))
    lines = ['## The clauses', '', f'`{path.relative_to(tree.TOP)}`', '', *block(signature(path, CALL[1]))]
    for number, title in enumerate(TITLES[:LEVELS + 1]):
        lines += [f'## {title}', '', *level(words, [it for it, at in levels.items() if at == number])]
    of_rounds = [it for it, at in levels.items() if at > LEVELS and (it.crate, it.file) in OF_ROUNDS]
    lines += ['## What a round is', '', *level(words, of_rounds)]
    past = sorted({f'`{it.name}` (`{it.crate}/{it.file.replace(".", "/")}`)' for it, at in levels.items() if at == LEVELS + 1 and it not in of_rounds})
    return '\n'.join([*lines, '## Where it goes on', '', f'These cite {", ".join(past)}. Each stands in `crates/CRATE/specs/FILE.antt`.'])

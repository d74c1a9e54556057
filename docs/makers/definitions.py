"""The words of docs/DEFINITIONS.md: those of specs/ that the clauses of public calls cite, each with the comment above it. A word
without one is shown as it is defined, which is short then."""
import dataclasses
import pathlib
import re

import tree

# The head of a definition: its indent, how it is declared, whether it is a record or data, and its name.
HEAD = re.compile(r'( *)((?:abbrev |unfoldable )?pub (?:abbrev |unfoldable )?)(?:(record|data) )?(?!mod |module |use )(\S+)')
# The most characters of a definition that says all by itself, and of a word with its parameters.
LONGEST_DEFINITION = 160
LONGEST_HEAD = 60


@dataclasses.dataclass
class Word:
    """A public word: the comment above it in one line and as it stands, the lines of its definition, and the comments on its members."""
    crate: str
    file: str
    name: str
    kind: str
    comment: str
    said: list
    lines: list
    members: list

    def place(self):
        """Where it stands."""
        return tree.Cited(self.crate, self.file, self.name)

    def is_name_alone(self):
        """Whether it only gives a name to other words."""
        return not self.kind and self.lines[0].startswith('abbrev')

    def verbatim(self):
        """Its lines in specs/, with those of the comment above it."""
        return [*self.said, *self.lines]

    def equations(self):
        """Its equations, each in one line; none of a record or of data."""
        text = re.sub(r'\s+', ' ', '\n'.join(self.lines[1:]))
        return [] if self.kind else [part.strip() for part in re.split(rf'(?:^| ){re.escape(self.name)}(?=[ =])', text)[1:]]

    def parameters(self):
        """The names of its parameters, if it has one equation that names each, or is a record or data."""
        if self.kind:
            heads = re.sub(r'\{[^}]*\}', '', ' '.join(self.lines)).split(' : Type')[0]
            return ' '.join(re.findall(r'\(([^():]+) : ', heads)).split()
        equations = self.equations()
        given = equations[0].split('=')[0].strip() if len(equations) == 1 else ''
        return given.split() if re.fullmatch(r"[\w' -]*", given) else []

    def head(self):
        """Its name, with its parameters."""
        text = ' '.join([self.name, *self.parameters()])
        return f'`{text}`' if len(text) <= LONGEST_HEAD and '◌' not in text else f'`{self.name}`'

    def definition(self):
        """Its definition in one line, if that is short and says all."""
        shown = '; '.join(f'{self.name} {equation}' for equation in self.equations())
        return f'`{shown}`' if shown and len(shown) <= LONGEST_DEFINITION and '`' not in shown else ''


def lines_above(lines, number):
    """The lines of the comment that ends just before a line, or before the rank of the operator that is defined there."""
    end = number - bool(number and re.match(r'infix', lines[number - 1]))
    begin = end
    while begin and re.match(r' *--', lines[begin - 1]):
        begin -= 1
    return [line.strip() for line in lines[begin:end]]


def comment_above(lines, number):
    """The comment that ends just before a line, in one line."""
    return ' '.join(re.sub(r'^--+ ?', '', line) for line in lines_above(lines, number)).strip()


def head_at(line):
    """The head of a word's definition, if this line is one and no member of a record."""
    found = HEAD.match(line)
    return found if found and (not found[1] or found[3] or found[2] != 'pub ') else None


def lines_of(lines, number, indent):
    """The lines of the definition whose head is at this line, with this indent taken away."""
    end = number + 1
    while end < len(lines) and lines[end].strip() and not head_at(lines[end]) and not lines[end].startswith(f'{indent}--'):
        end += 1
    return [line[len(indent):] for line in lines[number:end]]


def members_of(lines):
    """The members of a record or of data that have a comment, each with it."""
    for number, line in enumerate(lines):
        member = re.match(r' +(?:pub )?(\S+) :', line)
        comment = comment_above(lines, number)
        if member and comment:
            yield member[1], comment


@dataclasses.dataclass
class File:
    """A file of specs/: its path, its words, and what it imports, by name."""
    name: str
    path: pathlib.Path
    words: list
    imports: dict


def file_of(crate, name, path):
    """What a file has, whose path below specs/ is this name, with points."""
    lines = path.read_text(encoding='utf-8').splitlines()
    file = File(name, path, [], tree.imported_words('\n'.join(lines)))
    for number, line in enumerate(lines):
        found, comment = head_at(line), comment_above(lines, number)
        if found:
            body = lines_of(lines, number, found[1])
            members = list(members_of(body)) if found[3] else []
            file.words.append(Word(crate, name, found[4], found[3] or '', comment, lines_above(lines, number), body, members))
    return file


def modules(path, folder, prefix=''):
    """The files that a file names as its modules, and those that they name, each with its name."""
    for name in re.findall(r'(?m)^pub mod (\w+)', path.read_text(encoding='utf-8')) if path.is_file() else []:
        if (folder / f'{name}.antt').is_file():
            yield prefix + name, folder / f'{name}.antt'
            yield from modules(folder / f'{name}.antt', folder / name, f'{prefix}{name}.')


def files_of(crate):
    """The files of a crate, in the order in which its Lib, and the file of each folder, name them."""
    specs = tree.CRATES / crate / 'specs'
    return [file_of(crate, name, path) for name, path in modules(specs / 'Lib.antt', specs) if not name.startswith('declared')]


def words():
    """All words of specs/."""
    return [word for crate in tree.crates() for file in files_of(crate) for word in file.words]


def faults():
    """Words that neither a comment nor a short definition explains."""
    yield 'words of specs/ have a comment, or a short definition', [
        f'{it.crate}.{it.file}.{it.name}' for it in words() if not it.comment and not it.definition()]


def line_of(word):
    """What is said of a word, and of its members."""
    yield f'- {word.head()}: {word.comment}' if word.comment else f'- {word.definition()}'
    for name, comment in word.members:
        yield f'  - `{name}`: {comment}'


def section(name, words):
    """The lines of the words of a file."""
    return [f'### `{name.replace(".", "/")}`', '', *(line for word in words for line in line_of(word)), '']


def definitions():
    """The words that clauses of public calls cite, by crate and by file."""
    cited, lines = tree.cited_words(), []
    for crate in tree.crates():
        files = [(file.name, [word for word in file.words if word.place() in cited]) for file in files_of(crate)]
        if any(words for _, words in files):
            lines += [f'## `{crate}`', '']
            lines += [line for name, words in files if words for line in section(name, words)]
    return '\n'.join(lines)

"""What the repository has, as text: the map of crates.txt, the functions that a crate exports with their clauses and the words that these
cite, its words, and its tests."""
import dataclasses
import pathlib
import re

TOP = pathlib.Path(__file__).resolve().parent.parent.parent
CRATES = TOP / 'crates'


@dataclasses.dataclass(frozen=True)
class Cited:
    """A word of definitions: the crate that has it, the file of its specs/ (`waves.Dumps` of a folder), and its name."""
    crate: str
    file: str
    name: str


@dataclasses.dataclass(frozen=True)
class Clause:
    """A clause: `requires` or `ensures`, its name if it has one, its text, and the words of definitions that it cites, as they come."""
    kind: str
    name: str
    text: str
    cites: tuple


@dataclasses.dataclass(frozen=True)
class Function:
    """An exported function: its type or trait if it has one, its name, its doc comment in one line, and its clauses."""
    owner: str
    name: str
    doc: str
    clauses: tuple


def map_of_crates():
    """The headings of crates.txt, each with its crates, and the names that a crate's line lists."""
    headings, stands_on = [], {}
    for line in (TOP / 'crates.txt').read_text().splitlines():
        row = re.match(r'(\w+)[^:#]*:(.*)', line)
        if row:
            stands_on[row[1]] = row[2].split()
            headings[-1][1].append(row[1])
        elif re.match(r'# [^:]+$', line):
            headings.append((line[2:], []))
    return headings, stands_on


def crates():
    """The crates of crates.txt, in its order."""
    return list(map_of_crates()[1])


def documents():
    """The documents of the repository."""
    return sorted([*TOP.glob('*.md'), *(TOP / 'docs').glob('*.md'), *(TOP / 'bench').glob('*.md'), *(TOP / 'tests').glob('*.md')])


def pages_of_crates():
    """The READMEs of crates."""
    return sorted(CRATES.glob('*/README.md'))


def sources(crate, suffix='.rt', folders=('src',)):
    """The files of a crate with this suffix, in these of its folders."""
    return [path for folder in folders for path in sorted((CRATES / crate / folder).rglob(f'*{suffix}'))]


def is_of_tests(path):
    """Whether a source is compiled for tests alone."""
    return 'tests' in path.parts or path.stem.endswith('tests')


def names_of_files(crate, known):
    """The libraries that the files of a crate name: as `Rattle.NAME.`, or as `NAME::` where it has no such module."""
    named, modules = set(), {path.stem for path in (CRATES / crate / 'src').glob('*.rt')}
    for suffix in ('.rt', '.antt'):
        for path in sources(crate, suffix, ('src', 'specs', 'proofs')):
            code = re.sub(r'(//|--).*', '', path.read_text())
            named.update(re.findall(r'\bRattle\.(\w+)\.', code))
            if suffix == '.rt':
                named.update(re.findall(r'(?<![\w:.])(?:::)?([a-z][a-z0-9_]*)::', code))
    return {name for name in named & known if name not in modules} - {crate}


def exported_names(crate):
    """What a crate's lib hands on of its own modules, by name."""
    path = CRATES / crate / 'src' / 'lib.rt'
    found = set()
    for _, names, name in re.findall(r'^pub use (\w+)::(?:\{([^}]*)\}|(\w+));', path.read_text(), re.M) if path.exists() else ():
        found.update(word.strip() for word in (names or name).split(','))
    return found - {''}


def imported_words(text):
    """The words of our own definitions that a source or a file of definitions imports, by their names."""
    words = {}
    for crate, module, names in re.findall(r'use Rattle\.(\w+)\.specs\.([\w.]+)\.\{([^}]*)\}', text):
        if (CRATES / crate).is_dir() and not module.startswith('declared'):
            words.update({name: Cited(crate, module, name) for name in map(str.strip, names.split(','))})
    return words


def cited(text, words):
    """Those of the words that stand in a clause, but for the types of what it binds, in their order."""
    return tuple(words_in(re.sub(r'(?<= : )[^()]*\)', ')', text), words))


def words_in(text, words):
    """Those of the words that stand in a text, in their order."""
    return list(dict.fromkeys(words[name] for name in re.findall(r"(?<![\w'.])[A-Za-z_][\w'-]*", text) if name in words))


def functions_of(crate, path):
    """The exported functions of a source: those at its top that the lib hands on or has, and the methods of types and traits that
    it hands on; of a program, which has no lib, its public functions."""
    exported, text = exported_names(crate), path.read_text()
    is_open = path.stem == 'lib' or not (CRATES / crate / 'src' / 'lib.rt').exists()
    words, owner, of_trait = imported_words(text), '', False
    lines = text.splitlines()
    for number, line in enumerate(lines):
        block = re.match(r'(?:pub )?(impl|trait)\b(?:<[^{]*?>)? ?(?:(\w+)(?:<.*?>)? for )?(\w+)', line)
        if block:
            owner, of_trait = block[2] or block[3], block[1] == 'trait'
        elif line == '}':
            owner, of_trait = '', False
        head = re.match(r'( *)(pub )?(?:const )?fn (\w+)', line)
        if head and (head[2] or of_trait) and (is_open or (owner or head[3]) in exported):
            yield Function(owner, head[3], doc_above(lines, number), tuple(clauses_after(lines, number, head[1], words)))


def doc_above(lines, number):
    """The doc comment above a line, in one line."""
    begin = number
    while begin and re.match(r' *(///|#\[)', lines[begin - 1]):
        begin -= 1
    return ' '.join(line.strip()[3:].strip() for line in lines[begin:number] if line.lstrip().startswith('///'))


def clauses_after(lines, number, indent, words):
    """The clauses of the function whose head begins at this line."""
    found = []
    for line in lines[number:]:
        is_over = re.match(r' *(///|fn |$)', line) if found else re.search(r'[{;]$', line)
        if is_over or line in (f'{indent}{{', f'{indent}}}', f'{indent}{{}}'):
            break
        clause = re.match(r' *(requires|ensures) *(\w*) *(\{.*)', line)
        if clause:
            found.append([clause[1], clause[2], clause[3]])
        elif found and not re.match(r' *//', line):
            found[-1][2] += ' ' + line.strip()
    for kind, name, text in found:
        text = text.strip().removesuffix(';').removeprefix('{').removesuffix('}').strip()
        yield Clause(kind, name, text, cited(text, words))


def exported_functions(crate):
    """The functions that a crate exports, but for code of tests."""
    return [function for path in sources(crate) if not is_of_tests(path) for function in functions_of(crate, path)]


def cited_words():
    """The words that clauses of exported functions cite, those of tests aside."""
    crates_of_calls = [crate for crate in crates() if not crate.endswith('_tests')]
    clauses = [clause for crate in crates_of_calls for function in exported_functions(crate) for clause in function.clauses]
    return {word for clause in clauses for word in clause.cites}


def crates_with_a_test():
    """The crates of which a source has a test."""
    return [crate for crate in crates() if any('#[test]' in path.read_text() for path in sources(crate))]


def words_of_files():
    """Every word of the tree's files but the documents and the texts that docs/make puts into them, and of the paths of all files."""
    words = set()
    for path in TOP.rglob('*'):
        place = path.relative_to(TOP)
        if path.is_file() and not {'.git', 'out', 'release'} & set(place.parts):
            words.update(re.findall(r'\w+', str(place)))
            if path.suffix not in ('.md', '.aig', '.pyc') and not place.match('docs/*.txt'):
                text = path.read_bytes().decode(errors='ignore')
                words.update(re.findall(r"[A-Za-z_][\w'-]*", text))
                words.update(re.findall(r'[A-Za-z_]\w*', text))
    return words

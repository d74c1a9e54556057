"""Sizes and counts that documents claim, beside what the tree has."""
import dataclasses
import re

from tree import TOP, crates, crates_with_a_test, is_of_tests, sources

# The most lines of a function's body.
LONGEST_FUNCTION = 40
WORDS = 'no one two three four five six seven eight nine ten eleven twelve'.split()
NUMBERS = {word: number for number, word in enumerate(WORDS)}


@dataclasses.dataclass(frozen=True)
class Claim:
    """A text of a document, with a number or another value in its group, and what that has to be."""
    document: str
    text: str
    value: object

    def fault(self):
        """What is wrong with it, if anything is."""
        found = re.search(self.text, (TOP / self.document).read_text().replace('\n', ' '))
        if not found:
            return 'this text is gone'
        shown = NUMBERS.get(found[1], found[1].replace(',', ''))
        return '' if str(shown) == str(self.value) else f'{found[1]} in place of {self.value}'


def constant(crate, name):
    """The value of a constant of a crate's source."""
    for path in sources(crate):
        found = re.search(rf'const {name}: \w+ = ([^;]+);', path.read_text())
        if found:
            return eval(found[1].replace('_', ''), {'__builtins__': {}})
    raise LookupError(f'{crate} has no constant {name}')


def lines_of_source(crate):
    """How many lines a crate's sources have, without its tests."""
    return sum(len(path.read_text().splitlines()) for path in sources(crate) if not is_of_tests(path))


def power(number):
    """How a document writes a limit: a power of two, or one less."""
    return f'2^{number.bit_length() - 1}' if number & (number - 1) == 0 else f'2^{number.bit_length()} - 1'


def cases_of(part):
    """How many cases have such a part."""
    return sum(f'\n== {part} ' in path.read_text() for path in (TOP / 'tests' / 'cases').rglob('*.case'))


def megabytes_of_release():
    """The size of the released program in megabytes, to two places."""
    return f'{(TOP / "release" / "fretime-x86_64-linux").stat().st_size / 1e6:.2f}'


def scripts_of_test():
    """The scripts of tests/outside that ./test runs, and those that it runs with --proofs alone."""
    parts = re.findall(r'(?m)^(\+ )?\w+ \| tests/outside/(\w+)', (TOP / 'tests' / 'parts').read_text())
    return {script for _, script in parts}, {script for proofs, script in parts if proofs}


def faults_of_scripts():
    """Scripts that tests/README lists and tests/parts hasn't, or the other way; and those of which one of the two alone says that they are
    run with --proofs alone."""
    text = (TOP / 'tests' / 'README.md').read_text()
    rows = dict(re.findall(r'(?m)^\| `tests/outside/(\w+)[^`]*` \| (.*)', text))
    of_proofs = {name for name, row in rows.items() if '`./test --proofs` alone' in row}
    run, run_with_proofs = scripts_of_test()
    return sorted(set(rows) ^ run) + sorted(of_proofs ^ run_with_proofs)


def kit():
    """The kit and its logic with which the program of release/ was proved and built, by the record beside it."""
    return re.search(r'(?m)^kit (.+)$', (TOP / 'release' / 'record').read_text())[1]


def claims():
    """All claims that are computed."""
    greatest = constant('ascii_file', 'GREATEST_VARIABLE')
    return [
        Claim('CONTRIBUTING.md', r'functions of at most (\d+) lines', LONGEST_FUNCTION),
        Claim('README.md', r'With `([^`]+)`', kit()),
        Claim('docs/PROVED.md', r'With `([^`]+)`', kit()),
        Claim('docs/PROVED.md', r'every beginning of (\w+) files', cases_of('beginnings')),
        Claim('docs/FORMAT.md', r'M past (2\^28 - 1)', power(greatest)),
        Claim('docs/FORMAT.md', r'J, F past (2\^\d+): `TooLarge`', power(constant('ascii_file', 'MAX_PROPERTIES'))),
        Claim('docs/FORMAT.md', r'sum of the sizes past (2\^\d+)', power(constant('aag_text', 'MAX_JUSTICE_LITERALS'))),
        Claim('docs/FORMAT.md', r'sequence number (2\^\d+), from 0', power(constant('lane_sim', 'MAX_SEQUENCES'))),
        Claim('docs/FORMAT.md', r'a number above (2\^\d+ - 1)', power(constant('certificate_files', 'MAX_NUMBER'))),
        Claim('docs/DEFINITIONS.md', r'`MAX_VARIABLES` \((2\^\d+)\)', power(constant('aig_graph', 'MAX_VARIABLES'))),
        Claim('docs/DECISIONS.md', r'links, ([\d.]+) MB', megabytes_of_release()),
    ]


def faults_of_sizes():
    """What is wrong with the size of a crate, those of tests aside, that ARCHITECTURE claims."""
    limit = int(re.search(r'past some ([\d,]+) lines', (TOP / 'docs' / 'ARCHITECTURE.md').read_text())[1].replace(',', ''))
    tests = crates_with_a_test()
    return [f'{crate} has {lines_of_source(crate)} lines' for crate in crates() if crate not in tests and lines_of_source(crate) > limit]

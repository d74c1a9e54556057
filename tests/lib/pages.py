"""The documents as text: the names that they give in backquotes, and the blocks of code that they show."""
import dataclasses
import itertools
import re


@dataclasses.dataclass
class Block:
    """A block of code: its lines, and the paragraph before it."""
    lines: list
    paragraph: str


def in_backquotes(text):
    """What stands in backquotes, but for blocks of code."""
    text = re.sub(r'(?ms)^```.*?^```', '', text)
    return re.findall(r'`([^`\n]+)`', re.sub(r'(?m)^    .*$', '', text))


def words_in_backquotes(text):
    return {word for shown in in_backquotes(text) for word in re.findall(r"[A-Za-z_][\w'-]*", shown)}


def paths_in_backquotes(text):
    """The paths from the top of the repository that stand in backquotes, those of a form like crates/NAME aside."""
    for shown in in_backquotes(text):
        if re.fullmatch(r'(?:docs|bench|tests|tools|crates|examples|install)/[\w./{},*-]+', shown) and not re.search(r'\b(NAME|FILE)\b', shown):
            inner = re.search(r'\{([^}]*)\}', shown)
            for choice in inner[1].split(',') if inner else ['']:
                yield shown.replace(inner[0], choice) if inner else shown


def blocks(path, stands_alone):
    """The blocks of code that are shifted by four columns, in order. Two that only blank lines part are one, but for lines that
    stand alone."""
    found, prose = [], []
    for is_code, group in itertools.groupby(path.read_text().splitlines(), lambda line: line.startswith('    ')):
        lines = list(group)
        if not is_code:
            prose = lines
            continue
        lines = [line[4:] for line in lines]
        if found and not any(prose) and not stands_alone(lines[0]) and not stands_alone(found[-1].lines[-1]):
            found[-1].lines += prose + lines
        else:
            found.append(Block(lines, last_paragraph(prose)))
    return found


def last_paragraph(lines):
    """The last paragraph of these lines, in one line."""
    return '\n'.join(lines).strip('\n').split('\n\n')[-1].replace('\n', ' ')

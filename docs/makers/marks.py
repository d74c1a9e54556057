"""Made parts of files that are written by hand: each stands between a line with 'made by docs/make: NAME' and one with 'end of NAME',
which are comments of the file's language."""
import pathlib
import re

TOP = pathlib.Path(__file__).resolve().parent.parent.parent


class NotMade(Exception):
    """Why a document can't be made."""


def text_of(path):
    """The text of a file, whose path is from the top of the repository."""
    return (TOP / path).read_text(encoding='utf-8')


def with_part(path, text, name, part):
    """The text of a file with the part of this name made anew."""
    pattern = rf'(?ms)(^[^\n]*made by docs/make: {re.escape(name)}(?: -->)?\n).*?(^[^\n]*end of {re.escape(name)}(?: -->)?\n)'
    if not re.search(pattern, text):
        raise NotMade(f"{path}: no lines 'made by docs/make: {name}' and 'end of {name}'")
    return re.sub(pattern, lambda it: it[1] + part.rstrip('\n') + '\n' + it[2], text)


def by_hand(text):
    """What a document has beside its made parts, those of bench/remake too."""
    text = re.sub(r'(?ms)^[^\n]*made by docs/make: ([^\n]*?)(?: -->)?\n.*?^[^\n]*end of \1(?: -->)?\n', '', text)
    return re.sub(r'(?ms)^<!-- (\w+) -->\n.*?^<!-- end of \1 -->\n', '', text)

"""Case files, read: their parts, and the bytes that these spell. tests/README.md has the form."""
import os
import re
import shlex

import generators

PARTS = {
    'run', 'stdin', 'file', 'hex', 'escaped', 'made', 'folder', 'link', 'second', 'beginnings', 'pieces', 'limit', 'seconds',
    'status', 'stdout', 'stderr', 'socket', 'after', 'absent', 'blocks', 'verified',
}


class BadCase(Exception):
    """A case file that isn't one."""


def text(lines):
    return ''.join(f'{line}\n' for line in lines).encode()


def lines_of(printed):
    """The lines of a text in which a slash stands between them."""
    return printed.split(' / ') if printed else []


def escaped(lines):
    """Lines with newlines between them, none at the end; backslash, x and two digits stand for a byte."""
    return '\n'.join(lines).encode('latin-1').decode('unicode_escape').encode('latin-1')


def byte_of(found):
    """The byte whose two hexadecimal digits a match has as its group."""
    return bytes([int(found[1], 16)])


def content(words, lines):
    """The bytes that a part spells: lines, hexadecimal bytes, escaped bytes, or what a generator makes."""
    if words[:1] == ['hex']:
        return bytes.fromhex(' '.join(lines))
    if words[:1] == ['escaped']:
        return escaped(lines)
    if words[:1] == ['made']:
        return generators.make(words[1:])
    return text(lines)


class Case:
    """How the program is run, and what has to be there afterwards."""

    def __init__(self, path):
        self.name = path.split(os.path.join('tests', 'cases') + os.sep)[1][: -len('.case')]
        with open(path, encoding='utf-8') as file:
            lines = file.read().split('\n')
        if lines and lines[-1] == '':
            lines.pop()
        self.title = lines[0] if lines else ''
        self.parts = []
        for line in lines[1:]:
            if line.startswith('== '):
                self.parts.append((line[3:].split(), []))
            elif self.parts:
                self.parts[-1][1].append(line)
            elif line:
                raise BadCase('a line before the first part')
        unknown = {words[0] for words, _ in self.parts} - PARTS
        if unknown:
            raise BadCase(f'unknown parts: {" ".join(sorted(unknown))}')
        if len(self.all('run')) != 1 or not self.runs():
            raise BadCase('a case has one part run')

    def all(self, kind):
        return [(words[1:], lines) for words, lines in self.parts if words[0] == kind]

    def first(self, kind):
        return (self.all(kind) or [([], [])])[0]

    def number(self, kind, default):
        found = self.all(kind)
        return int(found[0][0][0]) if found else default

    def runs(self):
        """The lines of arguments, each of which has to leave the same."""
        return self.all('run')[0][1]

    @staticmethod
    def words(arguments):
        """The words of a line as a shell would take them; in quotes, backslash, x and two digits stand for a byte."""
        return [re.sub(rb'\\x([0-9a-f]{2})', byte_of, os.fsencode(word)) for word in shlex.split(arguments)]

    def files(self):
        """The files that are there before, with their bytes."""
        found = [(words[0], text(lines)) for words, lines in self.all('file')]
        for kind in ('hex', 'escaped'):
            found += [(words[0], content([kind], lines)) for words, lines in self.all(kind)]
        return found + [(words[0], generators.make(words[1:])) for words, _ in self.all('made')]


def cases_below(folder):
    return sorted(os.path.join(at, name) for at, _, names in os.walk(folder) for name in names if name.endswith('.case'))

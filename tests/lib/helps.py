"""What the help of the programs says, as it is read, and how the tests run that compare with it what is installed beside them: each has
a room of its own, and is left out where a tool isn't on the machine (skips.py)."""
import argparse
import os
import pathlib
import re
import subprocess
import sys
import tempfile

from skips import Skipped
from sums import Sum

TOP = pathlib.Path(__file__).resolve().parent.parent.parent
INSTALL = TOP / 'install'


def call(*words, **how):
    return subprocess.run([str(word) for word in words], capture_output=True, text=True, stdin=subprocess.DEVNULL, timeout=600,
                          check=False, **how)


def text_of(name):
    return (INSTALL / name).read_text(encoding='utf-8')


def same(what, got, wanted):
    if got != wanted:
        print(f'{what}: {got}, and not {wanted}')
    return got == wanted


def arguments_in(words):
    """The arguments among the words of a synopsis: those in capitals that no option stands before."""
    plain = [word.strip('<>[]') for word in words]
    return [word for before, word in zip(['', *plain], plain)
            if re.fullmatch('[A-Z]+', word) and word != 'OPTIONS' and not before.startswith('--')]


class Command:
    """What the help of a command says: its arguments, and its options, each with the name of its value and what it does."""

    def __init__(self, program, name):
        said = call(program, name, '-h').stderr
        usage = re.search(r'^Usage: \S+ ' + name + r'(.*)$', said, re.M)[1]
        self.arguments = arguments_in(re.sub(r'\|--\w+ <\w+>(?=>)', '', usage).split())
        found = re.findall(r'^ +(?:-\w, )?--([a-z-]+)(?: <(\w+)>)? +(\S.*?)(?: \[default: \d+\])?$', said, re.M)
        self.options = {option: value for option, value, _ in found if option != 'help'}
        self.abouts = {option: about for option, _, about in found if option != 'help'}
        self.statuses = set(re.findall(r'\b(\d) \w', said.partition('Exit status:')[2]))


class Help:
    """What the help of the program says."""

    def __init__(self, program):
        said = call(program, '-h').stderr
        part = said.partition('Commands:\n')[2].partition('\n\n')[0]
        self.abouts = dict(re.findall(r'^  (\w+) +(\S.*)$', part, re.M))
        self.commands = {name: Command(program, name) for name in self.abouts if name != 'help'}
        self.options = set(re.findall(r'--([a-z-]+)', said.partition('Options:\n')[2].partition('\n\n')[0]))

    def plain(self, old, new):
        """Writes a sign of what commands and options do in another way, as a completion has to."""
        for abouts in (self.abouts, *(command.abouts for command in self.commands.values())):
            abouts.update({name: about.replace(old, new) for name, about in abouts.items()})


def faults_of(program):
    """The names that the help of `explain` lists."""
    listed = call(program, 'explain', '--help').stderr.partition('Faults of circuits')[2].partition('Exit status:')[0]
    return re.findall(r'\b(?:[A-Z][a-z]*){2,}\b|\b(?:Undefined|Cycle|Truncated|Trailing|Width|Device)\b', listed)


# The scripts that are installed beside the program.
SCRIPTS = {'fretime_verilog': 'examples/verilog/fretime_verilog', 'fretime_prove': 'examples/proof/fretime_prove'}


def script_options(name):
    """The options of a script as its help has them, each with the name of its value, and what it does."""
    said = call(sys.executable, TOP / SCRIPTS[name], '--help', env={**os.environ, 'COLUMNS': '200'}).stdout
    found = re.findall(r'^  (--?[A-Za-z-]+)(?: ([^a-z\s]+))? +(\S.*)$', said.partition('options:\n')[2], re.M)
    return {name: (value, about) for name, value, about in found}


def passes(test, program):
    """Whether a test passed."""
    with tempfile.TemporaryDirectory(prefix='fretime-test-') as room:
        try:
            return bool(test(program, pathlib.Path(room)))
        except (OSError, KeyError, TypeError, subprocess.SubprocessError) as error:
            print(repr(error))
            return False


def run_all(tests, what):
    """Runs the tests of a script on the program that its command line names, and returns its exit status."""
    parser = argparse.ArgumentParser(description=what)
    parser.add_argument('program', help='the program, whose help is read')
    parser.add_argument('--only', default='', metavar='TEXT', help='only the tests whose names have this text')
    given = parser.parse_args()
    program = os.path.abspath(given.program)
    total = Sum()
    for test in (test for test in tests if given.only in test.__name__):
        try:
            total.count(test.__name__, '' if passes(test, program) else test.__doc__)
        except Skipped as wanted:
            total.left_out.add(wanted)
    return total.end()

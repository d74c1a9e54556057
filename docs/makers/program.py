"""What the program says of its commands in their help, and by which words it refuses: which options exclude each other, which may be
given more than once, and which one another needs."""
import itertools
import os
import re
import subprocess
import tempfile

import helps
from marks import NotMade


class Option:
    """An option of a command: its name, the name of its value, its line of help, its default, and how it goes with the others."""

    def __init__(self, name, value, about, default):
        self.name, self.value, self.default = name, value, default
        self.about, _, choices = about.partition(' [possible values: ')
        self.choices = re.findall(r'[\w-]+', choices)
        self.is_number = value in ('n', 'N')
        self.repeats = False
        self.needs = None
        self.excludes = set()

    def words(self, number=1):
        """The option as it is given, with a value of its kind."""
        text = str(number) if self.is_number else self.choices[0] if self.choices else f'{self.name}{number}'
        return [f'--{self.name}', *([text] if self.value else [])]

    def shown(self):
        return f'--{self.name} {self.value}' if self.value else f'--{self.name}'


class Command:
    """A command: its line in the list, its arguments, its options, and the paragraphs of its help."""

    def __init__(self, program, name, about):
        self.name, self.about = name, about
        told = helps.Command(program, name)
        arguments = words_of_usage(said(program, name, '-h'), name)
        self.required = [word.strip('<>') for word in arguments if word.startswith('<')]
        self.optional = [word.strip('[]') for word in arguments if word.startswith('[')]
        defaults = dict(re.findall(r'--([a-z-]+) <\w+> .*\[default: (\d+)\]$', said(program, name, '-h'), re.M))
        self.options = [Option(it, value, told.abouts[it], defaults.get(it)) for it, value in told.options.items()]
        help_text = said(program, name, '--help')
        self.arguments = arguments_in(help_text)
        head, _, rest = help_text.partition('\nUsage: ')
        self.before = paragraphs(head)
        tail = re.split(r'(?m)^ *-h, --help +Print help.*\n|^ *-h, --help\n +Print help.*\n', rest, maxsplit=1)[-1]
        self.after = paragraphs(tail)
        self.learn(program)

    def learn(self, program):
        """How the options go together, as the program refuses command lines of files that aren't there."""
        bases = [self.required, self.required + self.optional] if self.optional else [self.required]
        taken = lambda *options: any(is_taken(program, [self.name, *base, *words_of(options)]) for base in bases)
        for option in self.options:
            if not taken(option):
                partners = [it for it in self.options if it is not option and taken(it, option)]
                if not partners:
                    raise NotMade(f'{self.name} --{option.name} is refused by itself and beside each other option')
                option.needs = partners[0]
            beside = [option.needs] if option.needs else []
            option.repeats = taken(*beside, option, option)
        alone = [it for it in self.options if it.needs is None]
        for one, other in itertools.combinations(alone, 2):
            if not taken(one, other):
                one.excludes.add(other.name)
                other.excludes.add(one.name)

    def groups(self):
        """The options in the order of the help: those that exclude each other together, and what needs one after it."""
        found = []
        for option in self.options:
            if option.needs:
                continue
            fitting = [group for group in found if all(it.name in option.excludes for it in group)]
            if fitting and option.excludes:
                fitting[0].append(option)
            else:
                found.append([option])
        return found

    def needing(self, option):
        return [it for it in self.options if it.needs is option]


class Program:
    """All commands, by name, and the line of each in the list of commands."""

    def __init__(self, path):
        path = os.path.abspath(path)
        told = helps.Help(path)
        self.abouts = told.abouts
        self.faults = helps.faults_of(path)
        self.commands = {name: Command(path, name, about) for name, about in told.abouts.items() if name != 'help'}


def said(program, *words):
    return helps.call(program, *words).stderr


def words_of_usage(text, name):
    """The arguments in the usage of a command; one in whose place an option may stand (`<STIM|--random <n>>`) may be left out."""
    usage = re.search(rf'^Usage: \S+ {name}(.*(?:\n {{2,}}\S.*)*)', text, re.M)[1]
    usage = re.sub(r'<(\w+)\|--[a-z-]+ <\w+>>', r'[\1]', usage)
    return [word for word in usage.split() if word != '[OPTIONS]']


def arguments_in(text):
    """The arguments that a help lists, each with what it is, on its own line or on those below."""
    part = re.search(r'(?ms)^Arguments:\n(.*?)(?=^\w|\Z)', text)
    found = re.findall(r'(?m)^  [<\[](\w+)[>\]](.*(?:\n {6,}\S.*)*)', part[1]) if part else []
    return {name: ' '.join(about.split()) for name, about in found}


def paragraphs(text):
    """The paragraphs of a help, each a list of its lines."""
    return [part.split('\n') for part in re.split(r'\n\s*\n', text.strip('\n')) if part.strip()]


def words_of(options):
    return [word for number, option in enumerate(options, 1) for word in option.words(number)]


def is_taken(program, words):
    """Whether a command line isn't refused as one. It is run in a folder without a circuit, so that nothing is done."""
    with tempfile.TemporaryDirectory(prefix='fretime-docs-') as room:
        ran = subprocess.run([program, *words], cwd=room, stdin=subprocess.DEVNULL, capture_output=True, timeout=60, check=False)
    return ran.returncode != 2

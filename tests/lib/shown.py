"""Runs the commands that README.md, docs/TUTORIAL.md and docs/EMBEDDING.md show, and compares what they print with what these and
docs/MANUAL.md say, so that a reader gets what the text promises. Commands of programs that aren't installed are left out, and so are
those after them that rest on their files."""
import dataclasses
import os
import pathlib
import re
import shlex
import shutil
import subprocess
import tempfile

import pages
from copies import copy
from helps import SCRIPTS
from tree import TOP

OWN = ('./fretime', 'fretime')
OTHERS = ('yosys', 'berkeley-abc', 'sed', 'python3', 'fretime_verilog', 'fretime_prove', 'examples/proof/fretime_prove')
# What a command calls beside itself, and the statuses with which it ends well, if these aren't itself and 0.
CALLED = {'fretime_verilog': ['yosys', 'berkeley-abc'], 'fretime_prove': ['berkeley-abc', 'cadical'],
          'examples/proof/fretime_prove': ['berkeley-abc', 'cadical']}
WELL = {'fretime_prove': (10, 20), 'examples/proof/fretime_prove': (10, 20)}
# What may be missing: of each one program is enough.
TOOLS = {'Yosys': ['yosys'], 'ABC': ['berkeley-abc'], 'CaDiCaL or MiniSat': ['cadical', 'minisat']}


@dataclasses.dataclass
class Ran:
    """A command that was run: its exit status, and what it printed on standard output and standard error."""
    status: int
    out: str
    err: str


@dataclasses.dataclass(frozen=True)
class Saying:
    """A text of a document, and the run that it speaks of: its arguments, and its exit status."""
    document: str
    arguments: str
    status: int
    text: str


SAYINGS = [
    Saying('README.md', 'retime examples/two_latches.aag out.aag', 0, 'frame 1: 2 to 1'),
    Saying('README.md', 'retime examples/two_latches.aag out.aag', 0, 'latches 2 to 1'),
    Saying('docs/MANUAL.md', 'retime examples/refused.aag out.aag', 1, 'examples/refused.aag: DefinedTwice at 16'),
    Saying('docs/MANUAL.md', 'retime examples/two_latches.aag out.aag --keep none', 1, 'NoSuchName'),
    Saying('docs/MANUAL.md', 'retime missing.aag out.aag', 3, 'device'),
    Saying('docs/MANUAL.md', 'retime examples/two_latches.aag out.aag --workers 65', 2, '--workers'),
    Saying('README.md', 'stat examples/two_latches.aag', 0, 'latches'),
    Saying('docs/MANUAL.md', 'retime examples/two_latches.aag out.aag --cert two.cert', 0, 'latches 2 to 1'),
    Saying('docs/MANUAL.md', 'verify examples/two_latches.aag two.cert', 0, 'end certified'),
    Saying('docs/MANUAL.md', 'verify examples/two_latches.aag two.cert --keep none', 1, 'NoSuchName'),
    Saying('README.md', 'stat examples/two_latches.aag', 0, 'free'),
    *(Saying('docs/MANUAL.md', f'{command} --help', 0, option) for command, options in
      {'retime': ['--ascii', '--binary', '--workers', '--frames', '--keep', '--cert'], 'convert': ['--ascii', '--binary']}.items()
      for option in options),
    Saying('docs/TUTORIAL.md', 'stat less.aig', 0, 'passable'),
    Saying('docs/TUTORIAL.md', 'stat free.aig', 0, 'free 16'),
    Saying('docs/TUTORIAL.md', 'stat free.aig', 0, 'passable 0'),
    Saying('docs/TUTORIAL.md', 'retime free.aig less.aig', 0, 'latches 16 to 16'),
    Saying('docs/TUTORIAL.md', 'retime zeroed.aig less.aig', 0, 'latches 16 to 1'),
    Saying('docs/TUTORIAL.md', 'retime zinit.aig less.aig', 0, 'latches 17 to 17'),
    Saying('docs/TUTORIAL.md', 'retime synchronous.aig less.aig', 0, 'latches 16 to 1'),
    Saying('docs/TUTORIAL.md', 'retime asynchronous.aig less.aig', 0, 'latches 16 to 16'),
    Saying('docs/TUTORIAL.md', 'retime enable.aig less.aig', 0, 'latches 16 to 16'),
    Saying('docs/TUTORIAL.md', 'enables merged.aig stalled.aig --map stalled_map.aig', 0, 'latches 16 to 1'),
    Saying('docs/TUTORIAL.md', 'check merged.aig stalled.aig stalled_map.aig', 0, 'retiming'),
    Saying('docs/TUTORIAL.md', 'enables asynchronous.aig less.aig', 0, 'latches 16 to 1'),
    Saying('docs/TUTORIAL.md', 'retime --json match.aig less.aig', 0, 'free_kept'),
    Saying('docs/TUTORIAL.md', 'backward middle.aag before.aag --map before_map.aag', 0, 'frame 1: 4 to 2'),
    Saying('docs/TUTORIAL.md', 'backward middle.aag before.aag --map before_map.aag', 0, 'latches 4 to 2'),
    Saying('docs/TUTORIAL.md', 'check before.aag middle.aag before_map.aag', 0, 'retiming'),
    Saying('docs/TUTORIAL.md', 'same match.aig free.aig match.stim', 1, 'shapes differ'),
    Saying('docs/TUTORIAL.md', "retime --keep 'w[0]' named.aig less.aig", 0, 'frame 1: 16 to 5'),
    Saying('docs/TUTORIAL.md', "retime --keep 'w[0]' named.aig less.aig", 0, 'latches 16 to 5'),
]


def is_command(line):
    """Whether a line is a command that is run as it stands: a synopsis has its files in capitals, and to build takes too long."""
    words = line.split('    #')[0].split()
    return words[:1] != [] and words[0] in OWN + OTHERS and '--build' not in words and not any(word.isupper() for word in words)


def is_commands(block):
    return is_command(block.lines[0])


def on_the_path(program, folder):
    """A folder in which the program has its name, for the programs that call it."""
    place = folder / 'programs'
    if not place.exists():
        place.mkdir()
        (place / 'fretime').symlink_to(program)
        for name, path in SCRIPTS.items():
            words = TOP / path, '--program', program
            (place / name).write_text(f'#!/bin/sh\nexec {shlex.join(map(str, words))} "$@"\n')
            (place / name).chmod(0o755)
    return place


def run(program, command, folder):
    """A command in a folder, in which our program has the name that the documents give it."""
    name, _, rest = command.split('    #')[0].partition(' ')
    words = f'{shlex.quote(str(program)) if name in OWN else name} {rest}'
    path = {'PATH': f'{on_the_path(program, folder)}:{os.environ["PATH"]}', 'PYTHONPATH': str(TOP / 'install' / 'python')}
    done = subprocess.run(['sh', '-c', words], cwd=folder, env=os.environ | path, stdin=subprocess.DEVNULL, capture_output=True,
                          text=True, timeout=600)
    return Ran(done.returncode, done.stdout, done.stderr)


def indented(block):
    """A block as it stands in its document."""
    return '\n'.join('    ' + line if line else '' for line in block.lines)


def said_after(path, block, following):
    """The text right after a block, up to the next block that is commands."""
    text = path.read_text()
    start = text.index(indented(block)) + len(indented(block))
    end = text.index(indented(following), start) if following else len(text)
    return text[start:end].strip('\n')


def printed_words(text):
    """What stands in backquotes in a text's first sentence, where that is 'prints ..', up to what it says of the exit status."""
    sentence = re.match(r'prints[ ,][^\n].*?(?:\.\s|[:;]\s|$)', text, re.S)
    return pages.in_backquotes(sentence[0].replace('\n', ' ').split('with exit')[0]) if sentence else []


# What the tutorial says of other forms of its design: how the file is written, from which design, and after which other command.
VARIANTS = {
    'named.aig': ('-symbols', '', ''),
    'free.aig': ('', 'free', ''),
    'zeroed.aig': ('', 'free', 'setundef -init -zero'),
    'zinit.aig': ('-zinit', 'free', ''),
    **{f'{name}.aig': ('', name, '') for name in ('synchronous', 'asynchronous', 'enable')},
}


def write_variants(folder):
    """Writes the circuits that the tutorial speaks of without a command for all of it."""
    script = [line for line in (folder / 'to_aiger.ys').read_text().splitlines() if line and not line.startswith('#')]
    design = (folder / 'match.v').read_text()
    (folder / 'free.v').write_text(re.sub(r" = 8'h\w+;", ';', design))
    for name, (options, source, before) in VARIANTS.items():
        commands = [f'read_verilog {source or "match"}.v', *script[1:-1], before, f'write_aiger {options} {name}']
        subprocess.run(['yosys', '-q', '-p', '; '.join(filter(None, commands))], cwd=folder, check=True)


def left_by_readers():
    """What leaves out of a copy what a reader's own run of the tutorial left in its folder: the names that the repository ignores there."""
    lines = (TOP / '.gitignore').read_text().splitlines() if (TOP / '.gitignore').exists() else []
    return shutil.ignore_patterns(*(line.strip('/').rpartition('/')[2] for line in lines if line.startswith('/examples/match/')))


def folder_of(path):
    """A copy of the files that a document's commands work on."""
    folder = pathlib.Path(tempfile.mkdtemp())
    if path.name == 'TUTORIAL.md':
        copy(TOP / 'examples' / 'match', folder / 'examples' / 'match', ignore=left_by_readers())
        for name in ('proof', 'verilog'):
            copy(TOP / 'examples' / name, folder / 'examples' / name)
        shutil.copy(TOP / 'examples' / 'decoder.aag', folder / 'examples')
        (folder / 'tests').symlink_to(TOP / 'tests')
        folder = folder / 'examples' / 'match'
        if shutil.which('yosys'):
            write_variants(folder)
    else:
        copy(TOP / 'examples', folder / 'examples')
    return folder


def circuits_in(command):
    """The names of circuits that stand in a command."""
    return re.findall(r'(?<![\w./])[\w./]+\.a[ai]g\b', command)


def missing_tools():
    """The tools of which no program is there."""
    return [tool for tool, programs in TOOLS.items() if not any(map(shutil.which, programs))]


def tools_of(command):
    """The tools that a command calls."""
    name = command.split()[0]
    called = CALLED.get(name, ['cadical'] if 'witness_checker' in command else [name])
    return [tool for tool, programs in TOOLS.items() if set(programs) & set(called)]


def files_of(command, made):
    """The files that a command reads and that no command of its block before made."""
    name = command.split()[0]
    written = [*made, *re.findall(r'(?:write_aiger|retime \S+) (\S+?)[;"]', command)]
    if name in OWN:
        return [it for it in circuits_in(command)[:-1 if ' lift ' in command else 1] if it not in written]
    circuits = [it for it in circuits_in(command) if it not in written]
    return circuits if name == 'berkeley-abc' else re.findall(r'(\S+) >', command) if name == 'sed' else []


def wanted_by(command, folder, made=()):
    """The missing tool for want of which a command can't be run: one that it calls, or that would have made a file that it reads."""
    command, missing = command.split('    #')[0], missing_tools()
    called = [tool for tool in tools_of(command) if tool in missing]
    is_there = all((folder / file).exists() for file in files_of(command, made))
    return (called or missing)[:1] if called or not is_there else []


def cases_of_block(path, shown, number, commands):
    """What the document says of the commands of a block: of each saying its title, and what their runs tell is wrong with it."""
    block, later = shown[number], shown[number + 1:]
    following = next((other for other in later if is_commands(other)), None)
    for place, command in enumerate(commands):
        well = WELL.get(command.split()[0], (0,))
        yield f'{path.name}: {command}', lambda ran, at=place, well=well: '' if ran[at].status in well else f'status {ran[at].status}: {ran[at].err}'
    for words in printed_words(said_after(path, block, following)):
        yield f'{path.name}: {commands[-1]} prints {words}', lambda ran, words=words: (
            '' if any(words in ' '.join(done.out.split()) for done in ran) else ran[-1].out)
    for other in later[:later.index(following)] if following else later:
        if re.search(r'\bprints\b', other.paragraph):
            yield f'{path.name}: what {commands[0]} prints', lambda ran, lines=other.lines: (
                '' if '\n'.join(lines) + '\n' in [done.out for done in ran] else repr(ran[0].out))


def faults_of_block(program, path, folder, shown, number):
    """Runs the commands of a block; the faults of what the document says of them."""
    commands = [line for line in shown[number].lines if is_command(line)]
    made = [circuits_in(command)[1:] if command.split()[0] in OWN else [] for command in commands]
    wanted = [tool for k, command in enumerate(commands) for tool in wanted_by(command, folder, sum(made[:k], []))]
    ran = [] if wanted else [run(program, command, folder) for command in commands]
    for what, fault in cases_of_block(path, shown, number, commands):
        yield ('left out', wanted[0]) if wanted else (what, fault(ran))


def faults_of_files(path, folder, shown):
    """Blocks that show a file: each of their lines stands in it, in this order."""
    for block in shown:
        name = next((word for word in pages.in_backquotes(block.paragraph) if (folder / word).is_file()), None)
        if name and not is_commands(block) and not re.search(r'\bprints\b', block.paragraph):
            lines = iter((folder / name).read_text().splitlines())
            gone = [line for line in block.lines if line and line not in lines]
            yield f'{path.name}: {name}', '; '.join(gone)


def faults_of_saying(program, saying, path, folder):
    """Whether the document has the text, and the run prints it."""
    command = 'fretime ' + saying.arguments
    wanted = wanted_by(command, folder) if saying.text != 'device' else []
    if wanted:
        yield 'left out', wanted[0]
        return
    ran = run(program, command, folder)
    stands = all(saying.text in ' '.join(text.split()) for text in (path.read_text(), ran.out + ran.err))
    wrong = '' if stands and ran.status == saying.status else f'status {ran.status}: {ran.out}{ran.err}'
    yield f'{path.name}: {command}: {saying.text}', wrong


def faults_of_commands(program):
    """Each command and printed text of these documents, with what is wrong; or 'left out' with a tool that is missing. A block of code is
    commands where its first word is a program; what is printed where the paragraph before it says 'prints'; and else the contents
    of the file that the paragraph before it names."""
    for path in (TOP / 'README.md', TOP / 'docs' / 'MANUAL.md', TOP / 'docs' / 'TUTORIAL.md', TOP / 'docs' / 'EMBEDDING.md'):
        folder = folder_of(path)
        shown = [] if path.name == 'MANUAL.md' else pages.blocks(path, is_command)
        yield from faults_of_files(path, folder, shown)
        for number, block in enumerate(shown):
            if is_commands(block):
                yield from faults_of_block(program, path, folder, shown, number)
        for saying in SAYINGS:
            if TOP / saying.document == path:
                yield from faults_of_saying(program, saying, path, folder)
        shutil.rmtree(folder.parents[1] if path.name == 'TUTORIAL.md' else folder)


def program_of(path):
    """The program that a path names, from wherever the commands are run."""
    return pathlib.Path(os.path.abspath(path))

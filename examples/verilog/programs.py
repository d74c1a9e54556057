"""The programs that a run starts, in a folder of its own: Yosys, fretime and ABC; how a run ends that has no result, and what it says on
standard error."""
import contextlib
import os
import pathlib
import re
import shutil
import signal
import subprocess
import sys

from netlists import Refused

REFUSED, USAGE, MISSING, MEMORY, DIFFERENT, UNDECIDED = 1, 2, 3, 4, 5, 6
SIGNALS = signal.SIGINT, signal.SIGTERM, signal.SIGHUP
YOSYS, ABC = ('yosys',), ('berkeley-abc', 'yosys-abc', 'abc')
# What Yosys warns of and need not be told: that a memory becomes registers, and a loop, which it refuses later if gates make one.
NEEDLESS = 'Warning: Replacing memory ', 'Warning: found logic loop '


class Failed(Exception):
    """A run that ends without a result: its status, and why."""

    def __init__(self, status, why):
        super().__init__(why)
        self.status = status


class Stopped(BaseException):
    """A signal that ends the run."""

    def __init__(self, number):
        super().__init__(number)
        self.number = number


class Held:
    """Whether a signal that ends the run waits, and the one that does: while a program starts, for nothing would end that program."""
    waits, number = False, None


def stop_by_signals():
    """Has a signal that ends a process raise Stopped, so that programs are ended and folders taken away. One that is ignored stays so."""
    def stop(number, _):
        for other in SIGNALS:
            signal.signal(other, signal.SIG_IGN)
        Held.number = number
        if not Held.waits:
            raise Stopped(number)

    for number in SIGNALS:
        if signal.getsignal(number) != signal.SIG_IGN:
            signal.signal(number, stop)


def end_by(number):
    """Ends this process by a signal, as who sent it expects; else gives the status that a shell has for it."""
    signal.signal(number, signal.SIG_DFL)
    os.kill(os.getpid(), number)
    return 128 + number


def tool(names):
    """The first of these programs that there is."""
    found = next((shutil.which(name) for name in names if shutil.which(name)), None)
    if not found:
        raise Failed(MISSING, f'there is no {names[0]} here')
    return found


@contextlib.contextmanager
def signals_wait():
    """Within this block no signal raises Stopped; one that came does so at its end."""
    Held.waits = True
    try:
        yield
    finally:
        Held.waits = False
        if Held.number is not None:
            raise Stopped(Held.number)


def started(words, folder, timeout=None, **more):
    """A program that was run to its end in a folder. (If a signal ends this run, it ends the program first.)"""
    process = None
    try:
        with signals_wait():
            process = subprocess.Popen([str(word) for word in words], cwd=folder, stdin=subprocess.DEVNULL, stdout=subprocess.PIPE,
                                       stderr=subprocess.PIPE, text=True, **more)
        told = process.communicate(timeout=timeout)
    finally:
        if process:
            process.kill()
            process.wait()
    return subprocess.CompletedProcess(words, process.returncode, *told)


def show(step=''):
    """Shows on a terminal which step is under way, in a line that is gone once something else is said."""
    if sys.stderr.isatty() and os.environ.get('TERM', 'dumb') != 'dumb':
        print(f'\r\033[K{step}', end='', file=sys.stderr, flush=True)


def warn(line):
    """A warning, of Yosys' or of ours, which changes nothing else."""
    show()
    print(f'fretime_verilog: {line}', file=sys.stderr)


def refusal(told, log, top):
    """The refusal that an error of Yosys is."""
    if 'found logic loop' in log:
        net = re.search(r'(?m)^ +wire \\(.*)', log[log.rindex('found logic loop'):])
        return Refused('Loop', f'{net[1].rstrip()}: gates read one another in turn' if net else 'gates read one another in turn')
    if re.search(rf"Module `\\*{re.escape(top)}' not found", told):
        return Refused('NoSuchTop', f'{top}: no file has this module')
    parameter = re.search(r"find object for defparam `\\?(.*)'!|find object for defparam `\\?(.*)`!", told)
    if parameter:
        return Refused('NoSuchParameter', f'{parameter[1] or parameter[2]}: the top module has no parameter of this name')
    return Refused('Yosys', told)


class Yosys:
    """Yosys, and the design that it works on: its folder, its top module, and the folders to include, each by a link that has no
    blank, which a word of Yosys' can't have."""

    def __init__(self, folder, top, include):
        self.program, self.folder, self.top = tool(YOSYS), folder, top
        self.included = {f'include_{number}': str(pathlib.Path(path).absolute()) for number, path in enumerate(include)}
        for link, path in self.included.items():
            (folder / link).symlink_to(path)

    def by_paths(self, told):
        """A line of Yosys', with the folders to include as they were given."""
        return re.sub(r'\b(include_\d+)/', lambda link: self.included.get(link[1], link[1]) + '/', told)

    def run(self, script):
        """Runs commands in the folder, and returns warnings; the first error is a refusal."""
        path = self.folder / 'script.ys'
        path.write_text(script)
        done = started([self.program, '-q', '-E', 'files', '-s', path.name], self.folder)
        if done.returncode != 0:
            lines = [line for line in (done.stderr + done.stdout).splitlines() if 'ERROR' in line]
            raise refusal(self.by_paths(lines[0]) if lines else f'ended with {done.returncode}', done.stderr, self.top)
        warnings = [self.by_paths(line) for line in done.stderr.splitlines() if 'Warning: ' in line]
        return [line for line in dict.fromkeys(warnings) if not any(text in line for text in NEEDLESS)]

    def files_read(self):
        """The paths of what the last run read, as Yosys lists them: included files, and those of $readmemh, too."""
        path = self.folder / 'files'
        listed = path.read_text().rstrip('\n').partition(':')[2].strip() if path.exists() else ''
        return [self.folder / it.replace('\\ ', ' ') for it in re.split(r'(?<!\\) ', listed) if it]


def versions(program):
    """The versions of fretime, Yosys and ABC, as they say them, a line each."""
    found = []
    for names, words in ((program,), ['--version']), (YOSYS, ['-V']), (ABC, ['-c', 'version']):
        try:
            done = started([tool(names), *words], None)
        except (Failed, OSError) as failure:
            found.append(str(failure))
            continue
        lines = [line for line in (done.stdout + done.stderr).splitlines() if line.strip() and 'command line' not in line]
        found.append(lines[-1] if lines else f'{names[0]} says nothing of its version')
    return found

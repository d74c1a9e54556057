"""Runs a program, and says how long it took and how much memory it had at its peak."""
import datetime
import os
import platform
import re
import shutil
import signal
import subprocess
import sys
import tempfile
import threading
import time

TOP = os.path.dirname(os.path.dirname(os.path.abspath(__file__)))
ABC = next((it for it in ('berkeley-abc', 'abc') if shutil.which(it)), None)
TIME = shutil.which('time')


class Run:
    """One run: its status, what it printed, its seconds, those of processors (user and system), its peak in megabytes, its page
    faults, and whether it was stopped. Processor time, peak and faults are what GNU `time` says; without it there are none, since a
    process that Python starts counts Python's own memory too."""

    def __init__(self, words, most_seconds):
        with tempfile.NamedTemporaryFile() as peak:
            timed = [TIME, '-q', '-o', peak.name, '-f', '%M %U %S %R', *words] if TIME else words
            start = time.perf_counter()
            child = subprocess.Popen(timed, stdout=subprocess.PIPE, stderr=subprocess.STDOUT, stdin=subprocess.DEVNULL,
                                     start_new_session=True)
            timer = threading.Timer(most_seconds, lambda: os.killpg(child.pid, signal.SIGKILL))
            timer.start()
            self.printed = child.stdout.read().decode(errors='replace')
            self.status = child.wait()
            self.seconds = time.perf_counter() - start
            self.stopped = not timer.is_alive()
            timer.cancel()
            said = peak.read().split()
            self.megabytes = int(said[0]) / 1024 if said else None
            self.processor = round(float(said[1]) + float(said[2]), 2) if said else None
            self.faults = int(said[3]) if said else None


def best(words, runs, most_seconds):
    """The quickest of several runs; one that is slow, fails or is stopped isn't repeated."""
    found = Run(words, most_seconds)
    for _ in range(runs - 1):
        if found.status != 0 or found.seconds > 10:
            break
        found = min(found, Run(words, most_seconds), key=lambda it: it.seconds)
    return found


def instructions(words, most_seconds):
    """The instructions of a run, by callgrind, or None. It takes some fifty times as long as the run itself."""
    counted = Run(['valgrind', '--tool=callgrind', '--callgrind-out-file=/dev/null', *words], 50 * most_seconds).printed
    found = re.findall(r'Collected : (\d+)', counted)
    return int(found[-1]) if found else None


def ending(status):
    """How a failed run ended. GNU `time` ends with 128 and the signal's number more where a signal ended what it ran."""
    number = -status if status < 0 else status - 128
    return f'ended by signal {number}' if 0 < number < 65 else f'ends with {status}'


def cells(run, most_seconds):
    """Seconds and megabytes, or why there are none."""
    if run is None:
        return ['', '']
    if run.stopped:
        return [f'over {most_seconds}', '']
    if run.status != 0:
        return [ending(run.status), '']
    return [f'{run.seconds:.2f}', '' if run.megabytes is None else f'{run.megabytes:.0f}']


def content(path):
    with open(path, 'rb') as file:
        return file.read()


def kind():
    """The machine's kind and its cores."""
    name = platform.processor() or platform.machine()
    with open('/proc/cpuinfo', encoding='utf-8') as file:
        name = next((line.split(':')[1].strip() for line in file if line.startswith('model name')), name)
    return f'{name}, {os.cpu_count()} cores'


def machine():
    """The machine's kind, its cores, and today."""
    return f'{kind()}, {datetime.date.today()}'


def program_of(path):
    """The program of this path; where none is given, the one that ./fretime runs. Ends the script where that can't be run."""
    if path is None:
        said = subprocess.run([os.path.join(TOP, 'release', 'make'), '--program'], capture_output=True, text=True, check=False)
        if said.returncode:
            sys.exit(said.stderr.strip())
        path = said.stdout.strip()
    if not os.access(path, os.X_OK):
        sys.exit(f'{path} is no program that can be run')
    return os.path.abspath(path)


def value(words, name, default):
    """The value of an option that is spelt NAME=VALUE."""
    return next((word.split('=', 1)[1] for word in words if word.startswith(f'{name}=')), default)


def make(family, path):
    """A file of a family, given as its words."""
    with open(path, 'wb') as file:
        subprocess.run([os.path.join(TOP, 'bench', 'families.py'), *family.split()], stdout=file, check=True)
    with open(path, 'rb') as file:
        return file.readline().decode().split()


def compiled(name, folder):
    """A program in plain Rust, the sources of which are a folder of bench/."""
    program, source = os.path.join(folder, name), os.path.join(TOP, 'bench', name, 'main.rs')
    subprocess.run(['rustc', '-O', '--edition', '2021', '-o', program, source], check=True)
    return program


def row(fields):
    print('| ' + ' | '.join(map(str, fields)) + ' |', flush=True)


class Table:
    """A table that is printed as its rows come, and kept."""

    def __init__(self, names):
        self.names, self.rows = names, []
        head(names)

    def row(self, fields):
        self.rows.append(list(map(str, fields)))
        row(fields)


def head(names):
    row(names)
    row(['---'] * len(names))

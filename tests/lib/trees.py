"""Trees of their own for the tests of ./fretime, ./test and release/make: these scripts, few and small crates, a stand-in for the
release that prints its words, and a stand-in for rt where one is wanted. So each way that the scripts can go is tried without a
proof, and none of this tree's files changes."""
import argparse
import concurrent.futures
import hashlib
import os
import pathlib
import subprocess
import tempfile
import time

from copies import copy
from skips import Skipped
from sums import Sum

TOP = pathlib.Path(__file__).resolve().parent.parent.parent
NOBODY = 65534
CRATES = """# NAME: what it stands on
## The program
low:   # stands on nothing
fretime tests_may=Threads: middle low kit
middle: low
## Others
aside: low
"""
# What rt does: it counts its calls, takes its time, and makes the program, unless it is to fail.
RT = """#!/bin/sh
make() {
    [ -z "${RT_FAILS-}" ] || { echo "no proof"; exit 1; }
    mkdir -p "$1"
    cp "$BUILT" "$1/fretime"
}
case "$1" in
    version) echo "stand-in kit" ;;
    all) echo check >> ../calls; sleep "${RT_SECONDS-0}"; echo "== low"; sleep "${RT_SECONDS-0}"; echo "== summary" ;;
    run) make out ;;
    ci) make crates/fretime/out; echo "4 passed, 0 failed" ;;
esac
"""
RELEASE = """#!/bin/sh
[ "$*" != --version ] || exit 0
printf 'release'
printf ' <%s>' "$@"
echo
exit 5
"""
BUILT = """#!/bin/sh
[ "$*" != --version ] || { echo 'fretime VERSION' >&2; exit 0; }
echo built "$@"
exit 5
"""


def built(version, more=''):
    """A stand-in for a program of this version, with more bytes at its end."""
    return BUILT.replace('VERSION', version) + more


def path_without_rt(room):
    """The folders where commands are, each with an rt replaced by one of links to all but it."""
    folders = []
    for at, folder in enumerate(os.environ.get('PATH', '/usr/bin:/bin').split(':')):
        if os.path.exists(os.path.join(folder, 'rt')):
            links = room / f'commands{at}'
            links.mkdir()
            for name in os.listdir(folder):
                if name != 'rt':
                    (links / name).symlink_to(os.path.join(folder, name))
            folder = str(links)
        folders.append(folder)
    return ':'.join(folders)


class Tree:
    """A tree of its own, in a folder of its own."""

    def __init__(self, room):
        room.chmod(0o755)
        self.room, self.top = room, room / 'tree'
        self.path = path_without_rt(room)
        (self.top / 'release').mkdir(parents=True)
        copy(TOP / 'fretime', self.top)
        for name in ('make', 'parts.sh'):
            copy(TOP / 'release' / name, self.top / 'release')
        self.write('HANDLES', 'Handles allowed: Threads.\n')
        self.write('crates.txt', CRATES)
        for name in ('low', 'middle', 'aside', 'fretime'):
            self.write(f'crates/{name}/src/lib.rt', f'// {name}\n')
            self.write(f'crates/{name}/proofs/deep/Answers.antt', f'-- {name}\n')
        self.write('crates/low/specs/Words.antt', '-- words\n')
        self.write('release/fretime-x86_64-linux', RELEASE, 0o755)
        self.write('../built', built('9.0.0-dev'), 0o755)
        self.record()

    def write(self, name, text, mode=0o644):
        path = self.top / name
        path.parent.mkdir(parents=True, exist_ok=True)
        path.write_text(text, encoding='utf-8')
        path.chmod(mode)
        return path

    def record(self):
        """Writes the record of what stands in release/, as it is now."""
        program = hashlib.sha256((self.top / 'release/fretime-x86_64-linux').read_bytes()).hexdigest()
        sources = self.ask('release/make', '--sources').stdout.strip()
        self.write('release/record', f'sources {sources}\nprogram {program}\nkit stand-in kit\n')

    def command(self, name, text):
        """A command that is found before all others."""
        folder = self.room / 'first'
        folder.mkdir(exist_ok=True)
        (folder / name).write_text(text, encoding='utf-8')
        (folder / name).chmod(0o755)
        if not self.path.startswith(f'{folder}:'):
            self.path = f'{folder}:{self.path}'

    def with_rt(self):
        self.command('rt', RT)

    def calls(self):
        calls = self.room / 'calls'
        return len(calls.read_text(encoding='utf-8').split()) if calls.exists() else 0

    def start(self, *words, cwd=None, user=None, **env):
        given = {**os.environ, 'PATH': self.path, 'BUILT': str(self.room / 'built'), **env}
        how = {'user': user, 'group': user, 'extra_groups': []} if user else {}
        return subprocess.Popen([str(self.top / words[0]) if '/' not in words[0][:1] else words[0], *words[1:]],
                                cwd=cwd or self.top, env=given, text=True, stdin=subprocess.DEVNULL,
                                stdout=subprocess.PIPE, stderr=subprocess.PIPE, **how)

    def ask(self, *words, **how):
        """Runs a script of the tree, and returns what it left."""
        return finished(self.start(*words, **how))

    def change(self, name, keeps_time=False):
        """Changes one byte of a file, and at will gives it back its times."""
        path = self.top / name
        times, data = os.stat(path), bytearray(path.read_bytes())
        data[len(data) // 2] ^= 1
        path.write_bytes(data)
        if keeps_time:
            os.utime(path, ns=(times.st_atime_ns, times.st_mtime_ns))

    def build(self, version='9.0.0-dev', more=''):
        """A program as rt leaves it, newer than all sources."""
        self.write('crates/fretime/out/fretime', built(version, more), 0o755)
        later = time.time() + 2
        os.utime(self.top / 'crates/fretime/out/fretime', (later, later))


def finished(started):
    out, err = started.communicate(timeout=600)
    return subprocess.CompletedProcess(started.args, started.returncode, out, err)


def runs(ran, text):
    """The program was run, its status is passed on, and nothing else was said."""
    return ran.returncode == 5 and ran.stdout == text and ran.stderr == ''


def runs_release(ran):
    return runs(ran, 'release <a>\n')


def refuses(ran, *texts):
    """One line says why, on standard error, and the status is 70."""
    return (ran.returncode == 70 and ran.stdout == '' and ran.stderr.count('\n') == 1 and ran.stderr.startswith('fretime: ')
            and all(text in ran.stderr for text in texts))


def others(tree):
    """Nothing runs, since the release is of other sources."""
    return refuses(tree.ask('fretime', 'a'), 'the release is of other sources', './fretime --build proves and builds one')


def passes(test):
    """Whether a test passed, or what it is left out for want of."""
    with tempfile.TemporaryDirectory(prefix='fretime-launcher-') as room:
        try:
            return bool(test(Tree(pathlib.Path(room))))
        except Skipped as wanted:
            return wanted
        except (OSError, subprocess.SubprocessError) as error:
            print(error)
            return False


def run_all(tests, words):
    """Runs the tests, several at once, each in a tree of its own, and returns the exit status."""
    parser = argparse.ArgumentParser()
    parser.add_argument('--only', default='', metavar='TEXT', help='only the tests whose names have this text')
    only = parser.parse_args(words).only
    tests = [test for test in tests if only in test.__name__]
    with concurrent.futures.ThreadPoolExecutor(len(os.sched_getaffinity(0))) as pool:
        found = list(pool.map(passes, tests))
    total = Sum()
    for test, well in zip(tests, found):
        if isinstance(well, Skipped):
            total.left_out.add(well)
        else:
            total.count(test.__name__, '' if well else test.__doc__)
    return total.end()

"""Programs that a run starts, each with the processes of its own group, which end with it; the
time that is left; and SAT solvers."""
import os
import resource
import signal
import subprocess
import time

from programs import MISSING, Failed, signals_wait

# How much a started program may write to one file: rubbish without an end fills no disk.
MOST_BYTES = 2 ** 32


class OutOfTime(Exception):
    """The time that was given is over."""


class Clock:
    """The time up to which a run, or a part of it, has to end."""

    def __init__(self, seconds):
        self.end = time.monotonic() + seconds

    def left(self):
        """The seconds that are left; OutOfTime where none are."""
        left = self.end - time.monotonic()
        if left <= 0:
            raise OutOfTime
        return left

    def part(self, share):
        """The clock of a part that gets a share of what is left."""
        return Clock(self.left() * share)


def limit_files():
    """Bounds the files of a program that is about to start, unless a lower bound is there."""
    _, most = resource.getrlimit(resource.RLIMIT_FSIZE)
    bound = MOST_BYTES if most == resource.RLIM_INFINITY else min(most, MOST_BYTES)
    resource.setrlimit(resource.RLIMIT_FSIZE, (bound, most))


def end_group(process):
    """Ends a program and all that it started."""
    try:
        os.killpg(process.pid, signal.SIGKILL)
    except ProcessLookupError:
        pass
    process.wait()


def started(words, folder, clock, stdin=subprocess.DEVNULL, **more):
    """A program that ran to its end in a folder, with what it printed. If time runs out, or a
    signal ends this run, its group is ended first."""
    out, err = (open(folder / name, 'w+b') for name in ('said.out', 'said.err'))
    with out, err:
        process = None
        try:
            with signals_wait():
                process = subprocess.Popen([str(word) for word in words], cwd=folder, stdin=stdin,
                                           stdout=out, stderr=err, start_new_session=True,
                                           preexec_fn=limit_files, **more)
            process.wait(clock.left())
        except OSError as error:
            raise Failed(MISSING, f'{words[0]}: {error.strerror}') from error
        except subprocess.TimeoutExpired as late:
            raise OutOfTime from late
        finally:
            if process:
                end_group(process)
        texts = []
        for file in (out, err):
            file.seek(0)
            texts.append(file.read().decode('utf-8', 'replace'))
    return subprocess.CompletedProcess(words, process.returncode, *texts)

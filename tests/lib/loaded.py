"""Runs a script in a process of its own, but without an interpreter of its own, which takes a tenth of a second to begin: its module
is loaded once, and each run is a fork."""
import os
import signal
import sys
import tempfile
import traceback

# the seconds after which a run is taken to hang, and is ended by a signal
LONGEST = 600


def ran(main, words, folder='.', before=lambda: None):
    """The status, standard output and standard error of a script's `main` on these words, in this folder; `before` is called there
    first."""
    sys.stdout.flush()
    sys.stderr.flush()
    with tempfile.TemporaryFile() as out, tempfile.TemporaryFile() as err:
        child = os.fork()
        if not child:
            os._exit(status_of(main, words, folder, before, (out, err)))
        _, ended = os.waitpid(child, 0)
        return os.waitstatus_to_exitcode(ended), *map(content, (out, err))


def status_of(main, words, folder, before, streams):
    """The status of the run, in the process that is its own."""
    try:
        os.chdir(folder)
        signal.alarm(LONGEST)
        before()
        for number, stream in enumerate(streams, 1):
            os.dup2(stream.fileno(), number)
        return main(words)
    except SystemExit as ended:
        return ended.code
    except BaseException:
        traceback.print_exc()
        return 1
    finally:
        sys.stdout.flush()
        sys.stderr.flush()


def content(stream):
    stream.seek(0)
    return stream.read()

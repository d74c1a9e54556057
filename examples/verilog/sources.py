"""The files that a design is read from, none of which may be the one that is written."""
import os
import stat

from programs import USAGE, Failed


def refuse_to_replace(output, what, paths):
    """Refuses a run whose OUT, or standard output for -, is one of the files at these paths, by whatever path or link."""
    try:
        target = os.fstat(1) if output == '-' else os.stat(output)
    except OSError:
        return
    for path in paths:
        if stat.S_ISREG(target.st_mode) and is_at(target, path):
            raise Failed(USAGE, f'OUT \'{output}\' and {what} \'{path}\' are one file: it would be written over what is read')


def is_at(file, path):
    """Whether a path leads to this file."""
    try:
        return os.path.samestat(file, os.stat(path))
    except OSError:
        return False

"""Which files of a command line are one file, by whatever paths, so that something would be lost: the rule of docs/MANUAL.md."""
import os
import stat

# (what each path of a command is there for: it is read; it is read, and what is written may take its place; it is a circuit that is
# made of that one; it is written)
READ, ORIGINAL, REMADE, WRITTEN = 'read', 'original', 'remade', 'written'
# (lines that are printed, and a line that is printed in place of what is written)
LINES, INSTEAD = 'lines', 'instead'
PATHS = {
    'retime': (('IN', ORIGINAL), ('OUT', REMADE)),
    'batch': (('LIST', READ),),
    'stat': (('IN', READ),),
    'convert': (('IN', ORIGINAL), ('OUT', REMADE)),
    'sim': (('IN', READ), ('STIM', READ)),
    'same': (('A', READ), ('B', READ), ('STIM', READ)),
    'verify': (('IN', READ), ('CERT', READ)),
    'check': (('IN', READ), ('OUT', READ), ('MAP', READ)),
    'miter': (('IN', READ), ('OUT', READ), ('MAP', ORIGINAL), ('MITER', REMADE)),
    'product': (('IN', READ), ('OUT', READ), ('MAP', ORIGINAL), ('MODEL', REMADE), ('CERT', WRITTEN)),
    'lift': (('IN', READ), ('OUT', READ), ('MAP', READ), ('CERT', ORIGINAL), ('RESULT', REMADE)),
    'dot': (('IN', READ), ('OUT', WRITTEN)),
    'witness': (('IN', READ), ('OUT', READ), ('WITNESS', READ)),
}
BESIDE = ('--map', '--cert', '--vcd', '--certificate')
READ_BESIDE = ('--kept', '--out', '--classes', '--keep-from')
PRINTING = {'batch', 'stat', 'sim', 'same', 'verify', 'check', 'witness'}
IS_WRITTEN = {REMADE, WRITTEN, LINES, INSTEAD}
# two that are written and may stand in one file
TOGETHER = {(LINES, LINES), (REMADE, REMADE), (REMADE, INSTEAD), (WRITTEN, INSTEAD)}
ASIDE = '/dev/stderr'
# /dev/null, /dev/zero, /dev/full
VOID = {os.makedev(1, 3), os.makedev(1, 5), os.makedev(1, 7)}


def kind_of(found):
    """What a file keeps of what is written to it; None where nothing can be lost."""
    if stat.S_ISCHR(found.st_mode):
        return None if found.st_rdev in VOID else 'device'
    return 'pipe' if stat.S_ISFIFO(found.st_mode) or stat.S_ISSOCK(found.st_mode) else 'bytes'


def identity(path):
    """What a file keeps, and which one it is: its number, or that of the folder in which it would be made, and its name there."""
    try:
        found = os.stat(path)
        kind = kind_of(found)
        return kind and (kind, found.st_dev, found.st_ino, '')
    except FileNotFoundError:
        folder, name = os.path.split(os.path.realpath(path))
    except (OSError, ValueError):
        return None
    try:
        found = os.stat(folder)
    except OSError:
        return None
    return ('bytes', found.st_dev, found.st_ino, name) if path else None


def printed_by(command, options, written):
    """What a command prints, where, and as what."""
    if command in PRINTING:
        return [('what is printed', LINES, '-')]
    if command in ('miter', 'product', 'lift'):
        return [('what is printed', INSTEAD, '-')]
    if command != 'retime':
        return []
    lines = [('what is printed', LINES, ASIDE if '-' in [path for _, _, path in written] else '-')]
    return lines + [('--progress', LINES, ASIDE)] * ('--progress' in options)


def asked(use):
    """A use of a file, and which file it is."""
    streams = {True: '/dev/stdout', False: '/dev/stdin'}
    return *use, identity(streams[use[1] in IS_WRITTEN] if use[2] == '-' else use[2])


def uses(command, paths, options):
    """The files that are written, and those that are read: the argument, what it is for, the path, and which file it is."""
    found = [(name, role, path) for (name, role), path in zip(PATHS[command], paths)]
    found += [(name, WRITTEN, path) for name in BESIDE for path in options.get(name, [])]
    written = [use for use in found if use[1] in IS_WRITTEN]
    printed = printed_by(command, options, written)
    written = printed + written if command == 'sim' else written + printed
    read = [use for use in found if use[1] not in IS_WRITTEN]
    read += [(name, READ, path) for name in READ_BESIDE for path in options.get(name, [])]
    return list(map(asked, written)), list(map(asked, read))


def is_lost(first, second):
    """Whether something is lost by two uses of one file, of which the first is written."""
    kind, both = first[3][0], second[1] in IS_WRITTEN
    together = (first[1], second[1]) in TOGETHER
    if kind == 'bytes':
        takes_its_place = (first[1], second[1]) == (REMADE, ORIGINAL) and first[2] not in ('-', ASIDE)
        return not takes_its_place and not together
    if not both or together or ASIDE in (first[2], second[2]):
        return False
    return kind == 'pipe' or '-' in (first[2], second[2])


def first_clash(written, read):
    """What is said of the first two files that are one, and lose something; None where there are none."""
    for k, first in enumerate(written):
        for second in written[k + 1:] + read:
            if first[3] and first[3] == second[3] and is_lost(first, second):
                said = f"{first[0]} '{first[2]}' and {second[0]} '{second[2]}' are one file: "
                both = second[1] in IS_WRITTEN
                return said + ('each thing that is written has a file of its own' if both else 'it would be written over what is read')
    return None


def clash(command, paths, options):
    """The same of a command line."""
    return first_clash(*uses(command, paths, options)) if command in PATHS else None


def clash_of_list(path, entries):
    """The same of the files of a list, line by line."""
    printed, listed = asked(('what is printed', LINES, '-')), asked(('LIST', READ, path))
    for input_path, output_path in entries:
        # (in a line '-' is a file of that name)
        output, read = (f'./{it}' if it == '-' else it for it in (output_path, input_path))
        found = first_clash([printed, ('OUT', REMADE, output, identity(output))], [listed, ('IN', ORIGINAL, read, identity(read))])
        if found:
            return found
    return None

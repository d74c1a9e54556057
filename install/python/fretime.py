"""Retimes AIGER circuits by the program `fretime`, which was proved to meet its contracts.

    import fretime
    answer = fretime.retime(circuit)       # bytes of an .aig or .aag file
    answer.circuit, answer.frames, answer.report
    fretime.enables(answer.circuit).circuit             # registers with an enable or a reset moved, too
    fretime.backward(answer.circuit).circuit            # latches moved back over gates
    fretime.run(['stat', '-'], circuit).output          # any other command

The program is the one beside this module, as a wheel has it, else the one on the path; `FRETIME` in the environment names another.
Each call runs it once, on pipes and files of its own, so calls may be made from several threads.
"""
from __future__ import annotations

import dataclasses
import functools
import json
import os
import pathlib
import shutil
import subprocess
import sys
import tempfile
from collections.abc import Iterable
from typing import Any

__all__ = ['Frame', 'FrameBack', 'MovedBack', 'MovedTogether', 'Ran', 'RetimeError', 'Retimed', 'backward', 'enables', 'program', 'retime', 'run']
__version__: str
BESIDE = pathlib.Path(__file__).resolve().parent / 'fretime_program'


class RetimeError(Exception):
    """A circuit or a name was refused, or the run failed: `name` as `docs/FORMAT.md` has it ('DefinedTwice', 'NoSuchName',
    'NoMemory', 'Device', 'Usage'), `offset` in bytes from the start of the circuit or None, `latch` the name that is that of no
    latch or None, the exit status, and `text`, what the program says of a wrong option."""

    def __init__(self, name: str, offset: int | None = None, latch: str | None = None, status: int | None = None, text: str = '') -> None:
        said = f'{name}: {text}' if text else name
        super().__init__(said if offset is None else f'{said} at {offset}', *([latch] if latch else []))
        self.name, self.offset, self.latch, self.status, self.text = name, offset, latch, status, text


@dataclasses.dataclass(frozen=True)
class Frame:
    """A move of latches forward: the known latches before and right after it, and the gates that they moved over."""
    before: int
    after: int
    gates: int


@dataclasses.dataclass(frozen=True)
class Retimed:
    """The circuit that was written, its frames, the text of the certificates where they were asked for, the report of
    `retime --json` as a dictionary (`docs/reports.schema.json`), and the map of states where it was asked for
    (`docs/STATE_MAPS.md`)."""
    circuit: bytes
    frames: tuple[Frame, ...]
    certificates: bytes | None
    report: dict[str, Any]
    map: bytes | None = None


@dataclasses.dataclass(frozen=True)
class FrameBack:
    """A move of latches backward: the latches that may move before and after it, the gates that they moved over, and the variables that
    have two latches then."""
    before: int
    after: int
    gates: int
    doubled: int


@dataclasses.dataclass(frozen=True)
class MovedBack:
    """The circuit that was written, its frames, the report of `backward --json` as a dictionary (`docs/reports.schema.json`), and the
    map of its states to those of the circuit that was given, where it was asked for (`docs/STATE_MAPS.md`)."""
    circuit: bytes
    frames: tuple[FrameBack, ...]
    report: dict[str, Any]
    map: bytes | None = None


@dataclasses.dataclass(frozen=True)
class MovedTogether:
    """The circuit that was written, how many frames were taken, whether the check showed the whole draft (else a part of it was taken, or
    none), the report of `enables --json` as a dictionary (`docs/reports.schema.json`), and the map of the states of the circuit that was
    given to those of what was written, where it was asked for (`docs/STATE_MAPS.md`)."""
    circuit: bytes
    frames: int
    shown: bool
    report: dict[str, Any]
    map: bytes | None = None


@dataclasses.dataclass(frozen=True)
class Ran:
    """How a command ended: its exit status, and what it printed on standard output and on standard error."""
    status: int
    output: bytes
    messages: bytes

    def report(self) -> dict[str, Any] | None:
        """The object that `--json` prints, or None where there is none."""
        return report_of(self.output) or report_of(self.messages)


def program() -> str:
    """The path of the program."""
    found = os.environ.get('FRETIME') or (str(BESIDE) if BESIDE.exists() else shutil.which('fretime'))
    if not found:
        raise FileNotFoundError('there is no program fretime on the path')
    return found


def __getattr__(name: str) -> str:
    """`__version__`, which is that of the program."""
    if name == '__version__':
        return version_of(program())
    raise AttributeError(f'module {__name__!r} has no attribute {name!r}')


@functools.cache
def version_of(path: str) -> str:
    """The version of a program, as it says it."""
    said = subprocess.run([path, '--version'], stdin=subprocess.DEVNULL, capture_output=True, check=True)
    return (said.stdout + said.stderr).decode().split()[-1]


def environment() -> dict[str, str]:
    """The environment of the program: with pages of 2 MB, which make a run over millions of gates quicker, unless it says otherwise."""
    return {'GLIBC_TUNABLES': 'glibc.malloc.hugetlb=1', **os.environ}


def refused(ran: Ran, report: dict[str, Any] | None) -> RetimeError:
    """The error of a run that failed. Where no memory was left for an object, the status alone tells."""
    if report is None:
        name = {1: 'Refused', 2: 'Usage', 3: 'Device', 4: 'NoMemory'}.get(ran.status, 'Ended')
        lines = ran.messages.decode(errors='replace').splitlines()
        text = next((line.removeprefix('error: ') for line in lines if line.startswith('error: ')), '')
        return RetimeError(name, status=ran.status, text=text)
    fault = report['fault']
    return RetimeError(fault['name'], fault['offset'], report['latch'], report['status'])


def report_of(text: bytes) -> dict[str, Any] | None:
    """The object among lines that were printed, if it is there."""
    lines = [line for line in text.splitlines() if line.startswith(b'{')]
    return json.loads(lines[-1]) if lines else None


def run(words: Iterable[str | os.PathLike[str]], input: bytes = b'', *, seconds: float | None = None) -> Ran:
    """Runs the program with these words, as ['check', 'in.aig', 'out.aig', 'map.aig'], and these bytes on standard input, which is
    the file `-`. No status raises an error: 5 is an answer. A run of over `seconds` raises subprocess.TimeoutExpired."""
    ran = subprocess.run([program(), *words], input=input, capture_output=True, env=environment(), timeout=seconds, check=False)
    return Ran(ran.returncode, ran.stdout, ran.stderr)


def choices(keep: str | Iterable[str], keep_latch: Iterable[int], frames: int | None, levels: int | None, no_longer: bool,
            ascii: bool | None) -> list[str]:
    """The options that `retime`, `enables` and `backward` share."""
    words = [f'--keep={name}' for name in ([keep] if isinstance(keep, str) else keep)]
    words += [f'--keep-latch={place}' for place in keep_latch] + ([] if frames is None else [f'--frames={frames}'])
    words += ['--no-longer'] * no_longer + ([] if levels is None else [f'--levels={levels}'])
    return words + ([] if ascii is None else ['--ascii' if ascii else '--binary'])


def retime(circuit: bytes, *, near: bool = False, merge: bool = False, keep: str | Iterable[str] = (), keep_latch: Iterable[int] = (),
           frames: int | None = None, levels: int | None = None, no_longer: bool = False, workers: int = 1, ascii: bool | None = None,
           certificates: bool = False, map: bool = False, seconds: float | None = None) -> Retimed:
    """The circuit with its latches moved forward, frame by frame, until no move leaves fewer.

    `near` takes the smallest of a frame's least sets, `merge` merges latches that always agree before the first frame, `keep` holds
    the latches with these names (or with one, a text), `keep_latch` those at these places, from 0. `frames` is the most that are taken, `levels` the most
    gates on a path that a move makes; `no_longer` takes those of the circuit's longest path for it. `ascii` chooses the spelling (that
    of the circuit where it is None), `certificates` and `map` ask for these. A run of over `seconds` raises
    subprocess.TimeoutExpired. A circuit that is refused, a name or place of no latch, a number out of its range, or want of memory raises
    RetimeError.
    """
    words = ['retime', '-', '-', '--json', '--quiet', f'--workers={workers}']
    words += ['--near'] * near + ['--merge'] * merge + choices(keep, keep_latch, frames, levels, no_longer, ascii)
    with tempfile.TemporaryDirectory(prefix='fretime-') as folder:
        text, states = pathlib.Path(folder, 'certificates'), pathlib.Path(folder, 'map')
        words += ['--cert', str(text)] * certificates + ['--map', str(states)] * map
        ran = run(words, circuit, seconds=seconds)
        report = report_of(ran.messages)
        if ran.status != 0 or report is None:
            raise refused(ran, report)
        taken = tuple(Frame(**frame) for frame in report['frames'])
        return Retimed(ran.output, taken, text.read_bytes() if certificates else None, report, states.read_bytes() if map else None)


def backward(circuit: bytes, *, keep: str | Iterable[str] = (), keep_latch: Iterable[int] = (), frames: int | None = None,
             levels: int | None = None, no_longer: bool = False, ascii: bool | None = None, map: bool = False,
             seconds: float | None = None) -> MovedBack:
    """The circuit with its latches moved backward, frame by frame, until no move leaves fewer; best of a circuit that `retime` wrote.
    The options and errors are those of `retime`."""
    words = choices(keep, keep_latch, frames, levels, no_longer, ascii)
    written, report, states = moved('backward', circuit, words, map, seconds)
    return MovedBack(written, tuple(FrameBack(**frame) for frame in report['frames']), report, states)


def enables(circuit: bytes, *, keep: str | Iterable[str] = (), keep_latch: Iterable[int] = (), frames: int | None = None,
            levels: int | None = None, no_longer: bool = False, ascii: bool | None = None, map: bool = False,
            seconds: float | None = None) -> MovedTogether:
    """The circuit with its latches that hold under one condition, as those with an enable, moved forward together; best of a circuit that
    `retime` wrote with `merge`. The options and errors are those of `retime`."""
    words = choices(keep, keep_latch, frames, levels, no_longer, ascii)
    written, report, states = moved('enables', circuit, words, map, seconds)
    return MovedTogether(written, report['frames'], report['shown'], report, states)


def moved(command: str, circuit: bytes, words: list[str], map: bool, seconds: float | None) -> tuple[bytes, dict[str, Any], bytes | None]:
    """What a command that moves latches wrote, its report, and its map where that is wanted."""
    with tempfile.TemporaryDirectory(prefix='fretime-') as folder:
        states = pathlib.Path(folder, 'map')
        ran = run([command, '-', '-', '--json', *words, *['--map', str(states)] * map], circuit, seconds=seconds)
        report = report_of(ran.messages)
        if ran.status != 0 or report is None:
            raise refused(ran, report)
        return ran.output, report, states.read_bytes() if map else None


def main() -> None:
    """The command `fretime` of a wheel: becomes the program, with the same arguments."""
    os.execv(program(), ['fretime', *sys.argv[1:]])

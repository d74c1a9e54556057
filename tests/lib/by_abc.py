"""ABC's `dsec`, which asks a SAT solver of its own whether two circuits are equivalent, for tests of what the program writes."""
import dataclasses
import pathlib
import shutil
import subprocess

from reference.circuit import no_symbols, text
from reference.reading import read

ABC = next((it for it in ('berkeley-abc', 'yosys-abc', 'abc') if shutil.which(it)), None)
EQUIVALENT = 'Networks are equivalent.'


def comparable(c):
    """The circuit as ABC compares one: all properties as outputs, no names, and an input, a latch that it feeds and an output of that
    more, since `dsec` wants a latch and an input."""
    first, gate = c.first_latch(), c.first_gate()

    def now(lit):
        return lit + 2 * ((lit // 2 >= first) + (lit // 2 >= gate))

    latches = [(now(lit), reset) for lit, reset in c.latches] + [(2 * first, 0)]
    gates = [tuple(map(now, fan_ins)) for fan_ins in c.gates]
    outputs = [now(lit) for lit in c.properties()] + [2 * (gate + 1)]
    return dataclasses.replace(c, inputs=c.inputs + 1, latches=latches, gates=gates, outputs=outputs, bad=[], constraints=[], justice=[],
                               fairness=[], symbols=no_symbols())


def with_known_resets(c):
    """The circuit with 0 for each free reset, as ABC reads one."""
    return dataclasses.replace(c, latches=[(lit, reset or 0) for lit, reset in c.latches])


def fault_of_run(program, data, words):
    """What is wrong if `retime` with these options doesn't make the file `out` of the current folder of a circuit, which becomes `in`."""
    pathlib.Path('out').unlink(missing_ok=True)
    pathlib.Path('in').write_bytes(data)
    ran = subprocess.run([program, 'retime', 'in', 'out', *words], capture_output=True, timeout=60, check=False)
    return f'ends with {ran.returncode}: {ran.stderr.decode()}' if ran.returncode else ''


def difference():
    """What ABC says of the files `in` and `out` of the current folder; nothing if it finds them equivalent."""
    for name in ('in', 'out'):
        pathlib.Path(f'{name}.aig').write_bytes(text(comparable(read(pathlib.Path(name).read_bytes())[0]), 'aig'))
    said = subprocess.run([ABC, '-c', 'dsec in.aig out.aig'], capture_output=True, timeout=60, check=False).stdout.decode()
    return '' if EQUIVALENT in said else said

"""Netlists of Yosys: what of a netlist can't be kept, and the names of its registers."""
import dataclasses
import re

LATCHES = {'$dlatch', '$adlatch', '$dlatchsr', '$sr'}
CLOCKED = {'$dff', '$dffe', '$sdff', '$sdffe', '$sdffce'}
RESETS = {'$adff', '$adffe'}
LOADS = {'$aldff', '$aldffe', '$dffsr', '$dffsre'}
# Cells that are no logic: they can't be written as gates.
REFUSED = {'$tribuf', '$cover', '$live', '$fair', '$ff', '$anyconst', '$anyseq', '$allconst', '$allseq',
           '$initstate', '$specify2', '$specify3', '$specrule', '$print', '$equiv'}


# Cells of assertions, which become bad states and constraints.
ASSERTIONS = {'$assert': 'assert', '$assume': 'assume'}


class Refused(Exception):
    """The design isn't accepted: a word, and what it is about."""

    def __init__(self, word, about):
        super().__init__(f'{word} {about}')


def index_of(wire, place):
    """The index that Verilog gives the bit at a place of a wire."""
    offset = wire.get('offset', 0)
    return offset + (len(wire['bits']) - 1 - place if wire.get('upto') else place)


@dataclasses.dataclass(frozen=True)
class Clock:
    """The clock: its port, and whether registers take their values at its rising edge."""
    port: str
    rising: bool


@dataclasses.dataclass
class Names:
    """Names of the netlist's latches, in the order of the file: for each all of its names, and the one that it keeps. A name is
    that of a wire, with the place of the bit in it, from 0. And the wires."""
    all_names: list
    kept: list
    wires: dict

    def registers(self):
        """For each latch the names of its registers, and those of its bit in them, as acc[3]."""
        return [{it for name, place in names for it in self.asked_as(name, place)} for names in self.all_names]

    def asked_as(self, name, place):
        shown = name.removesuffix('$held')
        return shown, f'{shown}[{index_of(self.wires[name], place)}]'


@dataclasses.dataclass(frozen=True)
class Assertion:
    """An assertion or an assumption: 'assert' or 'assume', the name of its cell, the label that it gets here, whether the design gave it
    none, and once it is written the wire that says whether it holds."""
    kind: str
    name: str
    label: str
    is_unlabelled: bool
    wire: str = ''


class Netlist:
    """A module as Yosys writes it in JSON."""

    def __init__(self, module):
        self.ports, self.cells, self.wires = module['ports'], module['cells'], module['netnames']
        self.named = {}
        for name, wire in self.wires.items():
            for bit in wire['bits']:
                if not wire['hide_name'] and name not in self.named.get(bit, []):
                    self.named.setdefault(bit, []).append(name)
        self.inputs = {bit: name for name, port in self.ports.items() if port['direction'] == 'input' for bit in port['bits']}

    def name_of(self, bit):
        return self.named.get(bit, ['(no name)'])[0]

    def cells_of(self, types):
        return [(name, cell) for name, cell in self.cells.items() if cell['type'] in types]

    def output_of(self, cell):
        """The name of what a cell drives."""
        port = next((port for port in ('Q', 'Y') if port in cell['connections']), None)
        return self.name_of(cell['connections'][port][0]) if port else '(no name)'


def refuse_drivers(netlist):
    """Refuses nets with several drivers: inputs, or outputs of cells. A net that a constant drives too is that constant."""
    drivers = [(bit, name) for name, port in netlist.ports.items() if port['direction'] == 'input' for bit in port['bits']]
    drivers += [(bit, netlist.name_of(bit)) for cell in netlist.cells.values() for pin, bits in cell['connections'].items()
                if cell.get('port_directions', {}).get(pin) == 'output' for bit in bits]
    driven = set()
    for bit, name in drivers:
        if bit in driven or isinstance(bit, str):
            raise Refused('Drivers', f'{name}: it has more than one driver')
        driven.add(bit)


def refuse_cells(netlist):
    """Refuses what no circuit of one clock has."""
    for name, port in netlist.ports.items():
        if port['direction'] == 'inout':
            raise Refused('Inout', f'{name}: a port is input or output')
    if not any(port['direction'] == 'output' for port in netlist.ports.values()) and not netlist.cells_of(ASSERTIONS):
        raise Refused('NoOutput', 'the top module has no output, and no assertion')
    for _, cell in netlist.cells_of(LATCHES):
        raise Refused('Latch', f'{netlist.output_of(cell)}: a latch has no clock')
    for name, cell in netlist.cells.items():
        kind = cell['type']
        if kind.startswith('$mem'):
            memory = cell['parameters'].get('MEMID', name).lstrip('\\')
            raise Refused('Memory', f'{memory}: the memory can\'t be mapped to registers')
        if kind in REFUSED or not kind.startswith('$') or kind.startswith('$_'):
            raise Refused('Cell', f'{name}: {kind} isn\'t written as gates and registers')
    refuse_drivers(netlist)
    for _, cell in netlist.cells_of(LOADS):
        raise Refused('AsynchronousLoad', f'{netlist.output_of(cell)}: what it is set to isn\'t a constant')
    for _, cell in netlist.cells_of(RESETS):
        reset = cell['connections']['ARST'][0]
        if reset not in netlist.inputs:
            raise Refused('AsynchronousReset', f'{netlist.output_of(cell)}: its reset {netlist.name_of(reset)} is no input')


def clock_of(netlist, asked):
    """The one clock of the netlist, or a refusal."""
    clocks = {}
    for _, cell in netlist.cells_of(CLOCKED | RESETS):
        rising = int(cell['parameters']['CLK_POLARITY'], 2) == 1
        clocks.setdefault((cell['connections']['CLK'][0], rising), cell)
    if not clocks:
        raise Refused('NoRegister', 'the design has no register')
    if len(clocks) > 1:
        told = sorted(f'{netlist.name_of(bit)} ({"rising" if rising else "falling"})' for bit, rising in clocks)
        raise Refused('SeveralClocks', f'{", ".join(told)}: registers have one clock, and one edge of it')
    bit, rising = next(iter(clocks))
    port = netlist.inputs.get(bit)
    if port is None or len(netlist.ports[port]['bits']) != 1:
        raise Refused('DerivedClock', f'{netlist.name_of(bit)}: the clock is no input of one bit')
    if asked not in (None, port):
        raise Refused('NoSuchClock', f'{asked}: the registers\' clock is {port}')
    pins = [pin for cell in netlist.cells.values() for pin in cell['connections'].items()]
    outputs = [bit for port in netlist.ports.values() if port['direction'] == 'output' for bit in port['bits']]
    if bit in outputs or any(pin != 'CLK' and bit in bits for pin, bits in pins):
        raise Refused('ClockAsData', f'{port}: the clock is read by logic, or is an output')
    return Clock(port, rising)


def resets_made_synchronous(netlist):
    """A line for each asynchronous reset."""
    found = {}
    for _, cell in netlist.cells_of(RESETS):
        found.setdefault(netlist.name_of(cell['connections']['ARST'][0]), []).append(netlist.output_of(cell))
    return [f'asynchronous reset {reset}, of {", ".join(sorted(set(names)))}: taken to change with the clock alone'
            for reset, names in found.items()]


def renames(before, after):
    """Public names for registers without one, (old, new) for each: what async2sync made gets the register's name, with $held."""
    clocked = {bit: None for _, cell in after.cells_of(CLOCKED) for bit in cell['connections']['Q']}
    hidden = {bit: name for name, wire in after.wires.items() if wire['hide_name'] for bit in wire['bits']}
    fresh = {}
    for _, cell in after.cells_of({'$mux'}):
        pins = cell['connections']
        for value, bit in zip(pins['A'] if pins['A'][0] in clocked else pins['B'], pins['Y']):
            names = [name for name in after.named.get(bit, []) if name in before.wires]
            if value in clocked and value in hidden and value not in after.named and names:
                fresh.setdefault(hidden[value], f'{preferred(after, names)}$held')
    for bit in clocked:
        if bit not in after.named and bit in hidden:
            fresh.setdefault(hidden[bit], f'unnamed${len(fresh)}')
    return list(fresh.items())


def preferred(netlist, names):
    """Of several names of one register the one that it was declared by."""
    return min(names, key=lambda name: ('fretime_register' not in netlist.wires[name]['attributes'], name.count('.')))


def read_map(path):
    """The lines of a map that Yosys wrote beside a circuit: for each kind, position and names with the places of their bits."""
    found = {}
    for line in path.read_text().splitlines():
        kind, position, index, name = line.split(' ', 3)
        found.setdefault(kind, {}).setdefault(int(position), []).append((name, int(index)))
    return found


def names_of_latches(netlist, found, count):
    """All names of each latch, and the one that it keeps."""
    found = found.get('latch', {})
    all_names = [found.get(place, []) for place in range(count)]
    kept = []
    for names in all_names:
        if not names:
            raise Refused('Names', 'a register has no name')
        best = preferred(netlist, [name for name, _ in names])
        kept.append(next((name, index) for name, index in names if name == best))
    return Names(all_names, kept, netlist.wires)


def outputs_of(netlist, circuit):
    """The port and bit of each output, by position. (The map has none for those that are constant.)"""
    widths = {name: len(port['bits']) for name, port in netlist.ports.items() if port['direction'] == 'output'}
    bits = [(name, bit) for name, width in widths.items() for bit in range(width)]
    shown = {name if widths[name] == 1 else f'{name}[{bit}]': (name, bit) for name, bit in bits}
    found = {position: shown.get(symbol) for position, symbol in circuit.output_symbols.items()}
    if len(shown) < len(bits) or sorted(found) != list(range(len(circuit.outputs))) or set(found.values()) != set(bits):
        raise Refused('Names', 'the bits of the outputs can\'t be told apart by their names')
    return found


def is_set(attribute):
    return '1' in str(attribute)


def kept_names(netlist):
    """The names of the wires, registers among them, with the attribute keep."""
    return {name for name, wire in netlist.wires.items() if not wire['hide_name'] and is_set(wire['attributes'].get('keep', 0))}


def registers_without_a_value(netlist):
    """The names of registers of which a bit has no initial value, each once."""
    known = set()
    for wire in netlist.wires.values():
        values = reversed(wire['attributes'].get('init', ''))
        known.update(bit for bit, value in zip(wire['bits'], values) if value in '01')
    clocked = [bit for _, cell in netlist.cells_of(CLOCKED | RESETS) for bit in cell['connections']['Q']]
    names = [preferred(netlist, netlist.named[bit]) for bit in clocked if bit not in known and bit in netlist.named]
    return list(dict.fromkeys(names))


def bits_with(netlist, pin):
    """How many bits of registers are in cells with this pin."""
    return sum(len(cell['connections']['Q']) for cell in netlist.cells.values() if {'Q', pin} <= set(cell['connections']))


def assertions_of(netlist):
    """The assertions and assumptions, with labels that no name of the design is."""
    taken, found = set(netlist.wires) | set(netlist.cells), []
    for number, (name, cell) in enumerate(netlist.cells_of(ASSERTIONS), 1):
        kind = ASSERTIONS[cell['type']]
        label = f'{kind}_{number}' if cell['hide_name'] else re.sub(r'\W', '_', name)
        while label in taken and label != name:
            label += '_'
        taken.add(label)
        found.append(Assertion(kind, name, label, bool(cell['hide_name'])))
    return found


def labels_of(netlist, by_line=None):
    """Kind and label of each assertion, those of each kind in the order of the circuit that Yosys writes. The label is the name of the
    cell; of one that has none it is that of its line in the file that Yosys read."""
    found = [(kind, name, cell) for kind in ASSERTIONS for name, cell in netlist.cells_of({kind})]
    return [(ASSERTIONS[kind], (by_line or {}).get(line_of(cell), name) if cell['hide_name'] else name) for kind, name, cell in found]


def line_of(cell):
    """The number of the line from which a cell comes, if Yosys says it."""
    found = re.search(r':(\d+)', cell['attributes'].get('src', ''))
    return int(found[1]) if found else None

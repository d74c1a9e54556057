"""The netlist of a retimed circuit, in Yosys' RTLIL: ports of the old netlist, its registers that stay, new registers, gates."""
import dataclasses
import itertools

import netlists


@dataclasses.dataclass
class Register:
    """A register: its name, its wire (width and range, as in JSON), and its latches, the lowest bit first."""
    name: str
    wire: dict
    latches: list


class Registers:
    """The registers of the retimed circuit, the step of each of its latches, and which latch of the old circuit each of their bits was."""

    def __init__(self, netlist, names, circuit, outputs, steps):
        self.netlist, self.circuit, self.steps = netlist, circuit, steps
        self.port_literals = output_literals(circuit, outputs)
        self.taken, self.found, self.old = set(netlist.ports), [], {}
        stay = {place: int(symbol.split(' ')[0]) for place, symbol in circuit.symbols.items()}
        groups = {}
        for latch, old in stay.items():
            name, bit = names.kept[old]
            groups.setdefault(name, {})[bit] = latch
        for name, bits in groups.items():
            self.add_named(name, bits)
        for register in self.found:
            self.old.update({(register.name, bit): stay[latch] for bit, latch in enumerate(register.latches)})
        new = [latch for latch in range(len(circuit.latches)) if latch not in stay]
        if new:
            # (those with one enable stand side by side, in the order in which each of these comes first)
            places = {kind: place for place, kind in reversed([(latch, steps[latch].kind()) for latch in new])}
            new.sort(key=lambda latch: places[steps[latch].kind()])
            self.add(self.fresh('retimed'), {'bits': new}, new)

    def add(self, name, wire, latches):
        self.taken.add(name)
        self.found.append(Register(name, wire, latches))

    def fresh(self, name):
        numbered = (f'{name}_{number}' for number in itertools.count(2))
        return next(it for it in itertools.chain([name], numbered) if it not in self.taken)

    def is_own_port(self, name, wire, bits):
        """Whether an output port is the register itself, as before."""
        literals = [self.circuit.latches[bits[bit]].variable * 2 for bit in range(len(wire['bits']))]
        return self.netlist.ports[name]['direction'] == 'output' and self.port_literals.get(name) == literals

    def add_named(self, name, bits):
        """A register has its own name, with the range of its bits that stay where these are neighbours; else each of them has the
        name with its index."""
        wire = self.netlist.wires[name]
        shown = name.removesuffix('$held') if name.endswith('$held') else name
        latches = [bits[bit] for bit in sorted(bits)]
        whole = len(bits) == len(wire['bits'])
        neighbours = len(bits) > 1 and max(bits) - min(bits) == len(bits) - 1 and shown not in self.netlist.ports
        if whole and shown == name and name in self.netlist.ports and self.is_own_port(name, wire, bits):
            self.add(name, wire, latches)
            return
        if whole or neighbours:
            lowest = min(netlists.index_of(wire, bit) for bit in bits)
            part = {**wire, 'bits': latches, 'offset': lowest}
            self.add(self.fresh(f'{shown}_held') if shown in self.taken else shown, part, latches)
            return
        for bit, latch in sorted(bits.items()):
            self.add(self.fresh(f'{shown}[{netlists.index_of(wire, bit)}]'), {'bits': [latch]}, [latch])


# The cells of registers, with an enable or without, with a reset over it or without.
KINDS = {(False, False): '$dff', (True, False): '$dffe', (True, True): '$sdffe'}


def identifier(name):
    """A name as RTLIL has it. (Yosys itself leaves the backslash before names that begin with a digit, a backslash or $.)"""
    return name if name.startswith('\\') else '\\' + name


def declared(name, wire, *more):
    """A wire of RTLIL: its width, its range, and other words."""
    words = [f'width {len(wire["bits"])}', *([f'offset {wire["offset"]}'] if wire.get('offset') else [])]
    words += [word for word in ('upto', 'signed') if wire.get(word)]
    return f'  wire {" ".join([*words, *more])} {identifier(name)}'


def bits_of(name, width):
    """The bits of a wire, the lowest first."""
    return [identifier(name)] if width == 1 else [f'{identifier(name)} [{bit}]' for bit in range(width)]


def joined(signals):
    return '{ ' + ' '.join(reversed(signals)) + ' }'


class Module:
    """The lines of a module, gate by gate."""

    def __init__(self, netlist, registers, circuit, found):
        self.wires, self.cells, self.nets, self.inverted = [], [], {0: "1'0"}, {}
        self.netlist, self.circuit = netlist, circuit
        for position, names in found.get('input', {}).items():
            name, bit = names[0]
            self.nets[circuit.inputs[position]] = bits_of(name, len(netlist.ports[name]['bits']))[bit]
        for register in registers.found:
            for signal, latch in zip(bits_of(register.name, len(register.latches)), register.latches):
                self.nets[circuit.latches[latch].variable] = signal
        for variable, *_ in circuit.gates:
            self.nets[variable] = f'$gate{variable}'

    def cell(self, kind, parameters, pins):
        self.cells += [f'  cell {kind} $cell{len(self.cells)}',
                       *(f'    parameter \\{name} {value}' for name, value in parameters),
                       *(f'    connect \\{name} {signal}' for name, signal in pins), '  end']

    def signal(self, literal):
        """The net of a literal, with an inverter where one is needed."""
        variable = literal >> 1
        if literal & 1 == 0:
            return self.nets[variable]
        if variable == 0:
            return "1'1"
        if variable not in self.inverted:
            self.inverted[variable] = f'$not{variable}'
            self.wires.append(f'  wire $not{variable}')
            self.cell('$_NOT_', [], [('A', self.nets[variable]), ('Y', f'$not{variable}')])
        return self.inverted[variable]

    def add_gates(self):
        for variable, left, right in self.circuit.gates:
            self.wires.append(f'  wire $gate{variable}')
            self.cell('$_AND_', [], [('A', self.signal(left)), ('B', self.signal(right)), ('Y', f'$gate{variable}')])

    def add_register(self, register, clock, steps):
        """Adds a cell for each row of neighbouring bits of which all but the load is the same."""
        rows = itertools.groupby(range(len(register.latches)), lambda bit: steps[register.latches[bit]].kind())
        for _, bits in rows:
            self.add_row(register, list(bits), clock, steps)

    def add_row(self, register, bits, clock, steps):
        row = [steps[register.latches[bit]] for bit in bits]
        whole = len(bits) == len(register.latches)
        place = '' if whole else f' [{bits[-1]}:{bits[0]}]' if len(bits) > 1 else f' [{bits[0]}]'
        parameters = [('WIDTH', len(bits)), ('CLK_POLARITY', f"1'{int(clock.rising)}")]
        pins = [('CLK', identifier(clock.port)), ('Q', identifier(register.name) + place),
                ('D', joined([self.signal(step.load) for step in row]))]
        if row[0].hold is not None:
            parameters.append(('EN_POLARITY', f"1'{row[0].hold & 1}"))
            pins.append(('EN', self.signal(row[0].hold & ~1)))
        if row[0].reset is not None:
            parameters += [('SRST_POLARITY', f"1'{row[0].reset & 1 ^ 1}"), ('SRST_VALUE', f"{len(bits)}'{str(row[0].value) * len(bits)}")]
            pins.append(('SRST', self.signal(row[0].reset & ~1)))
        self.cell(KINDS[row[0].hold is not None, row[0].reset is not None], parameters, pins)

    def reset_of(self, register):
        """The attribute with a register's initial value, where it has one."""
        resets = [self.circuit.latches[latch].reset for latch in reversed(register.latches)]
        bits = ''.join('x' if reset is None else str(reset) for reset in resets)
        return [f"  attribute \\init {len(bits)}'{bits}"] if set(bits) != {'x'} else []


def output_literals(circuit, outputs):
    """The literals of each output port, the lowest bit first."""
    literals = {}
    for position, (name, bit) in outputs.items():
        literals.setdefault(name, {})[bit] = circuit.outputs[position]
    return {name: [bits[bit] for bit in range(len(bits))] for name, bits in literals.items()}


class Assertions:
    """The assertions of the retimed circuit: a wire for each, and the literal that says that it holds."""

    def __init__(self, netlist, registers, circuit, assertions):
        by_label = {it.label: it for it in assertions}
        named = [by_label[label] for _, label in netlists.labels_of(netlist)]
        literals = [literal ^ 1 for literal in circuit.bad] + circuit.constraints
        self.found, self.literals = [], literals
        for it in named:
            wire = registers.fresh(f'{it.label}_holds')
            registers.taken.add(wire)
            self.found.append(dataclasses.replace(it, wire=wire))

    def write(self, module):
        for it, literal in zip(self.found, self.literals, strict=True):
            module.wires.append(f'  wire {identifier(it.wire)}')
            module.cells.append(f'  connect {identifier(it.wire)} {module.signal(literal)}')


def rtlil(top, netlist, registers, circuit, found, clock, assertions):
    """The text of the module."""
    module = Module(netlist, registers, circuit, found)
    module.add_gates()
    own = {register.name for register in registers.found}
    for number, (name, port) in enumerate(netlist.ports.items(), 1):
        held = next((module.reset_of(it) for it in registers.found if it.name == name), [])
        module.wires += [*held, declared(name, port, port['direction'], str(number))]
    for register in registers.found:
        if register.name not in netlist.ports:
            module.wires += [*module.reset_of(register), declared(register.name, register.wire)]
        module.add_register(register, clock, registers.steps)
    for name, literals in registers.port_literals.items():
        if name not in own:
            signals = [module.signal(literal) for literal in literals]
            module.cells.append(f'  connect {identifier(name)} {joined(signals)}')
    assertions.write(module)
    return '\n'.join([f'module {identifier(top)}', *module.wires, *module.cells, 'end', ''])

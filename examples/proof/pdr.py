"""ABC's pdr as a prover: the circuit as it takes one, and what it finds as a witness circuit or a
counterexample of the circuit that it was made of."""
from aiger import Circuit, Counterexample
from formulas import Frame


def model_of(circuit):
    """The circuit with one output, which is 1 in a bad state up to which all constraints held. Two
    latches come last: whether a step was made, and whether a constraint was broken. At the first
    step an input more stands for each latch without a reset."""
    count = len(circuit.latches)
    model = Circuit(circuit.inputs + circuit.free(), [(0, 0)] * (count + 2), [], [], [], [])
    inputs = [model.input(place) for place in range(model.inputs)]
    later, broken = model.latch(count), model.latch(count + 1)
    more, state = iter(inputs[circuit.inputs:]), []
    for place, (_, reset) in enumerate(circuit.latches):
        own = model.latch(place)
        state.append(model.choice(later, own, next(more)) if reset is None else own)
    frame = Frame(model, circuit, inputs[:circuit.inputs], state)
    breaks = model.gate(broken ^ 1, model.all(frame.all(circuit.constraints))) ^ 1
    good = model.all(literal ^ 1 for literal in frame.all(circuit.properties()))
    resets = [reset or 0 for _, reset in circuit.latches]
    model.latches = [*zip(frame.following(), resets), (1, 0), (breaks, 0)]
    model.outputs = [model.gate(breaks ^ 1, good ^ 1)]
    return model


def cubes_of(path, width):
    """The cubes of states outside of an invariant, as pdr writes it; None where they are of
    another circuit."""
    if not path.exists():
        return []
    rows = [line.split()[0] for line in path.read_text(encoding='latin-1').splitlines()
            if line[:1] in ('0', '1', '-')]
    return rows if all(len(row) == width for row in rows) else None


def witness_of(circuit, cubes):
    """The circuit with a bad state that is inductive: one of the circuit's, or any state in a cube
    but the first one. A column of a cube is a latch, negated where it begins with 1; the last two
    are those that pdr's model has more, as they are after the first step."""
    found = circuit.copy(outputs=[], bad=[])
    columns = [found.latch(place) ^ (reset == 1) for place, (_, reset) in enumerate(found.latches)]
    columns += [1, 0]
    outside = [found.all(column ^ (digit == '0')
                         for column, digit in zip(columns, row) if digit != '-') for row in cubes]
    first = found.all(found.latch(place) ^ 1 ^ reset
                      for place, (_, reset) in enumerate(found.latches) if reset is not None)
    inside = found.gate(found.all(cube ^ 1 for cube in outside) ^ 1, first ^ 1) ^ 1
    good = found.all([literal ^ 1 for literal in circuit.properties()] + [inside])
    found.bad = [good ^ 1]
    found.names = names_of_all(found)
    return found


def names_of_all(circuit):
    """Names that say that each input and latch is the one of the model at its place."""
    return {**{('i', place): f'= {circuit.input(place)}' for place in range(circuit.inputs)},
            **{('l', place): f'= {circuit.latch(place)}' for place in range(len(circuit.latches))}}


def counterexample_of(circuit, text):
    """The counterexample that ABC wrote of the model: values of latches, and of inputs by steps."""
    _, *rows = text.replace('# DONE', '').split() or ['']
    steps = [[int(sign == '1') for sign in row] for row in rows]
    if not steps or any(len(row) != circuit.inputs + circuit.free() for row in steps):
        return None
    more = iter(steps[0][circuit.inputs:])
    state = [next(more) if reset is None else reset for _, reset in circuit.latches]
    return Counterexample(state, [row[:circuit.inputs] for row in steps])

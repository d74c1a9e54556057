"""Retimes the circuit of a file by the module fretime, and prints its frames."""
import sys

import fretime

with open(sys.argv[1], 'rb') as file:
    circuit = file.read()
try:
    answer = fretime.retime(circuit, certificates=True)
except fretime.RetimeError as error:
    sys.exit(f'refused: {error.name}, offset {error.offset}')
for frame in answer.frames:
    print(frame.before, 'to', frame.after)
print(len(answer.circuit), 'bytes of a circuit,', len(answer.certificates), 'of certificates')

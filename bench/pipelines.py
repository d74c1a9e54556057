#!/usr/bin/env python3
"""Pipelines as Verilog, each in five forms.

usage: bench/pipelines.py DESIGN FORM > FILE
       bench/pipelines.py --list

A form says which registers there are: `plain`; with an `enable` that stalls all; with a synchronous reset before it (`synchronous`); with
an asynchronous reset alone (`asynchronous`), or before an enable (`both`). All registers begin with 0, and a reset makes them 0.
"""
import dataclasses
import sys


@dataclasses.dataclass
class Register:
    """A register of so many bits, or so many words of them."""
    name: str
    bits: int
    words: int = 0
    signed: str = ''

    def declared(self):
        return f'  reg {self.signed} [{self.bits - 1}:0] {self.name}{f" [0:{self.words - 1}]" if self.words else ""};'

    def is_zero(self, becomes):
        """The statement that makes it 0."""
        if self.words:
            return f'for (k = 0; k < {self.words}; k = k + 1) {self.name}[k] {becomes} 0;'
        return f'{self.name} {becomes} 0;'


@dataclasses.dataclass
class Design:
    """A pipeline: what it is, ports but those of its form, registers, the statements of a step, and the rest."""
    what: str
    ports: str
    registers: list
    step: str
    rest: str


DESIGNS = {
    'products': Design(
        'a multiplier with a register after each partial product', 'input [7:0] a, b, output [15:0] p', [Register('row', 8, 8)],
        'for (k = 0; k < 8; k = k + 1) row[k] <= a & {8{b[k]}};',
        """reg [15:0] total;
  always @* begin total = 0; for (k = 0; k < 8; k = k + 1) total = total + ({8'd0, row[k]} << k); end
  assign p = total;"""),
    'multiplier': Design(
        'a multiplier with registers between its rows, operands included', 'input [7:0] a, b, output [15:0] p',
        [Register('x', 8, 9), Register('y', 8, 9), Register('total', 16, 9)],
        """x[0] <= a; y[0] <= b; total[0] <= 0;
      for (k = 0; k < 8; k = k + 1) begin
        x[k+1] <= x[k]; y[k+1] <= y[k]; total[k+1] <= total[k] + (y[k][k] ? {8'd0, x[k]} << k : 0);
      end""",
        'assign p = total[8];'),
    'divider': Design(
        'a restoring divider with registers between its rows', 'input [7:0] n, d, output [7:0] q, r',
        [Register('left', 8, 9), Register('by', 8, 9), Register('found', 8, 9), Register('rest', 9, 9)],
        """left[0] <= n; by[0] <= d; found[0] <= 0; rest[0] <= 0;
      for (k = 0; k < 8; k = k + 1) begin
        taken = {rest[k][7:0], left[k][7]};
        left[k+1] <= left[k] << 1; by[k+1] <= by[k];
        found[k+1] <= {found[k][6:0], taken >= {1'b0, by[k]}};
        rest[k+1] <= taken >= {1'b0, by[k]} ? taken - by[k] : taken;
      end""",
        """reg [8:0] taken;
  assign q = found[8];
  assign r = rest[8][7:0];"""),
    'dot': Design(
        'a sum of four products, with registers after the operands and after the products', 'input [31:0] a, b, output [17:0] y',
        [Register('x', 32), Register('z', 32), Register('product', 16, 4)],
        'x <= a; z <= b; for (k = 0; k < 4; k = k + 1) product[k] <= x[8*k +: 8] * z[8*k +: 8];',
        """reg [17:0] total;
  always @* begin total = 0; for (k = 0; k < 4; k = k + 1) total = total + product[k]; end
  assign y = total;"""),
    'filter': Design(
        'a filter of six taps, with two registers after each product', 'input [7:0] x, output [18:0] y',
        [Register('tap', 8, 6), Register('first', 16, 6), Register('second', 16, 6), Register('sum', 19)],
        """tap[0] <= x;
      for (k = 1; k < 6; k = k + 1) tap[k] <= tap[k-1];
      for (k = 0; k < 6; k = k + 1) begin first[k] <= tap[k] * ((k * 53 + 7) & 8'hff); second[k] <= first[k]; end
      sum <= total;""",
        """reg [18:0] total;
  always @* begin total = 0; for (k = 0; k < 6; k = k + 1) total = total + second[k]; end
  assign y = sum;"""),
    'cordic': Design(
        'a CORDIC rotation of six steps with registers between them', 'input signed [9:0] angle, output signed [9:0] c, s',
        [Register('x', 10, 7, 'signed'), Register('y', 10, 7, 'signed'), Register('z', 10, 7, 'signed')],
        """x[0] <= 128; y[0] <= 0; z[0] <= angle;
      for (k = 0; k < 6; k = k + 1)
        if (z[k][9]) begin x[k+1] <= x[k] + (y[k] >>> k); y[k+1] <= y[k] - (x[k] >>> k); z[k+1] <= z[k] + (128 >> k); end
        else begin x[k+1] <= x[k] - (y[k] >>> k); y[k+1] <= y[k] + (x[k] >>> k); z[k+1] <= z[k] - (128 >> k); end""",
        'assign c = x[6]; assign s = y[6];'),
    'cipher': Design(
        'a Feistel cipher of six rounds, with words and keys in registers', 'input [31:0] text, key, output [31:0] code',
        [Register('low', 16, 7), Register('high', 16, 7), Register('keys', 32, 7)],
        """low[0] <= text[15:0]; high[0] <= text[31:16]; keys[0] <= key;
      for (k = 0; k < 6; k = k + 1) begin
        keys[k+1] <= {keys[k][26:0], keys[k][31:27]};
        high[k+1] <= low[k];
        low[k+1] <= high[k] ^ keys[k][15:0] ^ ({low[k][14:0], low[k][15]} & {low[k][7:0], low[k][15:8]}) ^ {low[k][13:0], low[k][15:14]};
      end""",
        'assign code = {high[6], low[6]};'),
    'matcher': Design(
        'a comparison of four words with a pattern, all in registers', 'input [63:0] words, input [15:0] pattern, output [3:0] hits',
        [Register('word', 16, 4), Register('wanted', 16)],
        'for (k = 0; k < 4; k = k + 1) word[k] <= words[16*k +: 16]; wanted <= pattern;',
        'assign hits = {word[3] == wanted, word[2] == wanted, word[1] == wanted, word[0] == wanted};'),
}

# The ports of each form, when its registers take values, and what stands before a step.
FORMS = {'plain': ('', 'posedge clk', ''), 'enable': ('input en, ', 'posedge clk', 'if (en) '),
         'synchronous': ('input rst, en, ', 'posedge clk', 'if (rst) {zero}\n    else if (en) '),
         'asynchronous': ('input rst, ', 'posedge clk or posedge rst', 'if (rst) {zero}\n    else '),
         'both': ('input rst, en, ', 'posedge clk or posedge rst', 'if (rst) {zero}\n    else if (en) ')}


def verilog(name, form):
    """The text of a design in a form."""
    design, (ports, edges, before) = DESIGNS[name], FORMS[form]
    zero = lambda becomes: f'begin {" ".join(it.is_zero(becomes) for it in design.registers)} end'
    return f"""// {design.what}
module {name}(input clk, {ports}{design.ports});
{chr(10).join(it.declared() for it in design.registers)}
  integer k;
  {design.rest}
  initial {zero('=')}
  always @({edges})
    {before.format(zero=zero('<='))}begin
      {design.step}
    end
endmodule
"""


def main(words):
    if words == ['--list']:
        print(*(f'{name}: {design.what}' for name, design in DESIGNS.items()), sep='\n')
        return 0
    if len(words) != 2 or words[0] not in DESIGNS or words[1] not in FORMS:
        print(__doc__, file=sys.stderr)
        return 2
    print(verilog(*words), end='')
    return 0


if __name__ == '__main__':
    sys.exit(main(sys.argv[1:]))

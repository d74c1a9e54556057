"""The designs of tests/outside/verilog: those that are retimed, and those that are refused."""
import dataclasses

# Ranges of each kind, registers without an initial value, the falling edge, an asynchronous reset of a port.
RANGES = """
module ranges(
    input clk,
    input rst,
    input [0:3] up,
    input [11:8] off,
    input signed [3:0] s,
    output reg [0:3] y,
    output reg signed [7:4] z,
    output reg q,
    output w,
    output one
);
    reg [3:0] a, b;
    reg [0:3] c = 4'b1010;
    reg [7:4] d = 4'b0110;
    reg [3:0] e;
    initial z = 4'sb1000;
    initial q = 1;
    always @(negedge clk) begin
        a <= up;
        b <= off ^ s;
        c <= up & off;
        d <= s;
        y <= a ^ b;
        z <= c & d;
    end
    always @(negedge clk or posedge rst) if (rst) q <= 1'b1; else q <= q ^ s[0];
    always @(negedge clk or posedge rst) if (rst) e <= 4'b0011; else e <= e + up;
    assign w = ^e;
    assign one = 1'b1;
endmodule
"""


# SystemVerilog with a file to include, a macro, a parameter, escaped names, an instance, and assertions of each kind. Of its ten
# registers `held` has the attribute keep, `last` no initial value, and `mask` that of the macro.
SYSTEM = """
`include "width.vh"
module \\top.1 #(parameter int EXTRA = 7)(
    input logic clk,
    input logic [`WIDTH-1:0] \\1in ,
    input logic [`WIDTH-1:0] two,
    output logic [EXTRA-1:0] y
);
    (* keep *) logic [`WIDTH-1:0] held = 0;
    logic [`WIDTH-1:0] a = 0, mask = `MASK;
    logic last;
    always_ff @(posedge clk) begin
        held <= \\1in ;
        a <= two;
        mask <= ~two;
        last <= held[0];
    end
    assign y = {last, (a & mask) == 0, held};
    part u(.clk, .a, .mask, .last);
endmodule

module part(input logic clk, input logic [`WIDTH-1:0] a, input logic [`WIDTH-1:0] mask, input logic last);
    always_comb begin
        apart: assert ((a & mask) == 0 || last);
        assume (last || a != 3);
    end
endmodule
"""

# The registers that a misspelt name leaves at 0.
MISSPELT = """
module misspelt(input clk, input [3:0] data, output reg [3:0] r);
    always @(posedge clk) r <= dtaa;
endmodule
"""

# Four registers behind a decoder: two before it hold as much.
DECODER = """
module decoder(
    input clk,
    input [1:0] select,
    output reg [3:0] line
);
    initial line = 4'b0001;
    always @(posedge clk) line <= 4'b0001 << select;
endmodule
"""

# Two comparisons whose eight registers hold under one enable, with the reset that a form of it has; and one bit more that no other holds with.
STALLED = """
module stalled(
    input clk,
    input rst,
    input en,
    input alone,
    input [3:0] a,
    input [3:0] b,
    output [1:0] hit,
    output reg one
);
    reg [3:0] x = 0;
    reg [3:0] y = 0;
    initial one = 0;
    always @(posedge clk{edge})
        {reset}if (en) begin
            x <= a;
            y <= b;
        end
    always @(posedge clk) if (alone) one <= a[0];
    assign hit = {{x[3:2] == y[3:2], x[1:0] == y[1:0]}};
endmodule
"""
# A decoder whose four registers hold together: before it two would do.
STALLED_DECODER = """
module decoder(
    input clk,
    input en,
    input [1:0] select,
    output reg [3:0] line
);
    initial line = 4'b0001;
    always @(posedge clk) if (en) line <= 4'b0001 << select;
endmodule
"""
STALLS = {'enable': ('', ''), 'synchronous': ('', 'if (rst) begin x <= 0; y <= 0; end else '),
          'both': (' or posedge rst', 'if (rst) begin x <= 0; y <= 0; end else ')}
# Both run beside one another over random inputs; the reset changes with the clock, away from its edge.
SIDE_BY_SIDE = """
module bench;
    reg clk = 0, rst = 0, en = 0, alone = 0;
    reg [3:0] a = 0, b = 0;
    wire [1:0] hit, again, one;
    integer step, failed = 0, hits = 0;
    stalled read(clk, rst, en, alone, a, b, hit, one[0]);
    retimed_stalled written(clk, rst, en, alone, a, b, again, one[1]);
    initial begin
        for (step = 0; step < 4000; step = step + 1) begin
            rst = $random % 8 == 0; en = $random; alone = $random; a = $random; b = $random & 1 ? a : $random;
            #1 if (hit !== again || one[0] !== one[1]) failed = failed + 1;
            hits = hits + &hit;
            clk = 1; #1 clk = 0; #1;
        end
        $display("%0d steps differ, %0d hits", failed, hits);
        $finish;
    end
endmodule
"""

# Two counters of the same steps, of which each rests on itself.
TWINS = """
module twins(
    input clk,
    input [3:0] d,
    output [3:0] y,
    output z
);
    reg [3:0] a = 0, b = 0;
    always @(posedge clk) begin
        a <= a + d;
        b <= b + d;
    end
    assign y = a;
    assign z = a == b;
endmodule
"""

# Nine bits of registers that nothing moves from: four without an initial value, three with an enable, two with an asynchronous reset.
STILL = """
module still(input clk, input reset, input on, input [3:0] d, output [8:0] y);
    reg [3:0] a;
    reg [2:0] b = 0;
    reg [1:0] c = 0;
    always @(posedge clk) begin
        a <= d;
        if (on) b <= d;
    end
    always @(posedge clk or posedge reset) if (reset) c <= 0; else c <= d;
    assign y = {a, b, c};
endmodule
"""

# Eight registers, of which the attribute holds four; without it one would hold the output.
HELD = """
module held(input clk, input [3:0] d, input [3:0] e, output o);
    (* keep *) reg [3:0] x = 0;
    reg [3:0] y = 0;
    always @(posedge clk) begin
        x <= d;
        y <= e;
    end
    assign o = &(x ^ y);
endmodule
"""

# Two registers between gates: one after them all holds the output, and two gates stand in front of it then.
BETWEEN = """
module between(input clk, input [3:0] d, output o);
    reg a = 0, b = 0;
    always @(posedge clk) begin
        a <= d[0] & d[1];
        b <= d[2] & d[3];
    end
    assign o = a & b;
endmodule
"""

# Three registers, of which two always agree, as Yosys finds by their inputs; as many gates behind the last as before it.
COPIES = """
module copies(input clk, input d, input e, input f, output reg q);
    reg [1:0] a = 0;
    initial q = 0;
    always @(posedge clk) begin
        a <= {d, d};
        q <= (a[0] | e) & (a[1] | f);
    end
endmodule
"""

# An included file, one that $readmemh loads, a module of another file, and an array that a loop uses.
PARTS = {
    'top.v': """
`include "width.vh"
module top(input clk, input [1:0] at, input [`WIDTH:0] d, output [`WIDTH:0] q);
    reg [`WIDTH:0] table [0:3];
    reg [`WIDTH:0] p [0:3];
    integer i;
    initial $readmemh("table.hex", table);
    always @* for (i = 0; i < 4; i = i + 1) p[i] = table[i] ^ d;
    leaf u(.clk(clk), .d(p[at]), .q(q));
endmodule
""",
    'leaf.v': """
module leaf(input clk, input [3:0] d, output reg [3:0] q);
    initial q = 0;
    always @(posedge clk) q <= d;
endmodule
""",
    'width.vh': '`define WIDTH 3\n',
    'table.hex': '1\n2\n3\n4\n',
}

# Assertions without labels, of which one is constant, and one with a label.
UNLABELLED = """
module unlabelled(input clk, input [3:0] d, output reg q);
    reg [3:0] a = 0;
    initial q = 0;
    always @(posedge clk) begin
        a <= d;
        q <= ^a;
    end
    always @* assert (a != 9 || q);
    always @* assume (d != 9);
    always @* if (d == 2) assert (1);
endmodule
"""

# What cleaning leaves without a register.
EMPTY = """
module empty(input clk, input [3:0] d, output o);
    reg [3:0] a = 0, b = 0;
    always @(posedge clk) begin
        a <= d;
        b <= ~d;
    end
    assign o = (a & b) == 15;
endmodule
"""

# Whether two files give the same outputs for eight steps, as Yosys finds by itself; registers without a value begin with 0.
EIGHT_STEPS = """
read_verilog ranges.v
hierarchy -check -top ranges
proc
flatten
async2sync
setundef -init -zero
rename ranges gold
design -stash gold
read_verilog {written}
hierarchy -check -top ranges
proc
flatten
setundef -init -zero
rename ranges gate
design -stash gate
design -copy-from gold -as gold gold
design -copy-from gate -as gate gate
miter -equiv -flatten gold gate miter
hierarchy -top miter
sat -verify -tempinduct-baseonly -maxsteps 8 -prove trigger 0 miter
"""


@dataclasses.dataclass(frozen=True)
class Refusal:
    """A design that is refused: what it is, its ports, its body, and the word; with more arguments, and another top module."""
    what: str
    ports: str
    body: str
    word: str
    more: tuple = ()
    top: str = 'top'


PLAIN = 'always @(posedge clk) q <= d;'
REFUSALS = [
    Refusal('two clocks', 'input clk, input clk2, input d, output reg q, output reg r',
            f'{PLAIN} always @(posedge clk2) r <= d;', 'SeveralClocks clk (rising), clk2 (rising)'),
    Refusal('two edges', 'input clk, input d, output reg q, output reg r',
            f'{PLAIN} always @(negedge clk) r <= d;', 'SeveralClocks clk (falling), clk (rising)'),
    Refusal('a clock that is no input', 'input clk, input d, output reg q',
            'reg half = 0; always @(posedge half) q <= d;', 'DerivedClock half'),
    Refusal('a clock that logic reads', 'input clk, input d, output reg q, output r',
            f'{PLAIN} assign r = clk & d;', 'ClockAsData clk'),
    Refusal('a latch', 'input clk, input d, output reg q, output reg r', f'{PLAIN} always @* if (clk) r = d;', 'Latch r'),
    Refusal('a memory without a clock', 'input clk, input [1:0] at, input d, output reg q',
            'reg m [0:3]; always @* m[at] = d; always @(posedge clk) q <= m[at];', 'Latch m'),
    Refusal('a memory of two clocks', 'input clk, input clk2, input [1:0] at, input d, output reg q',
            'reg m [0:3]; always @(posedge clk) begin m[at] <= d; q <= m[at]; end always @(posedge clk2) m[~at] <= d;',
            'Memory m'),
    Refusal('an asynchronous load', 'input clk, input load, input [1:0] d, output reg q',
            'always @(posedge clk or posedge load) if (load) q <= d[0]; else q <= d[1];', 'AsynchronousLoad q'),
    Refusal('a reset from a register', 'input clk, input d, output reg q',
            'reg r = 0; always @(posedge clk) r <= d; always @(posedge clk or posedge r) if (r) q <= 0; else q <= d;',
            'AsynchronousReset q'),
    Refusal('two drivers', 'input clk, input [1:0] d, output reg q',
            'wire u; assign u = d[0]; assign u = d[1]; always @(posedge clk) q <= u;', 'Drivers'),
    Refusal('a loop of gates', 'input clk, input d, output reg q',
            'wire a, b; assign a = ~(b & d); assign b = ~(a & q); always @(posedge clk) q <= a;', 'Loop a: gates read'),
    Refusal('a black box', 'input clk, input d, output q',
            'box u (.clk(clk), .d(d), .q(q)); endmodule (* blackbox *) module box(input clk, input d, output q);', 'Cell u'),
    Refusal('a tristate buffer', 'input clk, input d, output q',
            "reg r; always @(posedge clk) r <= d; assign q = d ? r : 1'bz;", 'Cell'),
    Refusal('an assertion', 'input clk, input d, output reg q', f'{PLAIN} always @* assert (q);', 'Yosys'),
    Refusal('names of one text', 'input clk, input [1:0] d, output reg [1:0] q, output reg \\q[0] ',
            'always @(posedge clk) begin q <= d; \\q[0] <= d[1]; end', 'Names'),
    Refusal('a port both ways', 'input clk, input d, inout q', 'reg r; assign q = r; always @(posedge clk) r <= d;', 'Inout q'),
    Refusal('no register', 'input clk, input d, output q', 'assign q = d;', 'NoRegister'),
    Refusal('no output', 'input clk, input d', '', 'NoOutput'),
    Refusal('a file that Yosys refuses', 'input clk, input d, output reg q', 'always @(posedge clk q <= d;', 'Yosys'),
    Refusal('a module that is missing', 'input clk, input d, output q', 'none u (.d(d), .q(q));', 'Yosys'),
    Refusal('a missing top', 'input clk, input d, output reg q', PLAIN, 'NoSuchTop other', top='other'),
    Refusal('another clock', 'input clk, input d, output reg q', PLAIN, 'NoSuchClock d', ('--clock', 'd')),
    Refusal('no such parameter', 'input clk, input d, output reg q', PLAIN, 'NoSuchParameter W', ('-P', 'W=3')),
    Refusal('no such register', 'input clk, input d, output reg q', PLAIN, 'NoSuchRegister none', ('--keep', 'none')),
]

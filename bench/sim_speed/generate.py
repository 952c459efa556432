"""A synthetic netlist from a seed, as a listing and as Verilog: registers, sums, products, comparisons, choices,
shifts, banks, and DRAMs with a load and a store unit each, in blocks of 1,000 cells. generate.py CELLS SEED LISTING VERILOG [LAST]

The listing is done in cycle LAST, by default in none that is ever reached. The Verilog text runs for as many cycles as
its argument +n says, and prints the words that stand then: those of the outputs, and a number for the words of each
DRAM. Channels are those of docs/netlists.md, with the delays below."""
import random
import sys

NEVER = 1 << 62
# The channels wait so long, in the order in which they ask, and those that ask later don't wait. The measuring program
# has the same list.
DELAYS = [7 * k % 20 for k in range(100)]
# Words of a bank, and of a DRAM.
BANK, DRAM = 64, 1024


class Circuit:
    def __init__(self, seed):
        self.random = random.Random(seed)
        self.net = 0
        self.lines = []
        self.wires = []
        self.edges = []
        self.starts = []
        self.recent = []
        self.kept = []
        self.bits = []
        self.banks = 0
        self.drams = 0
        self.channels = 0

    def fresh(self):
        self.net += 1
        return self.net - 1

    def word(self):
        """A word of the block, or now and then a register of any block so far."""
        return self.random.choice(self.kept if self.random.random() < 0.05 else self.recent[-200:])

    def bit(self):
        return self.random.choice(self.bits[-50:])

    def compute(self, width, line, value):
        net = self.fresh()
        self.lines.append(line.format(n=net))
        self.wires.append(f"wire [{width - 1}:0] n{net} = {value};")
        (self.bits if width == 1 else self.recent).append(net)
        return net

    def constant(self, width, word):
        return self.compute(width, f"const {{n}} {width} {word}", f"{width}'d{word}")

    def register(self):
        net = self.fresh()
        self.kept.append(net)
        self.recent.append(net)
        return net

    def close(self, net):
        first, following, enable = self.random.randrange(1 << 31), self.word(), self.bit()
        self.lines.append(f"reg {net} 32 {first} {following} {enable}")
        self.starts.append(f"reg [31:0] n{net} = 32'd{first};")
        self.edges.append(f"if (n{enable}) n{net} <= n{following};")

    def operation(self):
        a, b, c = self.word(), self.word(), self.bit()
        choose = self.random.random()
        if choose < 0.3:
            self.compute(32, f"op {{n}} s32.0 add {a} {b}", f"n{a} + n{b}")
        elif choose < 0.45:
            self.compute(32, f"op {{n}} s32.0 mul {a} {b}", f"n{a} * n{b}")
        elif choose < 0.55:
            self.compute(32, f"op {{n}} s32.0 sub {a} {b}", f"n{a} - n{b}")
        elif choose < 0.65:
            self.compute(1, f"op {{n}} s32.0 lt {a} {b}", f"$signed(n{a}) < $signed(n{b})")
        elif choose < 0.75:
            self.compute(32, f"op {{n}} s32.0 xor {a} {b}", f"n{a} ^ n{b}")
        elif choose < 0.8:
            places = self.random.randrange(1, 31)
            self.compute(32, f"shift {{n}} s32.0 shr {a} {places}", f"$signed(n{a}) >>> {places}")
        elif choose < 0.85:
            self.compute(32, f"not {{n}} s32.0 {a}", f"~n{a}")
        else:
            self.compute(32, f"mux {{n}} 32 {c} {a} {b}", f"n{c} ? n{a} : n{b}")

    def address(self, low):
        source = self.word()
        return self.compute(32, f"op {{n}} u32.0 and {source} {low}", f"n{source} & n{low}")

    def bank(self, low):
        number, self.banks = self.banks, self.banks + 1
        read = self.fresh()
        self.recent.append(read)
        address = self.address(low)
        enable, word = self.bit(), self.word()
        self.lines += [f"bank {number} 32 {BANK}", f"read {read} {number} 1 {address}", f"write {number} {enable} {address} {word}"]
        self.starts += [f"reg [31:0] m{number} [0:{BANK - 1}];", f"reg [31:0] n{read} = 0;"]
        self.starts.append(f"initial for (k = 0; k < {BANK}; k = k + 1) m{number}[k] = 0;")
        self.edges += [f"n{read} <= m{number}[n{address}[5:0]];", f"if (n{enable}) m{number}[n{address}[5:0]] <= n{word};"]

    def dram(self, steady):
        """A DRAM and its load unit; `close_store` adds its store unit."""
        number, self.drams = self.drams, self.drams + 1
        self.lines.append(f"dram {number} d{number} s32.0 {DRAM}")
        self.starts.append(f"reg [31:0] d{number} [0:{DRAM - 1}];")
        self.starts.append(f"initial for (k = 0; k < {DRAM}; k = k + 1) d{number}[k] = 0;")
        ready, word = self.fresh(), self.fresh()
        self.bits.append(ready)
        self.recent.append(word)
        last, address = self.stream(ready, steady)
        channel = self.channel(ready, steady.one, last, f"n{word} <= d{number}[n{address}[9:0]];")
        self.lines.append(f"load {channel} {number} {ready} {word} {steady.one} {last} {address}")
        self.starts.append(f"reg [31:0] n{word} = 0;")
        return number

    def close_store(self, number, steady):
        ready = self.fresh()
        last, address = self.stream(ready, steady)
        word = self.word()
        channel = self.channel(ready, steady.one, last, f"d{number}[n{address}[9:0]] <= n{word};")
        self.lines.append(f"store {channel} {number} {ready} {steady.one} {last} {address} {word}")

    def stream(self, ready, steady):
        """A count of words that are moved: the address of the next one, and whether it is the last of its line."""
        count = self.fresh()
        following = self.compute(32, f"op {{n}} u32.0 add {count} {steady.step}", f"n{count} + n{steady.step}")
        self.lines.append(f"reg {count} 32 0 {following} {ready}")
        self.starts.append(f"reg [31:0] n{count} = 32'd0;")
        self.edges.append(f"if (n{ready}) n{count} <= n{following};")
        place = self.compute(32, f"op {{n}} u32.0 and {count} {steady.low}", f"n{count} & n{steady.low}")
        last = self.compute(1, f"op {{n}} u32.0 eq {place} {steady.low}", f"n{place} == n{steady.low}")
        address = self.compute(32, f"op {{n}} u32.0 and {count} {steady.lower}", f"n{count} & n{steady.lower}")
        return last, address

    def channel(self, ready, request, last, move):
        """What a channel does at a clock edge: it moves a word in each cycle in which it is ready, and asks at a
        request and with each sixteenth word; then the next delay is taken."""
        number, self.channels = self.channels, self.channels + 1
        c = f"c{number}"
        self.starts += [f"reg n{ready} = 0;", f"reg {c}_busy = 0;", f"reg [3:0] {c}_moved = 0;", f"reg [7:0] {c}_wait = 0;"]
        ask = f"{c}_moved <= 0; wait_for = delay(taken); taken = taken + 1; n{ready} <= wait_for == 0; {c}_wait <= wait_for - 1;"
        self.edges += [
            f"if (n{ready}) begin",
            f"  {move}",
            f"  if (n{last}) begin n{ready} <= 0; {c}_busy <= 0; end",
            f"  else if ({c}_moved == 15) begin {ask} end",
            f"  else {c}_moved <= {c}_moved + 1;",
            "end",
            f"else if (!{c}_busy) begin if (n{request}) begin {c}_busy <= 1; {ask} end end",
            f"else if ({c}_wait == 0) n{ready} <= 1;",
            f"else {c}_wait <= {c}_wait - 1;",
        ]
        return number

    def block(self, size, until, steady):
        """Cells that compute from each other and from registers of other blocks, up to so many cells in all."""
        self.recent, self.bits = [], [steady.zero, steady.one]
        registers = [self.register() for _ in range(size // 5)]
        for _ in range(max(1, size // 100)):
            self.bank(steady.low)
        drams = [self.dram(steady) for _ in range(max(1, size // 500))]
        while len(self.lines) + len(registers) + STORE * len(drams) < until:
            self.operation()
        for net in registers:
            self.close(net)
        for number in drams:
            self.close_store(number, steady)

    def end(self, last, steady):
        """The listing is done in that cycle."""
        count = self.fresh()
        step = self.compute(64, "const {n} 64 1", "64'd1")
        limit = self.compute(64, f"const {{n}} 64 {last}", f"64'd{last}")
        following = self.compute(64, f"op {{n}} u64.0 add {count} {step}", f"n{count} + n{step}")
        done = self.compute(1, f"op {{n}} u64.0 eq {count} {limit}", f"n{count} == n{limit}")
        self.lines += [f"reg {count} 64 0 {following} {steady.one}", f"done {done}"]
        self.starts.append(f"reg [63:0] n{count} = 64'd0;")
        self.edges.append(f"n{count} <= n{following};")


class Steady:
    """Constants: both bits, 1, and what leaves the lowest bits of an address in a bank and in a DRAM."""

    def __init__(self, circuit):
        self.zero = circuit.constant(1, 0)
        self.one, self.step = circuit.constant(1, 1), circuit.constant(32, 1)
        self.low, self.lower = circuit.constant(32, BANK - 1), circuit.constant(32, DRAM - 1)


# The cells of a block. Those of a store unit with its stream, and of the end; the outputs.
BLOCK = 1000
STORE, END, OUTPUTS = 6, 6, 4


def circuit(cells, seed, last):
    made = Circuit(seed)
    steady = Steady(made)
    blocks = max(1, cells // BLOCK)
    for number in range(1, blocks + 1):
        until = cells * number // blocks
        made.block(cells // blocks, until if number < blocks else until - END - OUTPUTS, steady)
    shown = made.kept[:: len(made.kept) // OUTPUTS][:OUTPUTS]
    made.lines += [f"out y{place} {net} s32.0" for place, net in enumerate(shown)]
    made.end(last, steady)
    return made, shown


def bench(made, shown):
    """The circuit as a module that clocks itself and prints what stands in the end."""
    lines = ["module top;", "reg clk = 0;", "integer i, k, n, taken = 0;", "reg [7:0] wait_for;", "reg [63:0] sum;"]
    lines += ["function [7:0] delay(input integer place);", "  case (place)"]
    lines += [f"    {place}: delay = {word};" for place, word in enumerate(DELAYS)]
    lines += ["    default: delay = 0;", "  endcase", "endfunction"]
    lines += made.starts + made.wires + ["always @(posedge clk) begin"] + made.edges + ["end"]
    lines += ["initial begin", "  if (!$value$plusargs(\"n=%d\", n)) n = 1;"]
    lines.append("  for (i = 0; i < n; i = i + 1) begin #1 clk = 1; #1 clk = 0; end")
    lines += [f"  $display(\"out %0d\", n{net});" for net in shown]
    for number in range(made.drams):
        lines.append(f"  sum = 0; for (k = 0; k < {DRAM}; k = k + 1) sum = 3 * sum + d{number}[k];")
        lines.append(f"  $display(\"dram %0d\", sum);")
    return "\n".join(lines + ["  $finish(0);", "end", "endmodule", ""])


def main():
    cells, seed, listing, verilog = int(sys.argv[1]), int(sys.argv[2]), sys.argv[3], sys.argv[4]
    last = int(sys.argv[5]) if len(sys.argv) > 5 else NEVER
    made, shown = circuit(cells, seed, last)
    with open(listing, "w") as file:
        file.write("netlist 1\n" + "\n".join(made.lines) + "\n")
    with open(verilog, "w") as file:
        file.write(bench(made, shown))


main()

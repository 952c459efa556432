#!/usr/bin/env python3
"""Prints a test bench in Verilog for the module of a listing, driven as a setup says.

    checks/bench.py LISTING SETUP

The bench holds the reset for one cycle, drives the arguments and the channels, and ends in the first cycle in which
`done` is 1. Channels are those of docs/netlists.md: a delay for each burst of 16 words, taken in the order of time and
then of channels. It prints the lines that `simulate` prints, with words as unsigned numbers.
"""

import os
import sys
import tomllib
from fractions import Fraction


def type_of(code):
    """Sign, width and bits after the point."""
    if code == 'bit':
        return False, 1, 0
    whole, frac = code[1:].split('.')
    return code[0] == 's', int(whole) + int(frac), int(frac)


class Listing:
    """What a bench needs to know of a listing."""

    def __init__(self, text):
        self.args, self.outs, self.drams, self.banks, self.units = [], [], [], [], []
        for line in text.split('\n')[1:]:
            words = line.split(' ')
            if words[0] == 'in':
                self.args.append((words[1], type_of(words[3])))
            elif words[0] == 'out':
                self.outs.append((words[1], type_of(words[3])))
            elif words[0] == 'dram':
                size = 1
                for dim in words[4:]:
                    size *= int(dim)
                self.drams.append((words[2], type_of(words[3]), size))
            elif words[0] == 'bank':
                self.banks.append((int(words[1]), int(words[3])))
            elif words[0] in ('load', 'store'):
                self.units.append((int(words[1]), int(words[2]), words[0] == 'load'))


def word(text, kind):
    """The word of a number text, rounded down."""
    _, width, frac = kind
    value = Fraction('01'[text] if isinstance(text, bool) else str(text)) * (1 << frac)
    return (value.numerator // value.denominator) % (1 << width)


def stimuli(listing, setup):
    """The words of the arguments and DRAMs, the delays and the cycles of the setup in a file."""
    with open(setup, 'rb') as text:
        table = tomllib.load(text)
    args = [word(table['args'][arg], kind) for arg, kind in listing.args]
    drams = []
    for dram, kind, size in listing.drams:
        file = table.get('dram', {}).get(dram)
        if file is None:
            drams.append([0] * size)
        else:
            with open(os.path.join(os.path.dirname(setup), file), encoding='ascii') as cells:
                drams.append([word(cell.strip(), kind) for row in cells for cell in row.split(',')])
    return args, drams, table.get('delays', []), table.get('cycles', 1_000_000)


def port(name, width, kind):
    return f'  {kind} [{width - 1}:0] {name};'


def declarations(listing, args, drams, delays):
    lines = ['module bench;', '  reg clk = 0;', '  reg rst = 1;', '  integer cycle = 0;', '  integer i;',
             '  integer taken = 0;', f'  reg [31:0] delays [0:{max(len(delays), 1) - 1}];']
    ports = ['.clk(clk)', '.rst(rst)']
    for (name, (_, width, _)), word in zip(listing.args, args):
        lines.append(f"  wire [{width - 1}:0] in_{name} = {width}'d{word};")
        ports.append(f'.in_{name}(in_{name})')
    for name, (_, width, _) in listing.outs:
        lines.append(port(f'out_{name}', width, 'wire'))
        ports.append(f'.out_{name}(out_{name})')
    lines.append(port('done', 1, 'wire'))
    ports.append('.done(done)')
    for number, (_, (_, width, _), size) in enumerate(listing.drams):
        lines.append(f'  reg [{width - 1}:0] d{number} [0:{size - 1}];')
    for channel, dram, is_load in listing.units:
        width = listing.drams[dram][1][1]
        c = f'c{channel}'
        # wait: cycles until it is ready; moved: words since it last asked
        lines += [f'  reg [0:0] {c}_ready = 0;', f'  reg {c}_busy = 0;', f'  integer {c}_wait = 0;',
                  f'  integer {c}_moved = 0;', f'  reg {c}_asks;',
                  port(f'{c}_req', 1, 'wire'), port(f'{c}_last', 1, 'wire'), port(f'{c}_addr', 32, 'wire'),
                  f'  reg [{width - 1}:0] {c}_word = 0;' if is_load else port(f'{c}_word', width, 'wire')]
        ports += [f'.{c}_{p}({c}_{p})' for p in ('ready', 'word', 'req', 'last', 'addr')]
    lines.append(f'  spatial dut({", ".join(ports)});')
    lines.append('  initial begin')
    for bank, size in listing.banks:
        lines.append(f"    for (i = 0; i < {size}; i = i + 1) dut.b{bank}[i] = 0;")
    for number, words in enumerate(drams):
        width = listing.drams[number][1][1]
        lines += [f"    d{number}[{at}] = {width}'d{word};" for at, word in enumerate(words)]
    lines += [f"    delays[{at}] = 32'd{delay};" for at, delay in enumerate(delays)]
    lines.append('  end')
    return lines


def channel_step(channel, dram, is_load, listing, count):
    """What a channel does at the end of a cycle. Whether it asks is known first, its word moves with the others'."""
    c, size = f'c{channel}', listing.drams[dram][2]
    width = listing.drams[dram][1][1]
    lines = [f'      {c}_asks = 0;',
             f'      if ({c}_ready) begin',
             f'        {c}_moved = {c}_moved + 1;']
    if is_load:
        lines.append(f"        {c}_word <= ({c}_addr < 32'd{size}) ? d{dram}[{c}_addr] : {width}'d0;")
    else:
        lines.append(f"        if ({c}_addr < 32'd{size}) d{dram}[{c}_addr] <= {c}_word;")
    lines += [f'        if ({c}_last) begin {c}_busy = 0; {c}_ready <= 0; end',
              f'        else if ({c}_moved == 16) {c}_asks = 1;',
              f'      end else if (!{c}_busy) begin',
              f'        if ({c}_req) begin {c}_asks = 1; {c}_busy = 1; end',
              f'      end else begin',
              f'        if ({c}_wait == 0) {c}_ready <= 1; else {c}_wait = {c}_wait - 1;',
              f'      end',
              f'      if ({c}_asks) begin',
              f'        {c}_moved = 0;',
              f'        {c}_wait = (taken < {count}) ? delays[taken] : 0;',
              f'        taken = taken + 1;',
              f'        if ({c}_wait == 0) {c}_ready <= 1; else begin {c}_ready <= 0; {c}_wait = {c}_wait - 1; end',
              f'      end']
    return lines


def bench(listing, args, drams, delays, cycles):
    """The text of the bench. It prints a line for each output, each DRAM and the cycle, or that the cycles are spent."""
    lines = declarations(listing, args, drams, delays)
    lines += ['  always #5 clk = ~clk;', '  always @(posedge clk) begin', '    if (!rst) begin']
    for unit in listing.units:
        lines += channel_step(*unit, listing, len(delays))
    lines += ['    end', '  end', '  always @(negedge clk) begin', '    if (rst) rst = 0; else cycle = cycle + 1;',
              '    #1;', '    if (done === 1) begin']
    for name, _ in listing.outs:
        lines.append(f'      $display("out {name} %0d", out_{name});')
    for number, (name, _, size) in enumerate(listing.drams):
        lines += [f'      $write("dram {name}");',
                  f'      for (i = 0; i < {size}; i = i + 1) $write(" %0d", d{number}[i]);', '      $write("\\n");']
    lines += ['      $display("cycles %0d", cycle);', '      $finish(0);', '    end',
              f'    if (cycle >= {cycles}) begin $display("spent"); $finish(0); end', '  end', 'endmodule', '']
    return '\n'.join(lines)


def value_text(word, kind):
    """A word as its exact decimal."""
    sign, width, frac = kind
    value = Fraction(word - (1 << width) if sign and word >> (width - 1) else word, 1 << frac)
    text, rest = str(abs(value.numerator) // value.denominator), abs(value) % 1
    digits = ''
    while rest:
        rest *= 10
        digits += str(rest.numerator // rest.denominator)
        rest %= 1
    return ('-' if value < 0 else '') + text + ('.' + digits if digits else '')


def result_text(listing, printed):
    """The words that the bench printed, each as its number."""
    kinds = {('out', name): kind for name, kind in listing.outs}
    kinds.update({('dram', name): kind for name, kind, _ in listing.drams})
    lines = []
    for line in printed.splitlines():
        words = line.split(' ')
        if words[0] in ('out', 'dram'):
            kind = kinds[words[0], words[1]]
            words[2:] = [value_text(int(w), kind) for w in words[2:]]
        lines.append(' '.join(words))
    return '\n'.join(lines) + '\n'


def main():
    with open(sys.argv[1], encoding='ascii') as text:
        listing = Listing(text.read())
    print(bench(listing, *stimuli(listing, sys.argv[2])), end='')


if __name__ == '__main__':
    main()

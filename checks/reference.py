#!/usr/bin/env python3
"""Prints the Verilog text of a listing, by the patterns of docs/verilog.md: apart from the program, as its expected output.

    checks/reference.py LISTING
"""

import sys

from bench import type_of


def bits(width):
    return f'[{width - 1}:0]'


def sign(kind, net):
    return f'n{net}[{kind[1] - 1}]' if kind[0] else "1'd0"


def less(kind, a, b):
    bias = f"{kind[1]}'d{1 << (kind[1] - 1)}"
    return f'(n{a} ^ {bias}) < (n{b} ^ {bias})' if kind[0] else f'n{a} < n{b}'


def product(net, kind, a, b):
    _, w, f = kind
    return [f'wire {bits(2 * w)} n{net}_a = {{{{{w}{{{sign(kind, a)}}}}}, n{a}}};',
            f'wire {bits(2 * w)} n{net}_b = {{{{{w}{{{sign(kind, b)}}}}}, n{b}}};',
            f'wire {bits(2 * w)} n{net}_p = n{net}_a * n{net}_b;',
            f'assign n{net} = n{net}_p[{f + w - 1}:{f}];']


def magnitudes(net, kind, a, b):
    w = kind[1]
    return [f"wire {bits(w)} n{net}_{part} = {sign(kind, x)} ? ~n{x} + {w}'d1 : n{x};" for part, x in (('a', a), ('b', b))]


def quotient(net, kind, a, b):
    _, w, f = kind
    return magnitudes(net, kind, a, b) + [
        f"wire {bits(2 * w)} n{net}_x = {{{w}'d0, n{net}_a}} << 7'd{f};",
        f"wire {bits(2 * w)} n{net}_q = (n{b} == {w}'d0) ? {2 * w}'d0 : n{net}_x / {{{w}'d0, n{net}_b}};",
        f"assign n{net} = ({sign(kind, a)} ^ {sign(kind, b)}) ? ~n{net}_q{bits(w)} + {w}'d1 : n{net}_q{bits(w)};"]


def remainder(net, kind, a, b):
    w = kind[1]
    return magnitudes(net, kind, a, b) + [
        f"wire {bits(w)} n{net}_r = (n{b} == {w}'d0) ? n{net}_a : n{net}_a % n{net}_b;",
        f"assign n{net} = {sign(kind, a)} ? ~n{net}_r + {w}'d1 : n{net}_r;"]


SIGNS = {'add': '+', 'sub': '-', 'and': '&', 'or': '|', 'xor': '^', 'eq': '=='}
LONG = {'mul': product, 'div': quotient, 'rem': remainder}


def operator(net, kind, word, a, b):
    if word in SIGNS:
        return [f'assign n{net} = n{a} {SIGNS[word]} n{b};']
    if word in LONG:
        return LONG[word](net, kind, a, b)
    if word == 'lt':
        return [f'assign n{net} = {less(kind, a, b)};']
    first, second = (a, b) if word == 'min' else (b, a)
    return [f'assign n{net} = ({less(kind, a, b)}) ? n{first} : n{second};']


def shift(net, kind, word, a, places):
    w, k = kind[1], int(places)
    if word == 'shl':
        return [f"assign n{net} = n{a} << 6'd{k};"]
    if not kind[0]:
        return [f"assign n{net} = n{a} >> 6'd{k};"]
    ones = ((1 << min(k, w)) - 1) << (w - min(k, w))
    return [f"assign n{net} = (n{a} >> 6'd{k}) | ({sign(kind, a)} ? {w}'d{ones} : {w}'d0);"]


def cast(net, source, target, a):
    moved = target[2] - source[2]
    places = f"<< 7'd{moved}" if moved >= 0 else f">> 7'd{-moved}"
    return [f'wire [127:0] n{net}_e = {{{{{128 - source[1]}{{{sign(source, a)}}}}}, n{a}}};',
            f'wire [127:0] n{net}_t = n{net}_e {places};', f'assign n{net} = n{net}_t{bits(target[1])};']


class Module:
    """The parts of the text, cell by cell."""

    def __init__(self, cells):
        self.banks = {int(c[1]): (int(c[2]), int(c[3])) for c in cells if c[0] == 'bank'}
        self.drams = {int(c[1]): type_of(c[3])[1] for c in cells if c[0] == 'dram'}
        self.ports, self.nets, self.lines = ['input wire clk', 'input wire rst'], {}, []
        for cell in cells:
            getattr(self, 'cell_' + cell[0])(*cell[1:])

    def drive(self, net, width, lines, kind='wire'):
        self.nets[int(net)] = (kind, width)
        self.lines += lines

    def cell_in(self, name, net, code):
        width = type_of(code)[1]
        self.ports.append(f'input wire {bits(width)} in_{name}')
        self.drive(net, width, [f'assign n{net} = in_{name};'])

    def cell_out(self, name, net, code):
        self.ports.append(f'output wire {bits(type_of(code)[1])} out_{name}')
        self.lines.append(f'assign out_{name} = n{net};')

    def cell_done(self, net):
        self.ports.append('output wire [0:0] done')
        self.lines.append(f'assign done = n{net};')

    def cell_const(self, net, width, word):
        self.drive(net, int(width), [f"assign n{net} = {width}'d{word};"])

    def cell_op(self, net, code, word, a, b):
        kind = type_of(code)
        self.drive(net, 1 if word in ('lt', 'eq') else kind[1], operator(net, kind, word, a, b))

    def cell_not(self, net, code, a):
        self.drive(net, type_of(code)[1], [f'assign n{net} = ~n{a};'])

    def cell_shift(self, net, code, word, a, places):
        self.drive(net, type_of(code)[1], shift(net, type_of(code), word, a, places))

    def cell_cast(self, net, source, target, a):
        self.drive(net, type_of(target)[1], cast(net, type_of(source), type_of(target), a))

    def cell_mux(self, net, width, choice, a, b):
        self.drive(net, int(width), [f'assign n{net} = n{choice} ? n{a} : n{b};'])

    def cell_reg(self, net, width, first, following, enable):
        line = f"always @(posedge clk) if (rst) n{net} <= {width}'d{first}; else if (n{enable}) n{net} <= n{following};"
        self.drive(net, int(width), [line], 'reg')

    def cell_bank(self, *_):
        pass

    def cell_dram(self, *_):
        pass

    def cell_read(self, net, bank, enable, addr):
        width, size = self.banks[int(bank)]
        line = (f"always @(posedge clk) if (rst) n{net} <= {width}'d0; else if (n{enable}) "
                f"n{net} <= (n{addr} < 32'd{size}) ? b{bank}[n{addr}] : {width}'d0;")
        self.drive(net, width, [line], 'reg')

    def cell_write(self, bank, enable, addr, word):
        size = self.banks[int(bank)][1]
        self.lines.append(f"always @(posedge clk) if (!rst && n{enable} && n{addr} < 32'd{size}) b{bank}[n{addr}] <= n{word};")

    def asks(self, channel, request, last, addr):
        ports = [f'output wire [0:0] c{channel}_req', f'output wire [0:0] c{channel}_last', f'output wire [31:0] c{channel}_addr']
        return ports, [f'assign c{channel}_req = n{request};', f'assign c{channel}_last = n{last};', f'assign c{channel}_addr = n{addr};']

    def cell_load(self, channel, dram, ready, net, request, last, addr):
        width, (ports, lines) = self.drams[int(dram)], self.asks(channel, request, last, addr)
        self.ports += [f'input wire [0:0] c{channel}_ready', f'input wire {bits(width)} c{channel}_word', *ports]
        self.drive(ready, 1, [f'assign n{ready} = c{channel}_ready;'])
        self.drive(net, width, [f'assign n{net} = c{channel}_word;', *lines])

    def cell_store(self, channel, dram, ready, request, last, addr, word):
        width, (ports, lines) = self.drams[int(dram)], self.asks(channel, request, last, addr)
        self.ports += [f'input wire [0:0] c{channel}_ready', *ports, f'output wire {bits(width)} c{channel}_word']
        self.drive(ready, 1, [f'assign n{ready} = c{channel}_ready;', *lines, f'assign c{channel}_word = n{word};'])

    def text(self):
        lines = [f'{kind} {bits(width)} n{net};' for net, (kind, width) in sorted(self.nets.items())]
        lines += [f'reg {bits(width)} b{bank} [0:{size - 1}];' for bank, (width, size) in self.banks.items()]
        body = ''.join(f'  {line}\n' for line in lines + self.lines)
        return 'module spatial(\n  ' + ',\n  '.join(self.ports) + '\n);\n' + body + 'endmodule\n'


def main():
    with open(sys.argv[1], encoding='ascii') as listing:
        print(Module([line.split(' ') for line in listing.read().split('\n')[1:] if line]).text(), end='')


if __name__ == '__main__':
    main()

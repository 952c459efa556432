#!/usr/bin/env python3
"""Writes listings with setups for the crate verilog_runs: netlists of every kind of cell, from a seed.

    checks/generate.py FOLDER COUNT
"""

import os
import random
import sys


class Netlist:
    """Cells with a pool of nets by width. Nets are numbered as they are made."""

    def __init__(self, draw):
        self.draw, self.cells, self.pool, self.count = draw, [], {}, 0

    def net(self, width):
        number = self.count
        self.count += 1
        self.pool.setdefault(width, []).append(number)
        return number

    def add(self, *words):
        self.cells.append(' '.join(str(w) for w in words))

    def constant(self, width, word):
        number = self.net(width)
        self.add('const', number, width, word)
        return number

    def kind(self, width=None):
        """A type, of a width if one is given: its code, width and bits after the point."""
        width = width or self.draw.choice([1, 2, 7, 8, 16, 31, 32, 33, 48, 63, 64])
        if width == 1 and self.draw.random() < 0.5:
            return 'bit', 1, 0
        frac = self.draw.randint(0, width)
        return f'{self.draw.choice("su")}{width - frac}.{frac}', width, frac

    def of_width(self, width):
        """Some net of a width, cast from another one where there is none."""
        if width in self.pool:
            return self.draw.choice(self.pool[width])
        from_width = self.draw.choice(sorted(self.pool))
        source = self.draw.choice(self.pool[from_width])
        number = self.net(width)
        self.add('cast', number, self.kind(from_width)[0], self.kind(width)[0], source)
        return number

    def operation(self):
        draw = self.draw
        what = draw.choice(['op'] * 6 + ['not', 'shift', 'cast', 'mux', 'reg'])
        code, width, _ = self.kind()
        if what == 'op':
            word = draw.choice('add sub mul div rem and or xor min max lt eq'.split())
            a, b = self.of_width(width), self.of_width(width)
            self.add('op', self.net(1 if word in ('lt', 'eq') else width), code, word, a, b)
        elif what == 'not':
            a = self.of_width(width)
            self.add('not', self.net(width), code, a)
        elif what == 'shift':
            a = self.of_width(width)
            self.add('shift', self.net(width), code, draw.choice(['shl', 'shr']), a, draw.randint(0, 63))
        elif what == 'cast':
            to, to_width, _ = self.kind()
            a = self.of_width(width)
            self.add('cast', self.net(to_width), code, to, a)
        elif what == 'mux':
            choice, a, b = self.of_width(1), self.of_width(width), self.of_width(width)
            self.add('mux', self.net(width), width, choice, a, b)
        else:
            a, enable = self.of_width(width), self.of_width(1)
            self.add('reg', self.net(width), width, draw.getrandbits(width), a, enable)


def number_text(draw, code, width, frac):
    """A number of a type, as text."""
    word = draw.choice([0, 1, (1 << width) - 1, 1 << (width - 1), draw.getrandbits(width)])
    if code[0] == 's' and word >> (width - 1):
        word -= 1 << width
    sign, word = ('-' if word < 0 else ''), abs(word)
    digits = ''
    rest = word & ((1 << frac) - 1)
    for _ in range(frac):
        rest *= 10
        digits += str(rest >> frac)
        rest &= (1 << frac) - 1
    return sign + str(word >> frac) + ('.' + digits if digits else '')


def write(folder, name, seed):
    draw = random.Random(seed)
    net = Netlist(draw)
    args = []
    for k in range(draw.randint(1, 3)):
        code, width, frac = net.kind()
        net.add('in', f'x{k}', net.net(width), code)
        args.append((f'x{k}', number_text(draw, code, width, frac)))
    one, zero = net.constant(1, 1), net.constant(1, 0)
    step, limit = net.constant(32, 1), net.constant(32, draw.randint(3, 60))
    # a counter of cycles, which ends the run
    now, later, ends = net.net(32), net.net(32), net.net(1)
    net.add('reg', now, 32, 0, later, one)
    net.add('op', later, 'u32.0', 'add', now, step)
    net.add('op', ends, 'u32.0', 'eq', now, limit)
    net.add('done', ends)
    for _ in range(draw.randint(6, 14)):
        net.operation()
    for bank in range(draw.randint(0, 2)):
        code, width, _ = net.kind()
        size = draw.randint(1, 9)
        net.add('bank', bank, width, size)
        length = net.constant(32, size + draw.randint(0, 1))
        place = net.net(32)
        net.add('op', place, 'u32.0', 'rem', now, length)
        word, enable = net.of_width(width), net.of_width(1)
        net.add('write', bank, draw.choice([one, enable]), place, word)
        net.add('read', net.net(width), bank, draw.choice([one, enable]), draw.choice([place, net.of_width(32)]))
    drams, channel = [], 0
    for dram in range(draw.randint(0, 2)):
        code, width, frac = net.kind()
        size = draw.randint(1, 24)
        drams.append((f'd{dram}', [number_text(draw, code, width, frac) for _ in range(size)]))
        net.add('dram', dram, f'd{dram}', code, size)
        length, burst = net.constant(32, size), net.constant(32, draw.choice([2, 5, 18, 40]))
        place, beat, last = net.net(32), net.net(32), net.net(1)
        net.add('op', place, 'u32.0', 'rem', now, length)
        net.add('op', beat, 'u32.0', 'rem', now, burst)
        net.add('op', last, 'u32.0', 'eq', beat, step)
        ready, loaded = net.net(1), net.net(width)
        net.add('load', channel, dram, ready, loaded, one, last, place)
        word = net.of_width(width)
        net.add('store', channel + 1, dram, net.net(1), draw.choice([one, last]), last, place, word)
        channel += 2
    for _ in range(draw.randint(4, 10)):
        net.operation()
    for k in range(draw.randint(1, 3)):
        width = draw.choice(sorted(net.pool))
        net.add('out', f'y{k}', draw.choice(net.pool[width]), net.kind(width)[0])
    delays = [draw.randint(0, 6) for _ in range(draw.randint(0, 5))]
    with open(os.path.join(folder, f'{name}.net'), 'w') as out:
        out.write('\n'.join(['netlist 1', *net.cells, '']))
    with open(os.path.join(folder, f'{name}.toml'), 'w') as out:
        out.write(f'cycles = 1000\ndelays = {delays}\n[args]\n')
        out.write(''.join(f'{k} = "{v}"\n' for k, v in args))
        if drams:
            out.write('[dram]\n' + ''.join(f'{k} = "{name}_{k}.csv"\n' for k, _ in drams))
    for k, words in drams:
        with open(os.path.join(folder, f'{name}_{k}.csv'), 'w') as out:
            out.write('\n'.join(words) + '\n')


def main():
    folder, count = sys.argv[1], int(sys.argv[2])
    os.makedirs(folder, exist_ok=True)
    for seed in range(count):
        write(folder, f'n{seed:02}', seed)


if __name__ == '__main__':
    main()

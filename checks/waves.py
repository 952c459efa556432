#!/usr/bin/env python3
"""Compares the dumps that `waves` prints with those that Icarus Verilog writes of the same circuits, where it is installed.

Each listing of crates/verilog_runs is run by the built program, and its Verilog text in Icarus Verilog beside a bench.
In every cycle of the first dump each of its variables must have the value that it has in the second. Where GTKWave is
installed, its vcd2fst must read the first dump.
"""

import os
import shutil
import sys
import tempfile

import bench
import verilog

PROGRAM = os.path.join(verilog.HERE, '..', 'crates', 'spatialc', 'out', 'spatialc')

# in a bench the clock rises at 5 ns, and the reset is let go in cycle 0 of the netlist, which begins at 10 ns and ends
# with the next edge
BENCH_BEGINS = 10
PERIOD = 10
SETTLED = 3


class Dump:
    """The variables of a value change dump by their names, and the values that they take, in the order of time."""

    def __init__(self, text):
        self.widths, self.changes, self.last = {}, {}, 0
        self.names = {}
        words = iter(text.split())
        for word in words:
            if word == '$var':
                _, width, key, name = (next(words) for _ in range(4))
                self.widths[name] = int(width)
                self.names.setdefault(key, []).append(name)
            elif word.startswith('#'):
                self.last = int(word[1:])
            elif word[0] in 'bB':
                self.set(next(words), word[1:])
            elif word[0] in '01xz' and word[1:] in self.names:
                self.set(word[1:], word[0])
            elif word in ('$comment', '$date', '$version', '$timescale', '$scope'):
                while next(words) != '$end':
                    pass

    def set(self, key, digits):
        for name in self.names[key]:
            self.changes.setdefault(name, []).append((self.last, digits))

    def at(self, name, times):
        """The variable's values at these times, which ascend: numbers, or None where a digit is unknown."""
        changes, at, now = self.changes.get(name, []), 0, 'x'
        for time in times:
            while at < len(changes) and changes[at][0] <= time:
                now = changes[at][1]
                at += 1
            yield None if set(now) - {'0', '1'} else int(now, 2)


def icarus_dump(name, text, folder):
    """The dump of the Verilog text of a listing, or what went wrong."""
    data = os.path.join(verilog.RUNS, 'data', name)
    with open(data + '.net', encoding='ascii') as lines:
        listing = bench.Listing(lines.read())
    dumped = '  initial begin $dumpfile("icarus.vcd"); $dumpvars(1, dut); end\nendmodule'
    with open(os.path.join(folder, 'spatial.v'), 'w', encoding='ascii') as out:
        out.write(text)
    with open(os.path.join(folder, 'bench.v'), 'w', encoding='ascii') as out:
        out.write(bench.bench(listing, *bench.stimuli(listing, data + '.toml')).replace('endmodule', dumped))
    said = verilog.output_of(['iverilog', '-g2005', '-o', 'run', 'bench.v', 'spatial.v'], folder)
    said += verilog.output_of(['vvp', '-n', 'run'], folder) if not said else ''
    path = os.path.join(folder, 'icarus.vcd')
    if not os.path.exists(path):
        return None, said
    with open(path, encoding='ascii') as dump:
        return Dump(dump.read()), ''


def first_difference(ours, theirs):
    """The first variable, in the order of the dump, that differs in a cycle; '' where none does."""
    cycles = ours.last // PERIOD + 1
    for name, width in ours.widths.items():
        if name == 'clk':
            continue
        if theirs.widths.get(name) != width:
            return f'{name} has {width} bits, and {theirs.widths.get(name)} in Icarus Verilog'
        here = ours.at(name, (PERIOD * t for t in range(cycles)))
        there = theirs.at(name, (BENCH_BEGINS + PERIOD * t + SETTLED for t in range(cycles)))
        for cycle, (one, other) in enumerate(zip(here, there)):
            if one is None or one != other:
                return f'{name} is {one} in cycle {cycle}, and {other} in Icarus Verilog'
    return ''


def compared(name, text, folder):
    data = os.path.join(verilog.RUNS, 'data')
    dump = verilog.output_of([os.path.abspath(PROGRAM), 'waves', name + '.net', name + '.toml'], data)
    if dump.startswith('status'):
        return dump
    with open(os.path.join(folder, 'ours.vcd'), 'w', encoding='ascii') as out:
        out.write(dump)
    theirs, said = icarus_dump(name, text, folder)
    return said if theirs is None else first_difference(Dump(dump), theirs)


def converted(folder):
    said = verilog.output_of(['vcd2fst', 'ours.vcd', 'ours.fst'], folder)
    return said if said.startswith('status') or not os.path.getsize(os.path.join(folder, 'ours.fst')) else ''


def main():
    if not os.path.exists(PROGRAM) or not shutil.which('iverilog'):
        print('dumps: not compared, since the program is not built or Icarus Verilog is not installed')
        return 0
    passed = failed = 0
    for name, _, text in verilog.sections():
        with tempfile.TemporaryDirectory() as folder:
            checks = {'iverilog': lambda: compared(name, text, folder)}
            if shutil.which('vcd2fst'):
                checks['vcd2fst'] = lambda: converted(folder)
            for tool, check in checks.items():
                wrong = check()
                passed, failed = passed + (not wrong), failed + bool(wrong)
                if wrong:
                    print(f'dump of {name}, {tool}: {wrong}')
    print('dumps of the listings of verilog_runs:')
    print(f'{passed} passed, {failed} failed')
    return 1 if failed else 0


if __name__ == '__main__':
    sys.exit(main())

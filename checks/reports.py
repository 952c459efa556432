#!/usr/bin/env python3
"""Asks the built program for the reports of small programs, and of the examples.

    checks/reports.py [PROGRAM]

Of each small program some lines of its report are known by hand, from the rules of banks, times and slots. The reports
of the examples stand in docs/example_reports.md, and the program must print them as they stand there. A program without
the command is passed over.
"""

import os
import re
import subprocess
import sys
import tempfile

HERE = os.path.dirname(os.path.abspath(__file__))
ROOT = os.path.join(HERE, '..')
EXAMPLES = os.path.join(ROOT, 'examples')
PAGE = os.path.join(ROOT, 'docs', 'example_reports.md')
PROGRAM = os.path.join(ROOT, 'crates', 'spatialc', 'out', 'spatialc')

NO_COMMAND = 2


def block(*lines, ports=()):
    return '\n'.join([*ports, 'Accel {', *('  ' + line for line in lines), '}', ''])


# Two vectors of 64 words, in tiles: the tiles of one group are loaded while those of the group before are multiplied,
# and the sums are added a group later still.
INNER_PRODUCT = '''val a = DRAM[Int](64)
val b = DRAM[Int](64)
val y = ArgOut[Int]
Accel {
  val acc = Reg[Int](0)
  Reduce(acc)(64 by 16){ t =>
    val ta = SRAM[Int](16)
    val tb = SRAM[Int](16)
    ta load a(t::t + 16%s)
    tb load b(t::t + 16)
    val part = Reg[Int](0)
    Reduce(part)(16 by 1 par 4){ i => ta(i) * tb(i) }{_ + _}
    part
  }{_ + _}
  y := acc
}
'''
INNER_PRODUCT_LINES = [
    'mem 0 acc depth 1',
    'mem 1 ta banks 4 block 1 alpha 1 hinge 0 depth 3 duplicates 1',
    'mem 2 tb banks 4 block 1 alpha 1 hinge 0 depth 2 duplicates 1',
    'mem 3 part depth 2',
    'ctl 1 outer slots 0 1 2 3',
]

# (name, text, lines of the report, and parts of lines)
ROWS = [
    ('inner product', INNER_PRODUCT % '', INNER_PRODUCT_LINES, []),
    ('inner product, a load of four lanes', INNER_PRODUCT % ' par 4', INNER_PRODUCT_LINES, []),
    (
        # The count of a value is read before that of the value before it is written: 2 + 1 + 1 cycles.
        'histogram',
        block(
            'val s = SRAM[Int](8)',
            'val h = SRAM[Int](4)',
            's load a(0::8)',
            'Foreach(4 by 1){ j => h(j) = 0 }',
            'Foreach(8 by 1){ i =>',
            '  val v = s(i)',
            '  h(v) = h(v) + 1',
            '}',
            'c(0::4) store h',
            ports=('val a = DRAM[Int](8)', 'val c = DRAM[Int](4)'),
        ),
        ['ctl 3 inner ii 4 latency 6', 'mem 1 h banks 1 block 1 alpha 0 hinge 0 depth 1 duplicates 2'],
        [],
    ),
    (
        # Each lane reads what the lane before it writes.
        'lanes that meet at once',
        block('val s = SRAM[Int](8)', 's(0) = 0', 'Foreach(1 until 8 par 4){ i => s(i) = s(i - 1) + 1 }'),
        [],
        ['ctl 2 inner serial'],
    ),
    (
        # Each lane reads what was written in the group before.
        'lanes that meet a group later',
        block(
            'val s = SRAM[Int](16)',
            'Foreach(4 by 1){ i => s(i) = 0 }',
            'Foreach(4 until 16 par 4){ i => s(i) = s(i - 4) + 1 }',
        ),
        [],
        ['ctl 2 inner ii 4', 'mem 0 s banks 4 block 1 alpha 1'],
    ),
    (
        # Rows are written side by side, columns are read so.
        'transposed',
        block(
            'val m = SRAM[Int](4, 4)',
            'val o = SRAM[Int](16)',
            'Foreach(4 by 1, 4 by 1 par 4){ (i, j) => m(i, j) = i * 4 + j }',
            'Foreach(4 by 1, 4 by 1 par 4){ (j, i) => o(j * 4 + i) = m(i, j) }',
            'c(0::16) store o',
            ports=('val c = DRAM[Int](16)',),
        ),
        ['mem 0 m banks 4 block 1 alpha 1 1 hinge 0 depth 1 duplicates 1'],
        [],
    ),
    (
        'two reads, two apart',
        block(
            'val s = SRAM[Int](8)',
            'val o = SRAM[Int](6)',
            'Foreach(8 by 1){ i => s(i) = i }',
            'Foreach(6 by 1){ i => o(i) = s(i) + s(i + 2) }',
        ),
        [],
        ['mem 0 s banks 2 block 2 alpha 1 hinge 0'],
    ),
    (
        'three reads, two apart each',
        block(
            'val s = SRAM[Int](8)',
            'val o = SRAM[Int](4)',
            'Foreach(8 by 1){ i => s(i) = i }',
            'Foreach(4 by 1){ i => o(i) = s(i) + s(i + 2) + s(i + 4) }',
        ),
        [],
        ['mem 0 s banks 3 block 1 alpha 1 hinge 0'],
    ),
    (
        # Nothing is known of where the lanes read.
        'reads at places that are read',
        block(
            'val t = SRAM[Int](8)',
            'val p = SRAM[Int](8)',
            'val o = SRAM[Int](8)',
            't load a(0::8)',
            'p load b(0::8)',
            'Foreach(8 by 1 par 4){ i => o(i) = t(p(i)) }',
            ports=('val a = DRAM[Int](8)', 'val b = DRAM[Int](8)'),
        ),
        ['mem 0 t serial depth 1 duplicates 1'],
        [],
    ),
    (
        # The register of one group would be overwritten by the next one.
        'a register outside',
        block(
            'val r = Reg[Int](0)',
            'val s = SRAM[Int](4)',
            'Foreach(4 by 1){ i =>',
            '  Pipe { r := i }',
            '  Pipe { s(i) = r + 10 }',
            '}',
        ),
        [],
        ['outer slots 0 0'],
    ),
    (
        'two loops, one after the other',
        block(
            'val s = SRAM[Int](100)',
            'val o = SRAM[Int](100)',
            'Foreach(100 by 1){ i => s(i) = i }',
            'Foreach(100 by 1){ i => o(i) = s(i) + 1 }',
            'y := o(99)',
            ports=('val y = ArgOut[Int]',),
        ),
        ['ctl 1 inner ii 1 latency 1', 'ctl 2 inner ii 1 latency 4'],
        [],
    ),
    (
        # The next tile is loaded while this one is stored.
        'a copy by tiles',
        block(
            'Foreach(64 by 16){ t =>',
            '  val s = SRAM[Int](16)',
            '  s load a(t::t + 16)',
            '  b(t::t + 16) store s',
            '}',
            ports=('val a = DRAM[Int](64)', 'val b = DRAM[Int](64)'),
        ),
        ['mem 0 s banks 1 block 1 alpha 0 hinge 0 depth 2 duplicates 1', 'ctl 1 outer slots 0 1'],
        [],
    ),
    (
        'seventeen words at once',
        block(
            'val s = SRAM[Int](17)',
            'val o = SRAM[Int](16)',
            'Foreach(17 by 1){ i => s(i) = i }',
            'Foreach(16 by 1 par 16){ i => o(i) = s(i) + s(i + 1) }',
        ),
        [],
        ['mem 0 s banks 17 block 1 alpha 1 hinge 0'],
    ),
]


def report(program, text):
    with tempfile.TemporaryDirectory() as folder:
        with open(os.path.join(folder, 'P'), 'w', encoding='utf-8') as file:
            file.write(text)
        done = subprocess.run([program, 'report', 'P'], cwd=folder, stdout=subprocess.PIPE, timeout=120)
    return done.returncode, done.stdout.decode()


def faults_of(program, row):
    name, text, lines, parts = row
    status, out = report(program, text)
    if status:
        return [f'{name}: status {status}, {out!r}']
    have = out.splitlines()
    faults = [f'{name}: no line {line!r}' for line in lines if line not in have]
    return faults + [f'{name}: no line with {part!r}' for part in parts if not any(part in line for line in have)]


def page_faults(program):
    """The blocks of the page are headed by the example's name."""
    with open(PAGE, encoding='utf-8') as file:
        blocks = dict(re.findall(r'^## `(\w+)\.spatial`$.*?^```\n(.*?)^```$', file.read(), re.M | re.S))
    names = sorted(name[:-8] for name in os.listdir(EXAMPLES) if name.endswith('.spatial'))
    faults = [f'{name}: no report on the page' for name in names if name not in blocks]
    for name, wanted in blocks.items():
        with open(os.path.join(EXAMPLES, name + '.spatial'), encoding='utf-8') as file:
            status, out = report(program, file.read())
        if (status, out) != (0, wanted):
            faults.append(f'{name}: status {status}, the report differs from the page')
    return len(blocks), faults


def main():
    program = os.path.abspath(sys.argv[1] if len(sys.argv) > 1 else PROGRAM)
    if not os.path.exists(program):
        print('reports: passed over, the program is not built')
        return 0
    if report(program, ROWS[0][1])[0] == NO_COMMAND:
        print('reports: passed over, the program has no such command')
        return 0
    faults = [fault for row in ROWS for fault in faults_of(program, row)]
    count, differ = page_faults(program)
    for fault in faults + differ:
        print(fault)
    print(f'reports: {len(ROWS)} programs and {count} examples, {len(faults) + len(differ)} faults')
    return 1 if faults + differ else 0


if __name__ == '__main__':
    sys.exit(main())

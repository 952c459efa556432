#!/usr/bin/env python3
"""Runs the kernels of examples/ and compares them with what they are meant to compute.

    checks/kernels.py [--expected NAME]

The result of each kernel is computed here from its setup and CSV files, apart from the program, with the turns that a
run takes. Where the compiler is built, `check` must say ok of each kernel, `format` must print it as it stands but for
comments, and `seq` must print the result; a program without `seq` is asked for the first two. `run` must leave the same words, where
the kernel can be compiled. With --expected the result of one kernel is printed.
"""

import csv
import math
import os
import re
import shutil
import subprocess
import sys
import tempfile
import tomllib
import zlib
from fractions import Fraction

HERE = os.path.dirname(os.path.abspath(__file__))
EXAMPLES = os.path.join(HERE, '..', 'examples')
PROGRAM = os.path.join(HERE, '..', 'crates', 'spatialc', 'out', 'spatialc')

NO_COMMAND = 2
UNBUILT = 15


def loop(iterations, body):
    """The turns of a loop, by those of its body."""
    return 1 + iterations * (1 + body)


def transfer(words):
    return 1 + words


def rows_of(words, width):
    return [words[at:at + width] for at in range(0, len(words), width)]


def flat(rows):
    return [word for row in rows for word in row]


def inner(xs, ys):
    return sum(x * y for x, y in zip(xs, ys))


# Each kernel takes its arguments and the words of its DRAMs, as whole numbers, and gives the outputs and the DRAMs that
# it writes, and its turns: one for the block, and those of its statements.

def dot(a, b):
    tile = 2 + 2 * transfer(16) + loop(16, 0)
    return {'product': inner(a, b)}, 1 + 1 + loop(4, tile) + 1


def distance(a, b):
    tile = 2 + 1 + 2 * transfer(16) + loop(16, 0)
    return {'apart': sum(abs(x - y) for x, y in zip(a, b))}, 1 + 1 + loop(4, tile) + 1


def axpy(scale, a, b):
    tile = 3 + 1 + 2 * transfer(16) + loop(16, 1) + transfer(16)
    return {'sums': [scale * x + y for x, y in zip(a, b)]}, 1 + loop(4, tile)


def matrix(a, b):
    columns = list(zip(*rows_of(b, 16)))
    tile = 3 + 1 + 2 * transfer(128) + loop(256, 1 + loop(8, 0) + 1) + 256
    return {'c': [inner(row, column) for row in rows_of(a, 32) for column in columns]}, 1 + 1 + loop(4, tile) + transfer(256)


def transpose(a):
    tile = 2 + 2 * transfer(64) + loop(64, 1)
    return {'b': flat(zip(*rows_of(a, 16)))}, 1 + loop(6, tile)


def histogram(words):
    tile = 1 + transfer(64) + loop(64, 2)
    return {'counts': [words.count(bin) for bin in range(16)]}, 1 + 1 + loop(16, 1) + loop(8, tile) + transfer(16)


def prefix_sum(words):
    sums = [sum(words[:count]) for count in range(1, 129)]
    tile = 2 + 2 * transfer(16) + loop(16, 2)
    return {'sums': sums, 'total': sums[-1]}, 1 + 1 + loop(8, tile) + 1


def fir(taps, frames):
    channels = list(zip(*rows_of(frames, 16)))
    filtered = [inner(taps, channel[frame + 3::-1]) for frame in range(29) for channel in channels]
    frame = 1 + transfer(16) + loop(16, 1 + loop(4, 0) + 1) + transfer(16)
    return {'filtered': filtered}, 1 + 2 + transfer(4) + loop(3, transfer(16)) + loop(29, frame)


def convolution(mask, image):
    rows = rows_of(image, 16)

    def at(row, column):
        return inner(mask, flat(under[column:column + 3] for under in rows[row:row + 3]))

    row = 1 + loop(14, 1 + loop(9, 0) + 1) + transfer(14)
    turns = 1 + 2 + transfer(9) + loop(16, transfer(16) + 1) + 14 * row
    return {'result': [at(row, column) for row in range(14) for column in range(14)]}, turns


def power(samples):
    turns = 1 + 2 + transfer(64) + 1 + 1 + loop(64, 2) + loop(32, 1) + transfer(32)
    return {'powers': [re * re + im * im for re, im in rows_of(samples, 2)]}, turns


def gcd(a, b):
    steps, rest = 0, (a, b)
    while rest[1]:
        steps, rest = steps + 1, (rest[1], rest[0] % rest[1])
    return {'divisor': math.gcd(a, b), 'steps': steps}, 1 + 3 + 1 + loop(steps, 3) + 2


def biquad(b0, b1, b2, a1, a2, samples):
    def product(x, y):
        return x * y >> 28

    x, y, filtered = [0, 0], [0, 0], []
    for sample in samples:
        x.append(sample << 14)
        y.append(product(b0, x[-1]) + product(b1, x[-2]) + product(b2, x[-3]) - product(a1, y[-1]) - product(a2, y[-2]))
        filtered.append(y[-1] >> 14)
    tile = 2 + 2 * transfer(16) + loop(16, 7)
    return {'filtered': filtered}, 1 + 4 + loop(4, tile)


def sparse(columns, words, vector):
    product = [sum(word * vector[column] for column, word in zip(*row))
               for row in zip(rows_of(columns, 4), rows_of(words, 4))]
    row = 4 + 3 * transfer(4) + loop(4, 0) + 1
    return {'product': product}, 1 + 1 + loop(16, row) + transfer(16)


def pooling(image):
    rows = rows_of(image, 16)
    pooled = [max(flat(line[column:column + 2] for line in rows[row:row + 2])) for row in range(0, 16, 2) for column in range(0, 16, 2)]
    row = 2 + transfer(32) + loop(8, 1 + loop(4, 0) + 1) + transfer(8)
    return {'pooled': pooled}, 1 + loop(8, row)


def sort(words):
    turns = 1 + 2 + transfer(64) + loop(64, 1 + loop(64, 2) + 1) + transfer(64)
    return {'sorted': sorted(words)}, turns


def crc(text):
    turns = 1 + 2 + transfer(64) + 1 + loop(64, 1 + loop(8, 1)) + 1
    return {'crc': zlib.crc32(bytes(text))}, turns


def sieve(n):
    primes = [p for p in range(2, 64) if all(p % q for q in range(2, p))]
    turns = 1 + 1 + loop(64, 1) + loop(6 * 30, 2) + 1 + loop(64, 0) + 2
    return {'primes': len(primes), 'is_prime': int(n in primes)}, turns


def window(seed):
    words = [seed]
    for _ in range(200):
        words.append((words[-1] * 75 + 74) % 65537)
    sums = [sum(words[max(1, end - 7):end + 1]) for end in range(1, 201)]
    turns = 1 + 1 + loop(8, 1) + 3 + 1 + loop(200, 4) + 2
    return {'greatest': max(sums), 'last': sums[-1]}, turns


def spread(seed):
    words = [seed]
    for _ in range(32 * 16):
        words.append((words[-1] * 75 + 74) % 65537)
    blocks = [words[1 + 16 * block:17 + 16 * block] for block in range(32)]
    spreads = [max(block) - min(block) for block in blocks]
    turns = 1 + 3 + 1 + loop(32, 3 + loop(16, 2) + loop(16, 3) + 1 + 3) + 2
    return {'widest': max(spreads), 'number': spreads.index(max(spreads))}, turns


KERNELS = [dot, distance, axpy, matrix, transpose, histogram, prefix_sum, fir, convolution, pooling, power, gcd, biquad, sparse, sort, crc, sieve, window, spread]


def text_of(name):
    with open(os.path.join(EXAMPLES, name), encoding='ascii') as text:
        return text.read()


class Type:
    """The type of a port: its words are whole numbers, divided by 2 to the fraction bits."""

    def __init__(self, signed, whole, frac):
        self.signed, self.width, self.frac = signed, whole + frac, frac

    def wrapped(self, number):
        least = -2 ** (self.width - 1) if self.signed else 0
        return (number - least) % 2 ** self.width + least

    def word_of(self, number):
        word = math.floor(Fraction(str(number).strip()) * 2 ** self.frac)
        if word != self.wrapped(word):
            raise ValueError(f'{number} is out of range')
        return word

    def text_of(self, number):
        """The exact decimal of a whole number, wrapped to a word."""
        word = self.wrapped(number)
        digits = str(abs(word) * 5 ** self.frac).rjust(self.frac + 1, '0')
        whole, fraction = digits[:len(digits) - self.frac], digits[len(digits) - self.frac:].rstrip('0')
        return ('-' if word < 0 else '') + whole + ('.' + fraction if fraction else '')


def ports_of(text):
    """The arguments, outputs and DRAMs of a program: kind, name, type and number of words of each."""
    for name, kind, sign, whole, frac, dims in re.findall(
            r'^val (\w+) = (ArgIn|ArgOut|DRAM)\[(?:Int|FixPt\[(TRUE|FALSE),_(\d+),_(\d+)\])\](?:\((.*)\))?', text, re.M):
        size = math.prod(map(int, dims.split(', '))) if dims else 1
        yield kind, name, Type(sign != 'FALSE', int(whole or 32), int(frac or 0)), size


def expected(kernel):
    """What `seq` prints of a kernel."""
    ports = list(ports_of(text_of(kernel.__name__ + '.spatial')))
    setup = tomllib.loads(text_of(kernel.__name__ + '.toml'))
    held, given, lines = {}, {}, []
    for kind, name, ty, size in ports:
        if kind == 'ArgIn':
            given[name] = ty.word_of(setup['args'][name])
        elif kind == 'DRAM':
            held[name] = [0] * size
            if name in setup['dram']:
                cells = flat(csv.reader(text_of(setup['dram'][name]).splitlines()))
                held[name] = given[name] = [ty.word_of(cell) for cell in cells]
    left, turns = kernel(**given)
    for kind, name, ty, _ in ports:
        if kind == 'ArgOut':
            lines.append(f'out {name} {ty.text_of(left[name])}')
    for kind, name, ty, size in ports:
        if kind == 'DRAM':
            words = left.get(name, held[name])
            if len(words) != size:
                raise ValueError(f'{name} has {len(words)} words, not {size}')
            lines.append(' '.join(['dram', name, *map(ty.text_of, words)]))
    return '\n'.join([*lines, f'turns {turns}', ''])


def plain(text):
    """A program without comments and line ends, its numbers in decimal and without a type of fractions behind them."""
    text = re.sub(r'//.*', '', text)
    text = re.sub(r'\b0x[0-9A-Fa-f]+', lambda number: str(int(number[0], 16)), text)
    return ' '.join(re.sub(r'(\d)\.to\[FixPt[^]]*\]\]', r'\1', text).split())


def call(*words, folder=EXAMPLES):
    done = subprocess.run([PROGRAM, *words], cwd=folder, capture_output=True, text=True, check=False)
    return done.returncode, done.stdout


def call_apart(*words):
    """As call, where the command writes a file: in a folder that goes again."""
    with tempfile.TemporaryDirectory() as folder:
        for file in os.listdir(EXAMPLES):
            if os.path.isfile(os.path.join(EXAMPLES, file)):
                shutil.copy(os.path.join(EXAMPLES, file), folder)
        return call(*words, folder=folder)


def words_left(result):
    """A result without its last line, which has the turns or the cycles."""
    return result.splitlines()[:-1]


def faults_of(kernel):
    """What the program answers of a kernel and shouldn't."""
    name = kernel.__name__
    source, setup = name + '.spatial', name + '.toml'
    if call('check', source) != (0, 'ok\n'):
        yield f'check: {call("check", source)}'
    status, printed = call('format', source)
    if (status, plain(printed)) != (0, plain(text_of(source))):
        yield f'format: {status} {printed}'
    status, printed = call('seq', source, setup)
    if status != NO_COMMAND and (status, printed) != (0, expected(kernel)):
        yield f'seq: {status} {printed}for\n{expected(kernel)}'
    status, printed = call_apart('run', source, setup)
    if status not in (NO_COMMAND, UNBUILT) and (status, words_left(printed)) != (0, words_left(expected(kernel))):
        yield f'run: {status} {printed}for\n{expected(kernel)}'


def main():
    if sys.argv[1:2] == ['--expected']:
        sys.stdout.write(expected({kernel.__name__: kernel for kernel in KERNELS}[sys.argv[2]]))
        return 0
    failed = 0
    if not os.path.exists(PROGRAM):
        for kernel in KERNELS:
            expected(kernel)
        print('Kernels: the compiler is not built, so they were not run')
        return 0
    for kernel in KERNELS:
        wrong = list(faults_of(kernel))
        failed += bool(wrong)
        for fault in wrong:
            print(f'{kernel.__name__}, {fault}')
    runs = 'checked and printed, but not run, since the compiler has no seq' if call('seq', 'dot.spatial', 'dot.toml')[0] == NO_COMMAND else 'checked, printed and run'
    print(f'Kernels, {runs}: {len(KERNELS)} of them, {failed} failed')
    return 1 if failed else 0


if __name__ == '__main__':
    sys.exit(main())

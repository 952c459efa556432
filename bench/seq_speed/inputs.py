#!/usr/bin/env python3
"""Writes the setups of the programs beside this script, the files of their DRAMs, and what each run leaves.

    bench/seq_speed/inputs.py FOLDER

Beside NAME.toml stands NAME.expected: the lines of `seq` for the outputs and for the DRAM that the program writes, and
how many turns the run takes.
"""

import os
import random
import sys

WORDS = 1 << 20
SIDE = 1024
BLOCK = 64
BINS = 256


def wrapped(number):
    """The word of type Int that a sum or product is."""
    return (number + (1 << 31)) % (1 << 32) - (1 << 31)


def write_csv(path, rows):
    with open(path, 'w', encoding='ascii') as text:
        for row in rows:
            text.write(','.join(map(str, row)) + '\n')


def write(folder, name, drams, expected):
    """The setup of a program with the rows of its DRAMs, and the lines that are expected."""
    with open(os.path.join(folder, f'{name}.toml'), 'w', encoding='ascii') as setup:
        setup.write('[dram]\n')
        for dram, rows in drams.items():
            file = f'{name}_{dram}.csv'
            setup.write(f'{dram} = "{file}"\n')
            write_csv(os.path.join(folder, file), rows)
    with open(os.path.join(folder, f'{name}.expected'), 'w', encoding='ascii') as text:
        text.write('\n'.join(expected) + '\n')


def rows_of(words, width):
    return [words[at:at + width] for at in range(0, len(words), width)]


def dot(folder, draw):
    a, b = ([draw.randint(-1000, 1000) for _ in range(WORDS)] for _ in range(2))
    product = wrapped(sum(x * y for x, y in zip(a, b)))
    tiles = WORDS // 1024
    # the block, three statements; for each tile an iteration, five statements, the words of both, and the sums
    turns = 1 + 3 + tiles * (1 + 5 + 3 * 1024)
    write(folder, 'dot', {'a': rows_of(a, 1024), 'b': rows_of(b, 1024)}, [f'out product {product}', f'turns {turns}'])


def matrix(folder, draw):
    a, b = ([[draw.randint(-1000, 1000) for _ in range(SIDE)] for _ in range(SIDE)] for _ in range(2))
    columns = [[row[j] for row in b] for j in range(BLOCK)]
    c = [wrapped(sum(x * y for x, y in zip(row, column))) for row in a[:BLOCK] for column in columns]
    size = BLOCK * BLOCK
    tiles = SIDE // BLOCK
    # the block, three statements; for each tile an iteration, six statements, the words of both, each element's
    # iteration with three statements and its sums, and the elements that are combined; then the words of the result
    turns = 1 + 3 + tiles * (1 + 6 + 2 * size + size * (1 + 3 + BLOCK) + size) + size
    write(folder, 'matrix', {'a': a, 'b': b}, ['dram c ' + ' '.join(map(str, c)), f'turns {turns}'])


def histogram(folder, draw):
    words = [draw.randrange(BINS) for _ in range(WORDS)]
    counts = [0] * BINS
    for word in words:
        counts[word] += 1
    tiles = WORDS // 4096
    # the block, four statements, each bin's iteration and statement; for each tile an iteration, three statements, its
    # words, and for each word an iteration with two statements; then the words of the result
    turns = 1 + 4 + 2 * BINS + tiles * (1 + 3 + 4096 + 3 * 4096) + BINS
    write(folder, 'histogram', {'words': rows_of(words, 4096)},
          ['dram counts ' + ' '.join(map(str, counts)), f'turns {turns}'])


def main():
    folder = sys.argv[1]
    draw = random.Random(1)
    for program in (dot, matrix, histogram):
        program(folder, draw)


if __name__ == '__main__':
    main()

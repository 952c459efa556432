#!/usr/bin/env python3
"""Runs the circuits of the kernels of examples/ in Icarus Verilog, where it and the compiler are there.

    checks/circuits.py [NAME ..]

Each kernel is compiled and run by `run`; the Verilog text that `verilog` prints of it is run beside a bench under the
same setup, and must print the same outputs, DRAMs and cycles, without a warning of the tool. Kernels that can't be
compiled so far must be those that are named here.
"""

import os
import shutil
import subprocess
import sys
import tempfile

import bench
import kernels

NOT_COMPILED = {'fir', 'convolution', 'power', 'sparse', 'sort'}


def call(words, folder):
    done = subprocess.run(words, cwd=folder, capture_output=True, text=True, check=False)
    return done.returncode, done.stdout, done.stderr


def fault_of(name, folder):
    """What is wrong with a kernel's circuit, or nothing."""
    source, setup = name + '.spatial', name + '.toml'
    status, result, _ = call([kernels.PROGRAM, 'run', source, setup], folder)
    if (status == kernels.UNBUILT) != (name in NOT_COMPILED):
        return f'run: status {status}'
    if status == kernels.UNBUILT:
        return ''
    if status != 0:
        return f'run: status {status} {result}'
    status, text, _ = call([kernels.PROGRAM, 'verilog', source], folder)
    if status != 0:
        return f'verilog: status {status}'
    with open(os.path.join(folder, 'run.net'), encoding='ascii') as net:
        listing = bench.Listing(net.read())
    with open(os.path.join(folder, 'spatial.v'), 'w', encoding='ascii') as out:
        out.write(text)
    with open(os.path.join(folder, 'bench.v'), 'w', encoding='ascii') as out:
        out.write(bench.bench(listing, *bench.stimuli(listing, os.path.join(folder, setup))))
    status, said, more = call(['iverilog', '-g2005', '-Wall', '-Wno-timescale', '-o', 'run', 'bench.v', 'spatial.v'], folder)
    if status != 0 or said or more:
        return f'iverilog: status {status} {said}{more}'
    status, printed, more = call(['vvp', '-n', 'run'], folder)
    got = bench.result_text(listing, printed)
    return '' if (status, got) == (0, result) else f'vvp: status {status}\n{got}for\n{result}{more}'


def main():
    if not shutil.which('iverilog') or not os.path.exists(kernels.PROGRAM):
        print('Circuits of the kernels: Icarus Verilog or the compiler is missing, so none was run')
        return 0
    names = sys.argv[1:] or [kernel.__name__ for kernel in kernels.KERNELS]
    failed = 0
    for name in names:
        with tempfile.TemporaryDirectory() as folder:
            for file in os.listdir(kernels.EXAMPLES):
                if os.path.isfile(os.path.join(kernels.EXAMPLES, file)):
                    shutil.copy(os.path.join(kernels.EXAMPLES, file), folder)
            wrong = fault_of(name, folder)
        failed += bool(wrong)
        if wrong:
            print(f'{name}, {wrong}')
    print(f'Circuits of the kernels in Icarus Verilog: {len([n for n in names if n not in NOT_COMPILED])} of {len(names)} compiled, {failed} failed')
    return 1 if failed else 0


if __name__ == '__main__':
    sys.exit(main())

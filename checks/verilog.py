#!/usr/bin/env python3
"""Runs the Verilog texts that verilog_runs prints in other tools, where these are installed.

Icarus Verilog runs each text beside a bench and must print the results that the simulator printed, without a warning
(the text of a listing whose taps conflict is compiled alone); Verilator must find nothing to warn of; Yosys must read
it and synthesise it to registers, memories, adders and the like without a problem. The texts and the results are those
of crates/verilog_runs/stdout, which the gate compares with what the program prints.
"""

import os
import shutil
import subprocess
import sys
import tempfile

import bench

HERE = os.path.dirname(os.path.abspath(__file__))
RUNS = os.path.join(HERE, '..', 'crates', 'verilog_runs')

# a text stands in a file of another name than its module; a netlist may have nets that nothing reads and banks that
# nothing writes, and compare a net of one bit, or with a constant, in a way that has one answer
WAIVED = ['-Wno-DECLFILENAME', '-Wno-UNUSEDSIGNAL', '-Wno-UNDRIVEN', '-Wno-CMPCONST', '-Wno-UNSIGNED']


# the listings and setups of examples/ among those that are run
EXAMPLES = {'counter': 'counter/counter', 'conflict': 'conflict/conflict', 'delayed_sum': 'delays/sum',
            'sum': 'sum', 'rectangle': 'rectangle', 'polynomial': 'polynomial'}


def same_file(one, other):
    with open(one, 'rb') as a, open(other, 'rb') as b:
        return a.read() == b.read()


def stale_examples():
    """The files of examples/ that differ from the copies that are run."""
    for name, path in EXAMPLES.items():
        for end in ('.net', '.toml'):
            example = os.path.join(HERE, '..', 'examples', path + end)
            if os.path.exists(example) and not same_file(example, os.path.join(RUNS, 'data', name + end)):
                yield example


def sections():
    """Each listing's name, the result text and the Verilog text that are stored for it."""
    with open(os.path.join(RUNS, 'stdout'), encoding='ascii') as stored:
        for part in stored.read().split('listing ')[1:]:
            name, rest = part.split('\n', 1)
            result, text = rest.split('module ', 1)
            yield name, result, 'module ' + text


def output_of(words, folder):
    done = subprocess.run(words, cwd=folder, capture_output=True, text=True, check=False)
    return done.stdout + done.stderr if done.returncode == 0 else f'status {done.returncode}\n' + done.stdout + done.stderr


def icarus(name, result, folder):
    with open(os.path.join(RUNS, 'data', name + '.net'), encoding='ascii') as text:
        listing = bench.Listing(text.read())
    if result.startswith('conflict'):
        return output_of(['iverilog', '-g2005', '-Wall', '-Wno-timescale', '-o', 'run', 'spatial.v'], folder)
    with open(os.path.join(folder, 'bench.v'), 'w', encoding='ascii') as out:
        out.write(bench.bench(listing, *bench.stimuli(listing, os.path.join(RUNS, 'data', name + '.toml'))))
    said = output_of(['iverilog', '-g2005', '-Wall', '-Wno-timescale', '-o', 'run', 'bench.v', 'spatial.v'], folder)
    if said:
        return said
    got = bench.result_text(listing, output_of(['vvp', '-n', 'run'], folder))
    return '' if got == result else f'results\n{got}for\n{result}'


def verilator(folder):
    return output_of(['verilator', '--lint-only', '-Wall', *WAIVED, '--top-module', 'spatial', 'spatial.v'], folder)


def yosys(folder):
    script = 'read_verilog spatial.v; hierarchy -check -top spatial; synth -run begin:fine; check -assert'
    return output_of(['yosys', '-q', '-p', script], folder)


def main():
    tools = [tool for tool in ('iverilog', 'verilator', 'yosys') if shutil.which(tool)]
    passed = failed = 0
    for example in stale_examples():
        failed += 1
        print(f'{example} differs from its copy in crates/verilog_runs/data')
    for name, result, text in sections():
        with tempfile.TemporaryDirectory() as folder:
            with open(os.path.join(folder, 'spatial.v'), 'w', encoding='ascii') as out:
                out.write(text)
            checks = {'iverilog': lambda: icarus(name, result, folder), 'verilator': lambda: verilator(folder), 'yosys': lambda: yosys(folder)}
            for tool in tools:
                wrong = checks[tool]()
                passed, failed = passed + (not wrong), failed + bool(wrong)
                if wrong:
                    print(f'{name}, {tool}: {wrong}')
    print(f'Verilog texts of verilog_runs in {", ".join(tools) or "no tool, since none is installed"}:')
    print(f'{passed} passed, {failed} failed')
    return 1 if failed else 0


if __name__ == '__main__':
    sys.exit(main())

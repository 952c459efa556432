"""Cycles a second of programs that run the same circuit: measure.py CELLS NAME FEW MANY COMMAND .. [-- NAME ..]

Each program is run for few and for many cycles, and the difference counts, in processor time. The programs take turns,
so that a machine that is busy for a while is so for all of them, and the least of each counts. The number of cycles is
written right behind a command's last word. What isn't done in two minutes is left out from then on."""
import resource
import subprocess
import sys

ROUNDS = 5
LIMIT = 120


class Program:
    def __init__(self, words):
        self.name, self.few, self.many, self.command = words[0], int(words[1]), int(words[2]), words[3:]
        self.least = {}
        self.late = False

    def run(self, cycles):
        if self.late:
            return
        before = resource.getrusage(resource.RUSAGE_CHILDREN).ru_utime
        try:
            subprocess.run(self.command[:-1] + [self.command[-1] + str(cycles)], stdout=subprocess.DEVNULL, check=True, timeout=LIMIT)
        except subprocess.TimeoutExpired:
            self.late = True
            return
        took = resource.getrusage(resource.RUSAGE_CHILDREN).ru_utime - before
        self.least[cycles] = min(took, self.least.get(cycles, took))

    def speed(self):
        took = 0 if self.late else self.least[self.many] - self.least[self.few]
        return (self.many - self.few) / took if took > 0 else None


def parts(words):
    found = [[]]
    for word in words:
        if word == "--":
            found.append([])
        else:
            found[-1].append(word)
    return found


def main():
    cells, programs = int(sys.argv[1]), [Program(words) for words in parts(sys.argv[2:])]
    for _ in range(ROUNDS):
        for program in programs:
            program.run(program.few)
            program.run(program.many)
    own = programs[0].speed()
    for program in programs:
        speed = program.speed()
        if speed is None:
            why = f"not done with {program.many} cycles in {LIMIT} s" if program.late else "too short to tell"
            print(f"{cells:>6} cells  {program.name:<9} {why}")
        else:
            times = f"  {speed / own:6.3f} times" if own and program is not programs[0] else ""
            print(f"{cells:>6} cells  {program.name:<9} {speed:>12,.0f} cycles/s{times}")


main()

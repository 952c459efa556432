#!/usr/bin/env python3
"""Rows of worked distances of accesses that have counters of their own, for the tests of sp_meets.

Each class of distances is asked as checks/distances.py asks it. Beside that, every row whose ranges are known is compared
with the loops run group by group: where two accesses touch one element, the distance given is no greater.

The meets of worked loops, `s(d * i + e) = s(a * i + c)` with i from 0 to 11, are found by running all iterations.

    checks/meets.py > rows      prints the rows, always the same ones
    checks/meets.py --check     compares them, and the worked loops, with those that stand in the tests
"""
import os, random, re, sys

from distances import FAR, Access, draw_coefs, draw_form, draw_loop, least, least_touch

MOST = 400


def distance(a, b, outer, common, first, second):
    """None for never."""
    return least(a, b, outer, common, first, second, MOST)


def draw_own(r):
    """Counters of an access's own; one of them may have no known range."""
    return [draw_loop(r, 0.8) for _ in range(r.choice([1, 1, 2]))]


def draw_own_coefs(r, own, wide):
    """A counter without a known range counts once, and one at most does; or else each counts as often as it likes."""
    if wide:
        return [r.choice([0, 2, 3, -4, 6]) for l in own]
    coefs, open_one = [], True
    for l in own:
        if l.low is not None:
            coefs.append(r.choice([0, 1, 1, 2, 3, -1, 6]))
        else:
            coefs.append(r.choice([0, 1]) if open_one else 0)
            open_one = open_one and coefs[-1] == 0
    return coefs


def draw_pair(r, outer, common, first, second, alike, wide):
    mine, theirs = [], []
    for _ in range(r.choice([1, 1, 2])):
        around = draw_coefs(r, outer + len(common))
        f = draw_form(r, around + draw_own_coefs(r, first, wide))
        g = draw_form(r, list(f.coefs) if alike else around + draw_own_coefs(r, second, wide))
        if r.random() < 0.9:
            g.symbol = f.symbol
        g.constant = f.constant + r.choice([0, 0, 1, -1, 4, -7, 12, 30])
        mine.append(f)
        theirs.append(g)
    return Access(0, True, mine), Access(0, r.random() < 0.5, theirs)


def rows(r, count, wide):
    made, tally = [], {}
    while len(made) < count:
        outer = r.choice([0, 0, 1])
        common = [draw_loop(r) for _ in range(r.choice([0, 1, 1, 1, 2]))]
        first = draw_own(r)
        alike = r.random() < 0.75
        second = [type(l)(l.low, l.high, l.by, l.par) for l in first] if alike else draw_own(r)
        a, b = draw_pair(r, outer, common, first, second, alike, wide)
        want = distance(a, b, outer, common, first, second)
        kind = "never" if want is None else "far" if want == FAR else min(want, 4)
        if tally.get(kind, 0) >= count // 4:
            continue
        tally[kind] = tally.get(kind, 0) + 1
        if all(l.low is not None for l in common + first + second):
            touch = least_touch(a, b, outer, common, first, second)
            assert touch is None or (want is not None and want <= touch), (a.text(), b.text(), want, touch)
        loops = lambda ls: " ".join([str(len(ls))] + [l.text() for l in ls])
        made.append(f"{outer} {loops(common)} {loops(first)} {loops(second)} {a.text()} {b.text()} {'-' if want is None else want}")
    return made


def meets_of_loop(a, c, d, e):
    """The read is access 7, the write 12; of each ordered pair that touches one element, the least number of groups."""
    accesses = [(7, lambda i: a * i + c), (12, lambda i: d * i + e)]
    found = []
    for first, f in accesses:
        for second, g in accesses:
            apart = [j - i for i in range(12) for j in range(i, 12) if f(i) == g(j) and (j > i or first < second)]
            if apart and (first, second) != (7, 7):
                found.append(f"{first} {second} {min(apart)}")
    return ";".join(found)


def wrong_loops(text):
    """The rows of worked loops that aren't what running them gives."""
    loops = re.findall(r"^(\d+) (\d+) (\d+) (\d+)=>([\d ;]*)", text, re.M)
    assert loops
    return [row for row in loops if meets_of_loop(*map(int, row[:4])) != row[4]]


def main():
    made = rows(random.Random(20251128), 80, False) + rows(random.Random(20261128), 24, True)
    if sys.argv[1:] == ["--check"]:
        here = os.path.dirname(os.path.abspath(__file__))
        with open(os.path.join(here, "../crates/form_tests/src/meets/rows.rt")) as f:
            stands = f.read()
        with open(os.path.join(here, "../crates/form_tests/src/meets/loops.rt")) as f:
            wrong = wrong_loops(f.read())
        missing = [row for row in made if row not in stands]
        print("the rows stand in the tests" if not missing else f"{len(missing)} rows differ")
        print("the worked loops meet so" if not wrong else f"{len(wrong)} worked loops differ")
        sys.exit(1 if missing or wrong else 0)
    sys.stdout.write("".join(row + "\n" for row in made))


if __name__ == "__main__":
    main()

#!/usr/bin/env python3
"""Rows of worked distances for the tests of sp_deps: accesses of small loops, and what may be said of their distance.

Each dimension is asked by itself whether it rules a class of distances out: by the divisor of its coefficients, and by
the values that it takes at the corners of the counters' ranges. Nothing is shared with the program. Beside that, every
row is compared with the loops run group by group: where two accesses touch one element, the distance given is no greater.

    checks/distances.py > rows      prints the rows, always the same ones
    checks/distances.py --check     compares them with those that stand in the tests
"""
import itertools, math, os, random, sys

FAR = 65


class Loop:
    def __init__(self, low, high, by, par):
        self.low, self.high, self.by, self.par = low, high, by, par

    def steps(self):
        return None if self.low is None else max(1, (self.high - self.low) // self.by)

    def text(self):
        ends = "- -" if self.low is None else f"{self.low} {self.high}"
        return f"{ends} {self.by} {self.par}"


class Form:
    def __init__(self, coefs, constant, symbol=None):
        self.coefs, self.constant, self.symbol = coefs, constant, symbol

    def at(self, values, symbols):
        extra = 0 if self.symbol is None else symbols[self.symbol]
        return sum(c * v for c, v in zip(self.coefs, values)) + self.constant + extra

    def text(self):
        symbol = "-" if self.symbol is None else self.symbol
        return " ".join([str(symbol), str(self.constant)] + [str(c) for c in self.coefs])


class Access:
    def __init__(self, mem, writes, forms):
        self.mem, self.writes, self.forms = mem, writes, forms

    def text(self):
        head = f"{self.mem} {int(self.writes)}"
        if self.forms is None:
            return f"{head} -"
        return " ".join([head, str(len(self.forms))] + [f.text() for f in self.forms])


def excluded(terms, constant):
    """terms: (coefficient, low, high) with None for an end that isn't known."""
    divisor = 0
    for c, _, _ in terms:
        divisor = math.gcd(divisor, c)
    if divisor == 0:
        return constant != 0
    if constant % divisor != 0:
        return True
    corners = [constant]
    least, greatest = constant, constant
    for c, low, high in terms:
        ends = [c * e if e is not None else (0 if c == 0 else None) for e in (low, high)]
        if c < 0:
            ends.reverse()
        least = None if least is None or ends[0] is None else least + ends[0]
        greatest = None if greatest is None or ends[1] is None else greatest + ends[1]
    return (least is not None and least > 0) or (greatest is not None and greatest < 0)


def dimension_excludes(f, g, outer, common, first, second, kind):
    n = outer + len(common)
    terms = [(g.coefs[i] - f.coefs[i], None, None) for i in range(outer)]
    constant = g.constant - f.constant
    both = lambda i, known: (g.coefs[outer + i] - f.coefs[outer + i],) + ((common[i].low, common[i].high) if known else (None, None))
    if kind == "same":
        terms += [both(i, False) for i in range(len(common))]
    elif kind[0] == "steps":
        terms += [both(i, True) for i in range(len(common))]
        last = common[-1]
        constant += g.coefs[n - 1] * last.by * last.par * kind[1]
    else:
        at = kind[1]
        terms += [both(i, True) for i in range(at + 1)]
        terms.append((g.coefs[outer + at] * common[at].by, 1, common[at].steps()))
        for i in range(at + 1, len(common)):
            terms.append((-f.coefs[outer + i], common[i].low, common[i].high))
            terms.append((g.coefs[outer + i], common[i].low, common[i].high))
    terms += [(-c, l.low, l.high) for c, l in zip(f.coefs[n:], first)]
    terms += [(c, l.low, l.high) for c, l in zip(g.coefs[n:], second)]
    return excluded(terms, constant)


def may(a, b, outer, common, first, second, kind):
    if a.forms is None or b.forms is None:
        return True
    pairs = list(zip(a.forms, b.forms))
    if any(f.symbol != g.symbol for f, g in pairs):
        return True
    return not any(dimension_excludes(f, g, outer, common, first, second, kind) for f, g in pairs)


def can(a, b):
    return a.mem == b.mem and (a.writes or b.writes)


def least(a, b, outer, common, first, second, most):
    """Of two accesses that can meet, with counters of their own; None for never, which is told from so many steps."""
    asked = lambda kind: may(a, b, outer, common, first, second, kind)
    if not common:
        return 0 if asked("same") else None
    if any(asked(("earlier", i)) for i in range(len(common) - 1)):
        return 1
    known = a.forms is not None and b.forms is not None
    parallel = known and all(f.coefs == g.coefs and f.symbol == g.symbol for f, g in zip(a.forms, b.forms))
    for t in range(1, most if parallel else FAR):
        if asked(("steps", t)):
            return t
    return None if parallel else FAR


def distance(a, b, outer, loops):
    """None for never."""
    return least(a, b, outer, loops, [], [], 2000) if can(a, b) else None


def stage_meet(first, second, outer, common, own_first, own_second, within):
    for a, b in itertools.product(first, second):
        if not can(a, b):
            continue
        asked = lambda kind: may(a, b, outer, common, own_first, own_second, kind)
        if within == 0:
            if asked("same"):
                return True
        elif common:
            if any(asked(("earlier", i)) for i in range(len(common) - 1)):
                return True
            if any(asked(("steps", t)) for t in range(1, within + 1)):
                return True
    return False


def groups(loops):
    """The values of the counters, group by group, where all ranges are known."""
    ranges = []
    for i, l in enumerate(loops):
        advance = l.by * l.par if i == len(loops) - 1 else l.by
        ranges.append(range(l.low, l.high + 1, advance))
    return list(itertools.product(*ranges))


def least_touch(a, b, outer, loops, own_first=(), own_second=()):
    """The least distance, from 1, at which the two touch one element, over all groups; with loops all known."""
    if a.forms is None or b.forms is None:
        return None
    best = None
    runs = groups(loops)
    values = lambda own: list(itertools.product(*[range(l.low, l.high + 1) for l in own]))
    for outside in itertools.product(range(-2, 3), repeat=outer):
        for symbol in range(-2, 3):
            symbols = {n: symbol + n for n in range(8)}
            seen = {}
            for g, v in enumerate(runs):
                for u in values(own_first):
                    e = tuple(f.at(outside + v + u, symbols) for f in a.forms)
                    seen.setdefault(e, []).append(g)
            for g, v in enumerate(runs):
                for u in values(own_second):
                    e = tuple(f.at(outside + v + u, symbols) for f in b.forms)
                    for h in seen.get(e, []):
                        k = g - h
                        if k >= (1 if loops else 0) and (best is None or k < best):
                            best = k
    return best


def draw_loop(r, known=0.8):
    by, par = r.choice([1, 1, 1, 2, 3]), r.choice([1, 1, 2, 4])
    if r.random() > known:
        return Loop(None, None, by, par)
    low = r.randint(-3, 4)
    return Loop(low, low + r.randint(0, 8), by, par)


def draw_form(r, coefs, symbols=0.15):
    symbol = r.choice([5, 6]) if r.random() < symbols else None
    return Form(coefs, r.randint(-9, 9), symbol)


def draw_coefs(r, n):
    return [r.choice([0, 0, 1, 1, 2, 3, 4, -1, -2, 6]) for _ in range(n)]


def draw_pair(r, outer, loops, own_first=0, own_second=0):
    n = outer + len(loops)
    rank = r.choice([1, 1, 1, 2, 2, 3])
    mine, theirs = [], []
    for _ in range(rank):
        coefs = draw_coefs(r, n)
        other = coefs if r.random() < 0.6 else draw_coefs(r, n)
        f = draw_form(r, coefs + draw_coefs(r, own_first))
        g = draw_form(r, other + draw_coefs(r, own_second))
        if r.random() < 0.8:
            g.symbol = f.symbol
        if r.random() < 0.3:
            g.constant = f.constant
        mine.append(f)
        theirs.append(g)
    writes = r.choice([(1, 0), (0, 1), (1, 1), (1, 1), (0, 0)]) if r.random() < 0.15 else (1, r.randint(0, 1))
    mem = r.choice([0, 0, 0, 0, 0, 0, 0, 0, 0, 3])
    a = Access(0, bool(writes[0]), None if r.random() < 0.04 else mine)
    b = Access(mem, bool(writes[1]), theirs)
    return a, b


def distance_rows(r, count):
    rows, tally = [], {}
    while len(rows) < count:
        outer = r.choice([0, 0, 0, 1])
        loops = [draw_loop(r) for _ in range(r.choice([0, 1, 1, 1, 2, 2, 3]))]
        a, b = draw_pair(r, outer, loops)
        want = distance(a, b, outer, loops)
        kind = "never" if want is None else "far" if want == FAR else min(want, 3)
        if tally.get(kind, 0) >= count // 4:
            continue
        tally[kind] = tally.get(kind, 0) + 1
        if can(a, b) and all(l.low is not None for l in loops):
            touch = least_touch(a, b, outer, loops)
            assert touch is None or (want is not None and want <= touch), (a.text(), b.text(), want, touch)
        head = " ".join([str(outer), str(len(loops))] + [l.text() for l in loops])
        rows.append(f"{head} {a.text()} {b.text()} {'-' if want is None else want}")
    return rows


def stage_rows(r, count):
    rows, tally = [], {}
    while len(rows) < count:
        outer = r.choice([0, 0, 1])
        common = [draw_loop(r) for _ in range(r.choice([0, 1, 1, 2]))]
        own_first = [draw_loop(r, 1.0) for _ in range(r.choice([0, 1, 1]))]
        own_second = [draw_loop(r, 1.0) for _ in range(r.choice([0, 1, 1]))]
        a, b = draw_pair(r, outer, common, len(own_first), len(own_second))
        within = r.choice([0, 0, 1, 2, 3, 5, 70])
        want = stage_meet([a], [b], outer, common, own_first, own_second, within)
        if tally.get(want, 0) >= count // 2:
            continue
        tally[want] = tally.get(want, 0) + 1
        if within > 0 and common and can(a, b) and all(l.low is not None for l in common):
            touch = least_touch(a, b, outer, common, own_first, own_second)
            assert touch is None or touch > within or want, (a.text(), b.text(), within, touch)
        loops = lambda ls: " ".join([str(len(ls))] + [l.text() for l in ls])
        rows.append(f"{outer} {loops(common)} {loops(own_first)} {loops(own_second)} {a.text()} {b.text()} {within} {int(want)}")
    return rows


def main():
    r = random.Random(20140227)
    text = "".join(row + "\n" for row in distance_rows(r, 120) + ["stages"] + stage_rows(r, 60))
    if sys.argv[1:] == ["--check"]:
        here = os.path.dirname(os.path.abspath(__file__))
        with open(os.path.join(here, "../crates/base_tests/src/deps/rows.rt")) as f:
            stands = f.read()
        missing = [row for row in text.splitlines() if row != "stages" and row not in stands]
        print("the rows stand in the tests" if not missing else f"{len(missing)} rows differ")
        sys.exit(1 if missing else 0)
    sys.stdout.write(text)


if __name__ == "__main__":
    main()

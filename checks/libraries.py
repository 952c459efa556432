#!/usr/bin/env python3
"""Tells which libraries crates.txt lists and no text of the crate names, and in how many ways crates are reached.

usage: checks/libraries.py

A tool that looks at the libraries below a crate anew for each way to them takes as long as there are ways, and a check
reads every library that is listed: so a list should have what is named and no more, and a chain of crates that each
list all before them is best one crate. Libraries of the kit are left out, since derived code names them. The status is
0 where each library of the repository that is named is listed."""
import os
import re
import sys

ROOT = os.path.dirname(os.path.dirname(os.path.abspath(__file__)))


def listed():
    """The libraries of each crate, as crates.txt has them."""
    found = {}
    with open(os.path.join(ROOT, "crates.txt"), encoding="utf-8") as lines:
        for line in lines:
            name, colon, libraries = line.partition("#")[0].partition(":")
            if colon:
                found[name.strip()] = libraries.split()
    return found


def named(crate, crates):
    """The crates that a crate's own files name."""
    found = set()
    for part in ("src", "specs", "proofs"):
        for folder, _, files in os.walk(os.path.join(ROOT, "crates", crate, part)):
            for file in files:
                with open(os.path.join(folder, file), encoding="utf-8") as text:
                    found |= set(re.findall(r"\bsp_\w+", text.read()))
    return found & crates - {crate}


def main():
    lists = listed()
    ways = {}

    def count(crate):
        if crate not in ways:
            ways[crate] = 1 + sum(count(it) for it in lists[crate] if it in lists)
        return ways[crate]

    total = sum(count(it) for it in lists)
    missing = False
    for crate, libraries in lists.items():
        names = named(crate, set(lists))
        spare = [it for it in libraries if it in lists and it not in names]
        lacking = sorted(names - set(libraries))
        missing = missing or bool(lacking)
        if spare:
            print(f"{crate} lists and doesn't name: {' '.join(spare)}")
        if lacking:
            print(f"{crate} names and doesn't list: {' '.join(lacking)}")
    print(f"{total} ways to {len(lists)} crates; most to:")
    for crate, number in sorted(ways.items(), key=lambda it: -it[1])[:8]:
        print(f"  {number:6} {crate}")
    return 1 if missing else 0


if __name__ == "__main__":
    sys.exit(main())

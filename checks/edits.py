#!/usr/bin/env python3
"""Tries edits that must be refused and that the gate doesn't try, since each costs a check of its crate.

usage: checks/edits.py [CRATE..]

Those of checks/edits/CRATE/ (of all crates without a name) are put into a copy of the repository, beside the ones that
stand there, and `rt must-fail CRATE` tries them: the prover has to refuse each. Crates with the most edits here take
hours in all; one takes minutes. The status is 0 where each edit was refused."""
import os
import shutil
import subprocess
import sys
import tempfile

ROOT = os.path.dirname(os.path.dirname(os.path.abspath(__file__)))
EDITS = os.path.join(ROOT, "checks", "edits")


def main(names):
    known = sorted(os.listdir(EDITS))
    unknown = [it for it in names if it not in known]
    if unknown:
        print(f"no edits of {', '.join(unknown)} stand in checks/edits")
        return 2
    with tempfile.TemporaryDirectory() as room:
        copy = os.path.join(room, "repository")
        shutil.copytree(ROOT, copy, ignore=shutil.ignore_patterns("out", ".git"))
        subprocess.run(["git", "init", "-q", copy], check=True)
        for name in names or known:
            to = os.path.join(copy, "crates", name, "must-fail")
            shutil.copytree(os.path.join(EDITS, name), to, dirs_exist_ok=True)
        return subprocess.run(["rt", "must-fail", *(names or known)], cwd=copy).returncode


if __name__ == "__main__":
    sys.exit(main(sys.argv[1:]))

#!/usr/bin/env python3
"""Tests of what is handed out: the first command, the comparing of release/, `make install`, the packages, the completions,
and what the recipes of cluster/ say of what is not here.

usage: tests/release/run.py PROGRAM

PROGRAM is syslogbox as it was proved here. Prints what fails, and what was skipped since a command is not here, which
counts neither way; last `N passed, M failed`. The status is 0 exactly where none failed.
"""
import sys
import tempfile
from pathlib import Path

sys.dont_write_bytecode = True
from comparing import comparing
from completions import completions
from first import first
from installing import installing
from packages import packages
from recipes import recipes
from results import Results


def main():
    program = str(Path(sys.argv[1]).resolve())
    results = Results()
    completions(program, results)
    with tempfile.TemporaryDirectory(prefix="release-") as room:
        for part in [first, comparing, installing, packages, recipes]:
            folder = Path(room) / part.__name__
            folder.mkdir()
            part(folder, results)
    print(f"{results.passed} passed, {results.failed} failed")
    sys.exit(1 if results.failed else 0)


if __name__ == "__main__":
    main()

#!/usr/bin/env python3
"""Tells the libraries that crates.txt lists for a crate and that the crate does not name.

usage: scripts/unused.py

The toolchain reads the sources of a crate once for each way that leads to it through crates.txt, so a library that is listed
without need takes the gate time. Prints each, and the status is 1 where there is one.
"""
import re
import sys
from pathlib import Path

ROOT = Path(__file__).resolve().parent.parent


def listed():
    """Each crate of crates.txt, and the libraries that it lists."""
    lines = (ROOT / "crates.txt").read_text().splitlines()
    return [(names.split()[0], libraries.split()) for names, _, libraries in (line.partition(":") for line in lines
                                                                              if line and line[0] != "#")]


def words_of(crate):
    """The words of a crate's sources."""
    sources = [path for part in ("src", "specs", "proofs") for path in (ROOT / "crates" / crate / part).rglob("*")]
    return {word for path in sources if path.suffix in (".rt", ".antt") for word in re.findall(r"\w+", path.read_text())}


def main():
    found = [(crate, library) for crate, libraries in listed() for library in sorted({*libraries} - words_of(crate))]
    for crate, library in found:
        print(f"crates.txt: {crate} does not name {library}")
    return 1 if found else 0


if __name__ == "__main__":
    sys.exit(main())

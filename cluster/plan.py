#!/usr/bin/env python3
"""Cuts archives into ranges of instants: WORK/plan/00000 for the records without a time, then RANGES of them.

A file of the plan has the conditions of `syslogbox select` for its range in the first line, and one line for each input
that has records there: where they begin in the file, how many octets they are, the size of the file, and its name. The
inputs are sampled for their times, so that the ranges have about as many octets each. Nothing is done where the same
plan is there. It has its name only when it is whole and synced.
"""
import argparse
import os
import sys
from pathlib import Path
from shutil import rmtree
from uuid import uuid4

sys.dont_write_bytecode = True
from cuts import bounds, cuts, sampled
from entries import Archive


def plan(paths: list[str], ranges: int, walk: bool, folder: Path) -> None:
    """Writes the plan into a folder."""
    begins = bounds(sampled(paths, ranges), ranges)
    tos = [f" --to {bound.decode()}" for bound in begins[1:]] + [""]
    files = [["--only-undated"], *([f"--from {begin.decode()}{to}"] for begin, to in zip(begins, tos))]
    for path in paths:
        archive = Archive(path, walk)
        places = cuts(archive, begins)
        for lines, begin, end in zip(files, places, places[1:]):
            if begin < end:
                lines.append(f"{begin} {end - begin} {archive.size} {path}")
    for number, lines in enumerate(files):
        write(folder / f"{number:05d}", lines)


def write(path: Path, lines: list[str]) -> None:
    """Writes lines, in which names of files may stand that are not UTF-8."""
    path.write_bytes(os.fsencode("".join(f"{line}\n" for line in lines)))


def main() -> None:
    """Makes the plan in WORK, unless it is there."""
    words = argparse.ArgumentParser(description=__doc__, formatter_class=argparse.RawDescriptionHelpFormatter)
    words.add_argument("list", type=Path, help="a file with the name of an archive in each line")
    words.add_argument("work", type=Path, help="the folder of the plan and of the ranges, which is made")
    words.add_argument("ranges", type=int)
    words.add_argument("--walk", action="store_true", help="read all entries, where a message imitates them")
    given = words.parse_args()
    paths = [os.path.abspath(path) for path in os.fsdecode(given.list.read_bytes()).split("\n") if path]
    if not paths or not 0 < given.ranges < 100_000:
        sys.exit("plan.py: at least one archive in LIST, and 1 to 99,999 ranges")
    asked = [f"{given.ranges} ranges", *paths]
    there = given.work / "plan"
    (given.work / "ranges").mkdir(parents=True, exist_ok=True)
    if not there.exists():
        if any((given.work / "ranges").iterdir()):
            sys.exit(f"plan.py: {given.work} has ranges of a plan that is gone: remove it first")
        folder = given.work / f".plan.{uuid4().hex}"
        folder.mkdir()
        plan(paths, given.ranges, given.walk, folder)
        write(folder / "list", asked)
        os.sync()
        try:
            folder.rename(there)
        except OSError:  # another made one meanwhile
            rmtree(folder)
    if os.fsdecode((there / "list").read_bytes()).split("\n")[:-1] != asked:
        sys.exit(f"plan.py: {given.work} has the plan of another list or of another number of ranges: remove it first")


if __name__ == "__main__":
    main()

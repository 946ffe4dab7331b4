#!/usr/bin/env python3
"""Measures what the commands that look at records cost beside those that only read or write them, in one run.

usage: bench/looking.py [--small N] [--records N] [--runs N] [--folder DIR] [--program FILE]

Records of `corpus.py`, without elements (`plain`) and with some (`elements`), are written into DIR (default
build/bench/looking) as archives and as lines: so many for processor time (default 200,000), and fewer for instructions
(default 20,000). Each command and the one beside it write to a file of /dev/shm, or of DIR if that is not there.

Prints a table: the ratio of instructions by callgrind, including the start of the program, which is the same in each run;
and the ratio of processor time (user and system, the least of several runs that take turns), which other work on the machine
changes. In brackets stands the target. Without valgrind there are no instructions. The status is 1 where a program fails.
"""
import argparse
import os
import re
import shutil
import subprocess
import sys
import tempfile
from pathlib import Path

TOP = Path(__file__).resolve().parent.parent
RARE = "certificate valid until checksum"  # few messages have it, or none
MEMORY = "/dev/shm"
sys.dont_write_bytecode = True
sys.path.insert(0, str(Path(__file__).resolve().parent))
from corpus import Source
sys.path.insert(0, str(TOP / "tests"))
from lib.reference import counted_frames

KINDS = {"plain": Source.plain, "elements": Source.structured}
CHECK, CONVERT = ["check", "--framing", "counted"], ["convert", "--framing", "counted"]
SHOW = ["show", "--framing", "counted"]

# a name, a command, the one beside it, and the target of their ratio
PAIRS = [("`show --json`", [*SHOW, "--json"], CONVERT, 1.5),
         ("`show`", SHOW, CONVERT, None),
         ("`show --color always`", [*SHOW, "--color", "always"], SHOW, None),
         ("`select`, all records", ["select"], CHECK, 1.2),
         ("`select --severity debug`, all records", ["select", "--severity", "debug"], CHECK, None),
         ("`count`", ["count"], CHECK, None),
         ("`count --by host`", ["count", "--by", "host"], CHECK, 1.5),
         ("`select --message TEXT`, few records", ["select", "--message", RARE], None, 1.3)]


class Failed(Exception):
    """A program did not end as it must."""


class Input:
    """The same records as an archive and as lines."""

    def __init__(self, folder, program, kind, count):
        self.archive, self.lines = folder / f"{kind}-{count}.archive", folder / f"{kind}-{count}.log"
        source = Source(count)
        octets = b"".join(KINDS[kind](source, n) + b"\n" for n in range(count))
        text = subprocess.run([program, "archive", "--framing", "lf"], input=octets, capture_output=True, check=True).stdout
        self.archive.write_bytes(text)
        self.lines.write_bytes(b"".join(one + b"\n" for one in counted_frames(text)[0]))


class Bench:
    """A program, and where the output of a run goes."""

    def __init__(self, program, folder):
        self.program, self.folder = program, folder
        self.room = MEMORY if os.access(MEMORY, os.W_OK) else folder

    def command(self, words):
        """The words of a command; None is grep."""
        return [self.program, *words] if words else ["grep", "-F", RARE]

    def run(self, words, before, given):
        """What the system says of a run, and its notes. Output goes to a file: to /dev/null grep would look for one line."""
        path = given.archive if words else given.lines
        environment = {**os.environ, "LC_ALL": "C"}
        with open(path, "rb") as stdin, tempfile.TemporaryFile(dir=self.room) as output, tempfile.TemporaryFile() as notes:
            process = subprocess.Popen([*before, *self.command(words)], stdin=stdin, stdout=output, stderr=notes, env=environment)
            _, status, usage = os.wait4(process.pid, 0)
            code = os.waitstatus_to_exitcode(status)
            if code != 0 and (words or code != 1):  # grep that finds no line says 1
                raise Failed(f"{self.command(words)}: status {code}")
            notes.seek(0)
            return usage, notes.read()

    def instructions(self, words, given):
        written = self.folder / "callgrind.out"
        _, notes = self.run(words, ["valgrind", "--tool=callgrind", f"--callgrind-out-file={written}"], given)
        return int(re.search(rb"Collected : (\d+)", notes).group(1))

    def times(self, one, other, given, runs):
        """The least processor time of each, in turns."""
        least = [float("inf")] * 2
        for _ in range(runs):
            for n, words in enumerate((one, other)):
                usage, _ = self.run(words, [], given)
                least[n] = min(least[n], usage.ru_utime + usage.ru_stime)
        return least


def ratio(one, other, target):
    """A figure of the table."""
    told = f"{one / other:.2f}"
    if target is None:
        return told
    return f"{told} ({target}{'' if one <= target * other else ': missed'})"


def row(bench, pair, small, large, runs):
    name, one, other, target = pair
    figures = []
    for kind in KINDS:
        counted = shutil.which("valgrind")
        figures.append(ratio(*(bench.instructions(words, small[kind]) for words in (one, other)), target) if counted else "")
        figures.append(ratio(*bench.times(one, other, large[kind], runs), target))
    beside = f"`{' '.join(other)}`" if other else "`grep -F`, of lines"
    return f"| {name} | {' | '.join(figures)} | {beside} |"


def main():
    parser = argparse.ArgumentParser(description=__doc__.split("\n")[0])
    parser.add_argument("--small", type=int, default=20_000)
    parser.add_argument("--records", type=int, default=200_000)
    parser.add_argument("--runs", type=int, default=5)
    parser.add_argument("--folder", type=Path, default=TOP / "build/bench/looking")
    parser.add_argument("--program", default=str(TOP / "build/syslogbox"))
    given = parser.parse_args()
    given.folder.mkdir(parents=True, exist_ok=True)
    small, large = ({kind: Input(given.folder, given.program, kind, count) for kind in KINDS} for count in (given.small, given.records))
    bench = Bench(given.program, given.folder)
    print("| | " + " | ".join(f"`{kind}`: instructions | time" for kind in KINDS) + " | beside |\n|---|---|---|---|---|---|")
    try:
        for pair in PAIRS:
            print(row(bench, pair, small, large, given.runs), flush=True)
    except Failed as failed:
        print(failed, file=sys.stderr)
        return 1
    return 0


if __name__ == "__main__":
    sys.exit(main())

#!/usr/bin/env python3
"""Measures what `reconcile` and `answer` cost: the octets that cross and the seconds, for few and many records that differ.

usage: bench/sites.py [--records N] [--differences D..] [--rate OCTETS] [--delay MILLISECONDS] [--folder DIR] [--program FILE]

Two stores have N records in common (default 100,000), of a hundred days, and each has half of D others (default 0, 1, 10, 100,
1,000 and 10,000). They are reconciled through pipes, and again through a line that carries so many octets a second (default
1,000,000) and answers after so long (default 100). Beside each stand, of the same two sets:

    rsync      what `rsync` sends and gets to make one archive the other, which is one way alone (if it is there)
    digests    what an exchange of the digests of all days and then of the days that differ would take (computed)

Prints a table. The status is 1 where the stores do not hold the union then.
"""
import argparse
import re
import resource
import shutil
import subprocess
import sys
import time
from pathlib import Path
from random import Random

TOP = Path(__file__).resolve().parent.parent
sys.dont_write_bytecode = True
sys.path.insert(0, str(TOP / "tests"))
from lib.program import Program
from lib.reference import archive_text, counted, timestamp
from lib.sites import Line, answering, asking, exchange, told_traffic

DAYS, DAY = 100, 86_400_000_000
BEGIN = 1_790_000_000_000_000
DIFFERENCES = [0, 1, 10, 100, 1_000, 10_000]
DIGEST_LINE = len("2026-11-25 100000 12345678 ") + 64 + 1
TEXT = b"session opened for user number %d by a process that logs as much as others do, and as often"


def record(number, count, word=b"all"):
    """The record of a number; those of all numbers ascend."""
    return b"<38>1 %b host%d.example.com sshd %d - - %b " % (
        timestamp(BEGIN + number * (DAYS * DAY // count)), number % 97, number % 4_099, word) + TEXT % number


def write_all(path, count):
    """The archive of the common records."""
    with open(path, "wb") as output:
        for first in range(0, count, 10_000):
            output.write(counted([record(number, count) for number in range(first, min(count, first + 10_000))]))


def add(program, store, archive):
    with open(archive, "rb") as stream:
        subprocess.run([program.path, "add", "--quiet", str(store)], stdin=stream, check=True)


class Far(Line):
    """A direction of a line that carries so many octets a second; where it was silent, the first of them takes half of the
    delay of the line."""

    def __init__(self, rate, delay):
        super().__init__(self.send)
        self.rate, self.delay, self.until = rate, delay, 0.0

    def send(self, piece):
        """Waits until these octets have come."""
        now = time.monotonic()
        if now > self.until + self.delay / 4:  # the other site has spoken
            self.until = now + self.delay / 2
        self.until += len(piece) / self.rate
        time.sleep(max(0, self.until - now))


class Run:
    """Two stores of one set, and more in each."""

    def __init__(self, given):
        self.given, self.program, self.folder = given, Program(given.program), Path(given.folder)
        shutil.rmtree(self.folder, ignore_errors=True)
        self.folder.mkdir(parents=True)
        self.common, self.base = self.folder / "common.archive", self.folder / "base"
        write_all(self.common, given.records)
        add(self.program, self.base, self.common)

    def alone(self, count):
        """The records that one store alone has, and those of the other."""
        random = Random(repr(("alone", count)))
        numbers = random.sample(range(self.given.records), min(count, self.given.records))
        half = (count + 1) // 2
        return [[record(number, self.given.records, word) for number in those]
                for word, those in ((b"one", numbers[:half]), (b"other", numbers[half:]))]

    def stores(self, alone):
        """Two new stores, by links to the segments of the common records."""
        stores = [self.folder / "one", self.folder / "other"]
        for store, records in zip(stores, alone):
            shutil.rmtree(store, ignore_errors=True)
            store.mkdir(mode=0o700)
            for segment in self.base.glob("*.archive"):
                (store / segment.name).hardlink_to(segment)
            if records:
                path = self.folder / f"{store.name}.alone"
                path.write_bytes(archive_text(records))
                add(self.program, store, path)
        return stores

    def measured(self, count, is_far):
        """The octets that cross, seconds, processor seconds and requests of an exchange."""
        stores = self.stores(self.alone(count))
        lines = [Far(self.given.rate, self.given.delay / 1_000) for _ in range(2)] if is_far else None
        before, begun = resource.getrusage(resource.RUSAGE_CHILDREN), time.monotonic()
        outcome = exchange(asking(self.program, stores[0]), answering(self.program, stores[1]), seconds=3_600, lines=lines)
        seconds, after = time.monotonic() - begun, resource.getrusage(resource.RUSAGE_CHILDREN)
        spent = after.ru_utime + after.ru_stime - before.ru_utime - before.ru_stime
        traffic = told_traffic(outcome.asked)
        if outcome[:2] != (0, 0) or not traffic:
            raise SystemExit(f"{outcome.asker} {outcome.answerer} {outcome.asked} {outcome.told}")
        return len(outcome.requests) + len(outcome.answers), seconds, spent, traffic.requests, stores

    def is_union(self, stores, count):
        """Whether both stores are read as one archive, of as many records as both had."""
        command = "'{0}' read '{1}' | '{0}' root --quiet"
        heads = [subprocess.run(command.format(self.program.path, store), shell=True, capture_output=True).stdout.split() for store in stores]
        return heads[0] == heads[1] and int(heads[0][0]) == self.given.records + sum(map(len, self.alone(count)))

    def archives(self, alone):
        """The archives of both sets, as files."""
        paths = []
        for name, records in zip(("one", "other"), alone):
            more, path = self.folder / f"{name}.alone", self.folder / f"{name}.archive"
            more.write_bytes(archive_text(records))
            with open(path, "wb") as output:
                subprocess.run([self.program.path, "union", "--quiet", str(self.common), str(more)], stdout=output, check=True)
            paths.append(path)
        return paths

    def rsync(self, count):
        """What rsync sends and gets, and its seconds; None where there is none."""
        if not shutil.which("rsync"):
            return None
        one, other = self.archives(self.alone(count))
        begun = time.monotonic()
        done = subprocess.run(["rsync", "--no-whole-file", "--stats", "--ignore-times", str(one), str(other)], capture_output=True, text=True, check=True)
        moved = sum(int(found.replace(",", "")) for found in re.findall(r"Total bytes (?:sent|received): ([\d,]+)", done.stdout))
        return moved, time.monotonic() - begun

    def digests(self, count):
        """What the digests of all days, the days of the other that differ and what it lacks there would take."""
        alone = self.alone(count)
        sizes = {}
        for records in alone:
            for octets in records:
                sizes.setdefault(octets.split(b" ", 2)[1][:10], 0)
        octets_a_day = self.common.stat().st_size // DAYS
        return DAYS * DIGEST_LINE + len(sizes) * octets_a_day + sum(len(archive_text(records)) for records in alone)


def main():
    parser = argparse.ArgumentParser(description=__doc__, formatter_class=argparse.RawDescriptionHelpFormatter)
    parser.add_argument("--records", type=int, default=100_000)
    parser.add_argument("--differences", type=int, nargs="+", default=DIFFERENCES)
    parser.add_argument("--rate", type=int, default=1_000_000)
    parser.add_argument("--delay", type=float, default=100)
    parser.add_argument("--folder", default=str(TOP / "build/bench/sites"))
    parser.add_argument("--program", default=str(TOP / "build/syslogbox"))
    given = parser.parse_args()
    run, status = Run(given), 0
    print(f"{given.records:,} records, {run.common.stat().st_size:,} octets; a far line has {given.rate:,} octets a second and {given.delay:.0f} ms")
    print("| differ | requests | octets | seconds | processor seconds | far, seconds | rsync, octets | rsync, seconds | digests, octets |")
    print("|---|---|---|---|---|---|---|---|---|")
    for count in given.differences:
        crossed, seconds, spent, requests, stores = run.measured(count, False)
        if not run.is_union(stores, count):
            print(f"the stores differ after {count} differences")
            status = 1
        far = run.measured(count, True)[1]
        beside = run.rsync(count)
        moved = ["–", "–"] if beside is None else [f"{beside[0]:,}", f"{beside[1]:.1f}"]
        cells = [f"{count:,}", requests, f"{crossed:,}", f"{seconds:.2f}", f"{spent:.2f}", f"{far:.1f}", *moved, f"{run.digests(count):,}"]
        print("| " + " | ".join(map(str, cells)) + " |", flush=True)
    shutil.rmtree(run.folder)
    return status


if __name__ == "__main__":
    sys.exit(main())

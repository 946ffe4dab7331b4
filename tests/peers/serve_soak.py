"""`syslogbox serve` at a steady pace, for an hour. No part of the gate.

One sender (pace.c) sends 20,000 records a second, which all differ, in turn over 64 connections, of which every other
one has lines and the others are counted. Each minute a line tells how many records were sent, the most resident memory
of the server in that minute, its processor time in percent of a core and for each record, and how many octets its store
has. In the end the server's input is closed, and it has to end with status 0.

Nothing may be lost: what `read` writes is compared, octet for octet, with the archive of all that was sent. Memory has
to be flat: in no minute more than a tenth and 4 MiB above the most of the first third, in which the journal has come to
its first checkpoint. (A run of less than six minutes has shorter ones; below a minute in all it tells nothing about
memory.)

The store is made in FOLDER, by default that of temporary files: 175 octets a record, 13 GB for an hour.
"""
import argparse
import os
import platform
import subprocess
import tempfile
import threading
import time
from contextlib import ExitStack
from pathlib import Path

from lib.program import Program
from lib.results import Results
from peers.load import processor
from peers.server import Server, resident

PACE = Path(__file__).resolve().parent / "pace.c"
FIRST = 2_000  # records whose archive is compared with that of `archive`
MINUTES = 6  # that a run has at least, if need be shorter ones
SHORT = 60  # seconds, below which a run tells nothing about memory
SPARE, PART = 4 * 1_024, 1.1  # KiB and part by which memory may grow
LOOK = 0.2  # seconds between two looks at the memory
PIECE = 1 << 20


class Pace:
    """The sender, and what it writes."""

    def __init__(self, folder, given):
        self.path, self.given = folder / "pace", given
        self.start = int(time.time()) * 1_000_000
        self.sent, self.last = 0, None
        subprocess.run(["gcc", "-O2", "-o", str(self.path), str(PACE)], check=True)

    def begin(self, server):
        given = self.given
        words = [self.path, "send", server.ports["counted"], server.ports["lf"], given.connections, given.rate,
                 given.seconds, self.start]
        self.process = subprocess.Popen(list(map(str, words)), stdout=subprocess.PIPE, text=True)
        self.thread = threading.Thread(target=self.follow, daemon=True)
        self.thread.start()

    def follow(self):
        for line in self.process.stdout:
            self.last = line.split()
            self.sent = int(self.last[0])

    def written(self, count, output=subprocess.PIPE):
        words = [self.path, "write", count, self.given.rate, self.start]
        return subprocess.Popen(list(map(str, words)), stdout=output)


def octets_of(store):
    """How many octets the files of a store have; one may go while they are looked at."""
    count = 0
    for name in os.listdir(store):
        try:
            count += (store / name).stat().st_size
        except FileNotFoundError:
            pass
    return count


class Minute:
    """What is told of a minute."""

    def __init__(self, pid, pace):
        self.pid, self.pace = pid, pace
        self.begun, self.spent, self.sent = time.monotonic(), processor(pid), pace.sent
        self.memory = resident(pid)

    def run(self, seconds):
        """Looks at the memory until the time is over, or nothing more is sent."""
        while time.monotonic() - self.begun < seconds and self.pace.process.poll() is None:
            time.sleep(LOOK)
            self.memory = max(self.memory, resident(self.pid))
        self.seconds = time.monotonic() - self.begun
        self.spent = processor(self.pid) - self.spent
        self.sent = self.pace.sent - self.sent

    def row(self, at, store):
        cost = f"{self.spent / self.sent * 1e6:.2f}" if self.sent else ""
        return (f"| {at:.0f} | {self.pace.sent:,} | {self.memory / 1_024:.1f} | {self.spent / self.seconds * 100:.1f} "
                f"| {cost} | {octets_of(store) / 1e6:,.0f} |")


def followed(server, pace, seconds):
    """The minutes of a run, each told."""
    length, minutes, begun = min(60, seconds / MINUTES), [], time.monotonic()
    print("| second | records sent | most memory, MiB | processor, % of a core | of a record, µs | store, MB |")
    print("|---:|---:|---:|---:|---:|---:|")
    while pace.process.poll() is None and server.runs():
        minute = Minute(server.process.pid, pace)
        minute.run(length)
        minutes.append(minute)
        print(minute.row(time.monotonic() - begun, server.store), flush=True)
    return minutes


def is_flat(minutes):
    first = max(minute.memory for minute in minutes[:max(1, len(minutes) // 3)])
    return all(minute.memory <= first * PART + SPARE for minute in minutes)


def same(one, other):
    """At which octet two streams differ, -1 where they do not, and how many octets were the same."""
    at = 0
    while True:
        left, right = one.read(PIECE), other.read(PIECE)
        if left != right:
            return at + len(os.path.commonprefix([left, right])), at
        if not left:
            return -1, at
        at += len(left)


def whole(results, program, server, pace):
    """The store holds what was sent."""
    first = pace.written(FIRST).communicate()[0]
    results.same("what the sender writes is its archive", program.run(["archive", "--framing", "counted"], first),
                 (0, first, b""))
    read = subprocess.Popen([program.path, "read", str(server.store)], stdout=subprocess.PIPE)
    right = pace.written(pace.sent)
    begun = time.monotonic()
    at, octets = same(read.stdout, right.stdout)
    for process in (read, right):
        process.stdout.close()
    statuses = read.wait(), right.wait()
    results.check("nothing is lost", (at, *statuses) == (-1, 0, 0), f"another octet at {at:,}, statuses {statuses}")
    print(f"`read` wrote {octets:,} octets in {time.monotonic() - begun:.0f} s, with its comparison")


def main(words):
    given = argparse.ArgumentParser(prog="tests/run.py serve-soak", description=__doc__,
                                    formatter_class=argparse.RawDescriptionHelpFormatter)
    given.add_argument("program")
    given.add_argument("--seconds", type=int, default=3_600)
    given.add_argument("--rate", type=int, default=20_000, help="records a second (20,000)")
    given.add_argument("--connections", type=int, default=64)
    given.add_argument("--folder", type=Path)
    given.add_argument("--commit", type=int, default=1_000, help="of the server (1,000)")
    given.add_argument("--checkpoint", type=int, default=64, help="of the server (64)")
    given = given.parse_args(words)
    program, results = Program(given.program), Results()
    with tempfile.TemporaryDirectory(prefix="syslogbox-", dir=given.folder) as path, ExitStack() as stack:
        folder = Path(path)
        options = ["--commit", str(given.commit), "--checkpoint", str(given.checkpoint)]
        server, pace = Server(program.path, folder / "server", ["--until-eof", *options]), Pace(folder, given)
        stack.callback(server.end)
        server.start()
        spent = processor(server.process.pid)
        print(f"Linux {platform.release()}, {os.cpu_count()} cores, load {os.getloadavg()[0]:.1f}; {given.rate:,} "
              f"records a second over {given.connections} connections, {given.seconds:,} s; serve {' '.join(options)}",
              flush=True)
        pace.begin(server)
        minutes = followed(server, pace, given.seconds)
        status = pace.process.wait()
        pace.thread.join()
        results.check("all is sent", (status, pace.sent) == (0, given.rate * given.seconds), f"{status} {pace.last}")
        spent = processor(server.process.pid) - spent
        results.check("the server ends with status 0", server.wait() == 0, server.lines()[-3:])
        if len(pace.last or []) == 4:
            sent, seconds, late, own = map(float, pace.last)
            print(f"{sent:,.0f} records in {seconds:,.1f} s, late by {late:,.1f} ms at most; processor time of the "
                  f"server {spent:,.1f} s, {spent / sent * 1e6:.2f} µs a record, of the sender {own:,.1f} s")
        if given.seconds >= SHORT:
            results.check("memory is flat", is_flat(minutes), [minute.memory for minute in minutes])
        whole(results, program, server, pace)
    return results.end()

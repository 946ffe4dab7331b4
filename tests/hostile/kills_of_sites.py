"""Kills one of two sites of an exchange at random moments.

The moment is a number of octets that have crossed, in either direction, and up to some milliseconds more. Whatever it is, each
store then holds all that it held and nothing that neither had, `verify` finds nothing, and the next exchange makes them equal.
"""
import argparse
import os
import sys
import tempfile
import threading
import time
from random import Random

from lib.ledger import but_unlisted
from lib.program import Program
from lib.reference import archive_text
from lib.results import Results
from lib.site_stores import KINDS, Stores, apart, records_of, some
from lib.sites import answering, asking, exchange

RECORDS, DIFFERENCES = 1_500, 500


class Killer:
    """Kills one site once so many octets have crossed."""

    def __init__(self, who, octets, pause):
        self.who, self.left, self.pause = who, octets, pause
        self.sites, self.is_done, self.lock = None, False, threading.Lock()

    def begun(self, *sites):
        self.sites = sites

    def passes(self, piece):
        with self.lock:
            self.left -= len(piece)
            if self.left <= 0 and not self.is_done:
                self.is_done = True
                threading.Timer(self.pause, self.kill).start()

    def kill(self):
        for who in self.who:
            self.sites[who].process.kill()


def one_kill(program, results, stores, random, name):
    """A kill, and the next exchange."""
    kind = random.choice(KINDS)
    sets = apart(random, some(random, kind, RECORDS), random.choice([3, DIFFERENCES, RECORDS]))
    union = sets[0] | sets[1]
    folders = [stores.of(random, records) for records in sets]
    begins = [asking(program, folders[0]), answering(program, folders[1])]
    most = len(archive_text(union))
    killer = Killer(random.choice([[0], [1], [0, 1]]), int(most * random.random() ** 2), random.choice([0, 0, 0.002, 0.01]))
    outcome = exchange(*begins, requesting=killer.passes, replying=killer.passes, begun=killer.begun)
    name = f"{name} of {killer.who}"
    results.check(f"{name}: the other one ends", all(status in (0, 1, 2, -9) for status in outcome[:2]), str(outcome)[:300])
    for folder, before in zip(folders, sets):
        held = records_of(folder)
        results.check(f"{name}: what is held", held is not None and before <= held <= union, str(outcome)[:300])
        seen = but_unlisted(program.run(["verify", str(folder)]))
        results.check(f"{name}: verify", seen == (0, b"", b""), str(seen))
    outcome = exchange(*begins)
    results.check(f"{name}: the next one", outcome[:2] == (0, 0), str(outcome)[:300])
    whole = archive_text(union)
    for folder in folders:
        results.same(f"{name}: read after the next one", program.run(["read", str(folder)]), (0, whole, b""))
    stores.drop(*folders)
    return killer.is_done


def kills(program, results, path, seed, count):
    """So many kills; most of them come in the middle."""
    stores, done = Stores(path), 0
    for n in range(count):
        done += one_kill(program, results, stores, Random(repr(("kill", seed, n))), f"kill {n}")
    results.check("most sites were killed in the middle", done * 4 > count, f"{done} of {count}")


def main(words):
    parser = argparse.ArgumentParser(prog="tests/run.py kills-of-sites", description=__doc__, formatter_class=argparse.RawDescriptionHelpFormatter)
    parser.add_argument("program", help="syslogbox")
    parser.add_argument("--kills", type=int, default=500)
    parser.add_argument("--seed", type=int, default=int(time.time()))
    chosen = parser.parse_args(words)
    results = Results()
    print(f"seed {chosen.seed}", flush=True)
    begun = time.monotonic()
    with tempfile.TemporaryDirectory(dir=os.environ.get("TMPDIR")) as path:
        kills(Program(chosen.program), results, path, chosen.seed, chosen.kills)
    print(f"{chosen.kills} kills in {time.monotonic() - begun:.0f} s", flush=True)
    return results.end()


if __name__ == "__main__":
    sys.exit(main(sys.argv[1:]))

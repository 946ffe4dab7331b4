"""Three sites, each with a server that hears nine of ten records.

A sender numbers its records, and of each site drops a tenth at random, each of its own. The servers are killed at random and
begun again, their stores are compacted, and every few seconds two of the sites are reconciled while all of that goes on; of
those exchanges some are killed too. Nothing that a site was seen to hold may be missing later. At the end the servers stop,
and three exchanges make all sites hold the union of what the three held, octet for octet.
"""
import argparse
import signal
import subprocess
import sys
import tempfile
import threading
import time
from contextlib import suppress
from pathlib import Path
from random import Random

from lib.ledger import but_unlisted
from lib.program import Program
from lib.reference import counted_frames, timestamp
from lib.results import Results
from lib.server import Server, any_port
from lib.sites import answering, asking, exchange, told_traffic

SITES, DROPPED = 3, 0.1
SECONDS = 300  # for one exchange
WORDS = ["--until-eof", "--commit", "50", "--checkpoint", "1"]
PERIOD = 3  # seconds between two exchanges
LAST = [(0, 1), (1, 2), (0, 1)]  # after these all have what any had
YEAR = 1_795_000_000_000_000


def record(number):
    return b"<14>1 %b host%d app - - - record %d" % (timestamp(YEAR + number * 997), number % 7, number)


class Site:
    """A store and its server."""

    def __init__(self, program, path):
        self.program, self.store, self.lock, self.seen = program, Path(path), threading.Lock(), set()
        self.begin()

    def begin(self):
        self.server = Server(self.program, self.store, *any_port("udp"), *WORDS, stdin=subprocess.PIPE)
        self.socket = self.server.open("udp")

    def send(self, octets):
        with self.lock, suppress(OSError):
            self.socket.send(octets)

    def kill(self):
        """Ends the server by a signal that it does not see, and begins it again."""
        self.server.kill(signal.SIGKILL)
        with self.lock:
            self.socket.close()
            self.begin()

    def read(self):
        """The archive that is read, beside the server."""
        return self.program.run(["read", str(self.store)])

    def held(self):
        return set(counted_frames(self.read()[1])[0])


class Sender(threading.Thread):
    """Sends records at a pace, each to the sites that do not drop it."""

    def __init__(self, sites, seed, rate):
        super().__init__(daemon=True)
        self.sites, self.rate, self.random = sites, rate, Random(repr(("sender", seed)))
        self.count, self.stops = 0, threading.Event()

    def run(self):
        begun = time.monotonic()
        while not self.stops.is_set():
            octets = record(self.count)
            for site in self.sites:
                if self.random.random() >= DROPPED:
                    site.send(octets)
            self.count += 1
            ahead = self.count / self.rate - (time.monotonic() - begun)
            if ahead > 0.01:
                time.sleep(ahead)


class Tried:
    """What goes on beside the sender."""

    def __init__(self, program, results, path, seed):
        self.program, self.results, self.random = program, results, Random(repr(("three", seed)))
        self.sites = [Site(program, Path(path) / f"site{n}") for n in range(SITES)]
        self.exchanges = self.kills = self.cut = self.crossed = 0

    def grows(self, name, site):
        """A site has all that it was seen to have."""
        held = site.held()
        self.results.check(f"{name}: nothing is gone", site.seen <= held, f"{len(site.seen - held)} records")
        site.seen |= held

    def reconcile(self, first, second, is_cut=False):
        """Two of them are reconciled; gives the statuses."""
        pair = self.sites[first], self.sites[second]
        pause = self.random.random() * 0.2

        def begun(*sites):
            if is_cut:
                threading.Timer(pause, self.random.choice(sites).process.kill).start()

        outcome = exchange(asking(self.program, pair[0].store), answering(self.program, pair[1].store), begun=begun,
                           seconds=SECONDS)
        self.exchanges += 1
        self.crossed += len(outcome.requests) + len(outcome.answers)
        name = f"exchange {self.exchanges} of {first} and {second}"
        if is_cut:
            self.cut += 1
        else:
            self.results.check(f"{name}: statuses", outcome[:2] == (0, 0) and told_traffic(outcome.asked), str(outcome)[:500])
        for site in pair:
            self.grows(name, site)

    def one_round(self):
        """A kill, a compaction, or an exchange."""
        if self.random.random() < 0.3:
            self.kills += 1
            self.random.choice(self.sites).kill()
        if self.random.random() < 0.2:
            seen = self.program.run(["compact", str(self.random.choice(self.sites).store)])
            self.results.check("compaction", seen[0] == 0, str(seen))
        pair = self.random.sample(range(SITES), 2)
        self.reconcile(*pair, self.random.random() < 0.2)

    def ends(self, count):
        """The servers stop; then all sites hold the union, and are read as equal octets."""
        for n, site in enumerate(self.sites):
            status, lines = site.server.end()
            self.results.check(f"server {n} ends", status == 0, f"{status} {lines[-3:]}")
            self.grows(f"site {n} at the end", site)
        archives = [self.sites[0].store.parent / f"held{n}" for n in range(SITES)]
        for site, path in zip(self.sites, archives):
            path.write_bytes(site.read()[1])
        union = self.program.run(["union", *map(str, archives)])
        print(", ".join(f"site {n} held {len(site.held()):,}" for n, site in enumerate(self.sites)), flush=True)
        for pair in LAST:
            self.reconcile(*pair)
        for n, site in enumerate(self.sites):
            self.results.same(f"site {n}: read at the end", site.read(), union)
            self.results.same(f"site {n}: verify", but_unlisted(self.program.run(["verify", str(site.store)])), (0, b"", b""))
        whole = set(counted_frames(union[1])[0])
        self.results.check("nothing is made up", whole <= {record(n) for n in range(count)})
        print(f"{count:,} records sent, {len(whole):,} held by all in the end; {self.exchanges} exchanges, {self.cut} of them killed, "
              f"{self.kills} servers killed, {self.crossed:,} octets crossed", flush=True)


def three_sites(program, results, path, seed, seconds, rate):
    tried = Tried(program, results, path, seed)
    sender = Sender(tried.sites, seed, rate)
    sender.start()
    finish = time.monotonic() + seconds
    try:
        while time.monotonic() < finish:
            tried.one_round()
            time.sleep(min(PERIOD * tried.random.random() * 2, max(0.0, finish - time.monotonic())))
        sender.stops.set()
        sender.join()
        tried.ends(sender.count)
    finally:
        sender.stops.set()
        for site in tried.sites:
            site.server.kill()


def main(words):
    parser = argparse.ArgumentParser(prog="tests/run.py three-sites", description=__doc__, formatter_class=argparse.RawDescriptionHelpFormatter)
    parser.add_argument("program", help="syslogbox")
    parser.add_argument("--seconds", type=float, default=60)
    parser.add_argument("--rate", type=int, default=2_000, help="records a second")
    parser.add_argument("--seed", type=int, default=int(time.time()))
    chosen = parser.parse_args(words)
    results = Results()
    print(f"seed {chosen.seed}", flush=True)
    with tempfile.TemporaryDirectory() as path:
        three_sites(Program(chosen.program), results, path, chosen.seed, chosen.seconds, chosen.rate)
    return results.end()


if __name__ == "__main__":
    sys.exit(main(sys.argv[1:]))

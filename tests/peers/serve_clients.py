"""Real clients into two servers that are killed. No part of the gate.

logger, Python's SysLogHandler (datagrams, lines, a socket at a path), rsyslog, syslog-ng and haproxy send records of
RFC 5424 to two `syslogbox serve`, to each in another framing where they can; then nginx, haproxy and Python's
SysLogHandler as it is send legacy packets to two with --legacy. While they send, one of the servers after the other is
killed (SIGKILL) and started again, at moments by chance. In the end everything is sent again. Both stores then have to
give the same octets, and these are those of `archive` over what was sent. What a server held at some moment is still
there in the end, and `verify` finds nothing.

Then the files of contrib/ are tried as they stand, with other ports and folders: rsyslog.conf and syslog-ng.conf, also
while the server is away, stunnel.conf, and the units, whose sockets are handed to the words of the service;
systemd-analyze looks at them too. How many records are lost where the server is killed while rsyslog and syslog-ng send
is told.

What a client's time stands in (nginx, haproxy) is kept by a recorder beside the servers. FOLDER may hold the programs
as `dpkg -x` unpacks them; what is found nowhere is skipped. docs/SENDERS.md tells how to run it.
"""
import argparse
import random
import signal
import tempfile
import threading
import time
from collections import Counter
from contextlib import ExitStack
from pathlib import Path

from lib import reference
from lib.loopback import NEVER
from lib.program import Program
from lib.results import Results
from peers.clients import of_packets, of_records
from peers.contrib import contrib
from peers.daemons import daemons
from peers.server import Server

PARTS = ("records", "packets", "contrib")
OPTIONS = (["--trim", "--commit", "0", "--checkpoint", "1"], ["--trim", "--commit", "200"])
LEGACY = ["--legacy", "2026", "--zone", "E0100", "--dialect", "wide"]
AWAY = 0.5  # seconds at most for which a server is away
BETWEEN = 1.2  # seconds at most between two kills
LONG = 300  # seconds, after which clients that send are given up
FEW = 3  # records of a difference that are told


class Killing:
    """Servers that are killed and started again, and what they held meanwhile."""

    def __init__(self, servers, chance, results, name):
        self.servers, self.chance, self.results, self.name = servers, chance, results, name
        self.held = [[] for _ in servers]

    def look(self, n):
        """Keeps what a server holds."""
        status, archive, notes = self.servers[n].read()
        right = (status, notes) == (0, b"")
        self.results.check(f"{self.name}: read beside the server", right, f"{status} {notes!r}")
        self.held[n].append(archive)

    def kill(self):
        """Kills one of them or both, of which what they hold is read first now and then."""
        chosen = self.chance.choice([[n] for n, _ in enumerate(self.servers)] * 2 + [range(len(self.servers))])
        if self.chance.random() < 0.3:
            self.look(chosen[0])
        for n in chosen:
            server = self.servers[n]
            self.results.check(f"{self.name}: the server runs until it is killed", server.runs(), server.lines()[-5:])
            status = server.end()
            self.results.check(f"{self.name}: killed", status == -signal.SIGKILL, status)
        time.sleep(self.chance.choice([0, self.chance.random() * AWAY]))
        for n in chosen:
            self.servers[n].start()

    def run(self, kills):
        for _ in range(kills):
            time.sleep(self.chance.random() * BETWEEN)
            self.kill()


def turns(client, done):
    while not done.is_set():
        client.turn()


def tried(results, client, call):
    """Has a client send. Whatever goes wrong is told, and the others go on."""
    try:
        call(client)
    except Exception as error:
        results.check(f"{client.name} sends", False, repr(error))


def at_once(results, clients, call):
    """A thread for each client, begun."""
    threads = [threading.Thread(target=tried, args=(results, client, call), daemon=True) for client in clients]
    for thread in threads:
        thread.start()
    return threads


def ended(results, name, threads):
    """Waits until all threads have ended."""
    begun = time.monotonic()
    for thread in threads:
        thread.join(max(0, begun + LONG - time.monotonic()))
    late = sum(thread.is_alive() for thread in threads)
    results.check(f"{name}: all clients have sent within {LONG} s", not late, f"{late} have not")


def entries(archive):
    return set(reference.counted_frames(archive)[0])


def apart(one, other):
    """What two archives do not share, in a few words."""
    left, right = entries(one), entries(other)
    told = [f"{len(mine - its)} {word}: {[octets[:120] for octets in sorted(mine - its)[:FEW]]}"
            for word, mine, its in (("more", left, right), ("missing", right, left)) if mine - its]
    return "; ".join(told) or "the same records in other octets"


def until_all(servers, whole):
    """Waits until the stores have given these octets, or for some time; gives what they gave last."""
    begun = time.monotonic()
    while True:
        seen = [server.read() for server in servers]
        if all(one == (0, whole, b"") for one in seen) or time.monotonic() - begun > 2 * NEVER:
            return seen
        time.sleep(0.2)


def stores(results, name, servers, whole, held):
    """Both stores hold what was sent, and what each held before."""
    status, archive, notes = whole
    results.check(f"{name}: archive", (status, notes) == (0, b""), f"{status} {notes[:300]!r}")
    for server, (status, octets, notes), before in zip(servers, until_all(servers, archive), held):
        results.check(f"{name}: the store is that of `archive`", (status, octets, notes) == (0, archive, b""),
                      f"{status} {notes!r} {apart(octets, archive)}")
        stays = all(entries(one) <= entries(octets) for one in before)
        results.check(f"{name}: what was there is there", stays, f"one of {len(before)} readings has more")
        results.same(f"{name}: verify", server.verify(), (0, b"", b""))


def told(servers):
    """How many lines of each kind the servers told."""
    kinds = Counter()
    for server in servers:
        for line in server.lines():
            words = line.decode(errors="replace").split()
            if words and words[0] in ("udp", "unix", "lf", "counted"):
                words = [word for word in words[1:] if word.isalpha() or "-" in word[1:]]
                kinds[" ".join(words[:2])] += 1
    return ", ".join(f"{count} {kind}" for kind, count in sorted(kinds.items())) or "nothing"


def scenario(program, results, name, given, make, legacy=()):
    """Clients into two servers, which are killed meanwhile."""
    chance = random.Random(f"{name} {given.seed}")
    with tempfile.TemporaryDirectory(prefix="syslogbox-") as path, ExitStack() as stack:
        folder = Path(path)
        servers = [Server(program.path, folder / side, [*words, *legacy]) for side, words in zip("ab", OPTIONS)]
        for server in servers:
            stack.callback(server.end)
            server.start()
        clients, done = list(make(folder, servers, given.records)), threading.Event()
        for client in clients:
            stack.callback(client.end)
            client.begin()
        stack.callback(done.set)
        threads = at_once(results, clients, lambda client: turns(client, done))
        killing = Killing(servers, chance, results, name)
        killing.run(given.kills)
        done.set()
        ended(results, name, threads)
        ended(results, name, at_once(results, clients, lambda client: client.again()))
        frames = [frame for client in clients for frame in client.sent()]
        whole = program.run(["archive", "--framing", "counted", "--trim", *legacy], reference.counted(frames))
        stores(results, name, servers, whole, killing.held)
        for server in servers:
            results.check(f"{name}: ends by SIGTERM", server.end(signal.SIGTERM) == -signal.SIGTERM)
        names = ", ".join(client.name for client in clients)
        print(f"{name}: {names}; {len(set(frames)):,} records, {given.kills} kills; the servers told {told(servers)}",
              flush=True)


def main(words):
    given = argparse.ArgumentParser(prog="tests/run.py serve-clients", description=__doc__,
                                    formatter_class=argparse.RawDescriptionHelpFormatter)
    given.add_argument("program")
    given.add_argument("--tools", type=Path, metavar="FOLDER")
    given.add_argument("--records", type=int, default=2_000, help="records of each client (2,000)")
    given.add_argument("--kills", type=int, default=30, help="kills of each part (30)")
    given.add_argument("--seed", type=int, default=int(time.time()))
    given.add_argument("--parts", nargs="+", choices=PARTS, default=PARTS)
    given = given.parse_args(words)
    program, results = Program(given.program), Results()
    print(f"seed {given.seed}", flush=True)
    here = list(daemons(given.tools))
    if "records" in given.parts:
        scenario(program, results, "records", given, lambda *others: of_records(given.tools, here, *others))
    if "packets" in given.parts:
        scenario(program, results, "packets", given, lambda *others: of_packets(given.tools, *others), LEGACY)
    if "contrib" in given.parts:
        contrib(program, results, given.tools, here, given.records)
    return results.end()

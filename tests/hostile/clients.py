"""Bad clients of `serve` at once with good ones.

In the round `crowd` a thousand connections are silent and some send an octet a second; others are reset in the middle
of a frame, have bad counts, or are half-closed and never read; 5,000 come a second; one sends a line without an end,
one a counted frame of a thousand million octets; and there are datagrams of 0 and of 65,507 octets. In the round
`descriptors` the server has 64 descriptors, which connections use up. Journals are of a MiB, so that there are
checkpoints all the time.

Beside them, over each kind of listener, good clients send a record every 20 ms, and in the first round another connects
for each of its records. They lose nothing, no line is about them, and each record is read at most a second after it was
sent, beyond --commit: `read` runs all the time, and what it lacks was not committed when it began.
"""
import argparse
import itertools
import multiprocessing
import os
import re
import resource
import select
import socket
import tempfile
import threading
import time
from collections import namedtuple
from pathlib import Path

from lib.ledger import but_unlisted
from lib.program import Folder, Program
from lib.reference import counted_frames, framed, timestamp
from lib.results import Results
from lib.server import Runs, any_port, end, reset, until_arrived

GOOD = "127.0.0.2"  # where good clients are, to be told from bad ones
COMMIT, BEYOND = 200, 1.0  # milliseconds, seconds
EVERY = 0.02  # seconds between two records of a good client
BACK = 10  # seconds that `read` looks back
RECORD = re.compile(rb" good - - - (\d+ \d+) x")
GIANT = 10 ** 9
BEHIND = b"<14>1 - h giant - - - behind it"
PIECE = b"a" * 262_144
LARGE = b"<14>1 - h large - - - " + b"y" * (65_507 - 22)
SILENT, SLOW, CONNECTS = 1_000, 20, 5_000
PATIENCE = 120  # seconds in which a frame that was begun may end
BAD_COUNTS = [b"x", b"0 ", b"12x", b"99999999999 ", b"-1 ", b" 5 ", b"9999999999x"]
TOLD = ["reset", "bad-count", "unterminated", "syntax priority 0", "too-long", "closed: too many connections"]
COUNTED = ["silent connections", "octets of slow ones", "resets", "bad counts", "half-closed", "connects",
           "octets of lines and frames", "datagrams"]
FORK = multiprocessing.get_context("fork")

# `connections` and `descriptors` of the server, how many silent connections and which bad clients there are, what it
# tells of them, and whether good clients come anew
Round = namedtuple("Round", "name connections descriptors silent bad told visited")


def now():
    return time.monotonic()


# ---------------------------------------------------------------- bad clients

class Bad:
    """Where the bad clients send, until when, and what they did."""

    def __init__(self, server, finish, silent):
        self.places = {kind: address for kind, address in server.places()}  # of two, the last
        self.finish, self.silent, self.server = finish, silent, server
        self.begins = FORK.Event()
        self.counts = FORK.Array("Q", len(COUNTED), lock=False)

    def count(self, what, number=1):
        self.counts[COUNTED.index(what)] += number

    def goes_on(self):
        return now() < self.finish

    def connect(self, kind):
        """A connection, or one that was begun, whose calls do not wait."""
        one = socket.socket(socket.AF_INET, socket.SOCK_STREAM)
        one.setblocking(False)
        one.connect_ex(self.places[kind])
        return one

    def begin(self, kind, octets):
        """A connection that has sent these octets, or None where it is gone."""
        one = self.connect(kind)
        ready = select.poll()
        ready.register(one, select.POLLOUT)
        try:
            ready.poll(1_000)
            one.sendall(octets)
        except OSError:
            one.close()
            return None
        return one


def closed(one):
    """Whether the server has closed a connection."""
    try:
        return one.recv(64) == b""
    except BlockingIOError:
        return False
    except OSError:
        return True


class Crowd:
    """Those that are silent, slow, reset, miscounted and half-closed."""

    def __init__(self, bad):
        self.bad, self.silent, self.slow, self.halves, self.next_octet = bad, [], [], [], now()
        self.frame = framed("counted", LARGE)

    def stay(self, n):
        """As many silent connections as there are to be, of which some are looked at in each round."""
        self.silent = [one for m, one in enumerate(self.silent) if m % 50 != n % 50 or not closed(one)]
        for m in range(min(100, self.bad.silent - len(self.silent))):
            self.silent.append(self.bad.connect("lf" if m % 2 else "counted"))
        self.bad.counts[0] = max(self.bad.counts[0], len(self.silent))

    def creep(self):
        """Once a second an octet of each slow connection."""
        if now() < self.next_octet:
            return
        self.next_octet += 1
        self.slow = [(one, octets) for one, octets in self.slow if creeps(self.bad, one, octets)]
        while len(self.slow) < SLOW:
            self.slow.append((self.bad.connect("counted"), iter(self.frame)))

    def go_wrong(self, n):
        """Connections that are reset in the middle of a frame, that have bad counts, and that are half-closed."""
        for kind, octets in ("counted", self.frame[:len(self.frame) // 2 + n % 999]), ("lf", b"<14>1 - h a"):
            if one := self.bad.begin(kind, octets):
                reset(one)
                self.bad.count("resets")
        if one := self.bad.begin("counted", BAD_COUNTS[n % len(BAD_COUNTS)] + PIECE[:n % 4_096]):
            one.close()
            self.bad.count("bad counts")
        if one := self.bad.begin("counted", framed("counted", b"<14>1 - h half - - - closed") + b"5"):
            self.halves = [*self.halves[-100:], one]
            self.bad.count("half-closed", shut(one))


def shut(one):
    """Ends one direction of a connection, if it is open."""
    try:
        one.shutdown(socket.SHUT_WR)
    except OSError:
        return 0
    return 1


def crowd(bad):
    one = Crowd(bad)
    for n in itertools.count():
        if not bad.goes_on():
            return
        one.stay(n)
        one.creep()
        one.go_wrong(n)
        time.sleep(EVERY)


def creeps(bad, one, octets):
    """Sends an octet of a slow connection; whether it is still open."""
    try:
        one.send(bytes([next(octets)]))
        bad.count("octets of slow ones")
    except BlockingIOError:
        return True
    except (OSError, StopIteration):
        one.close()
        return False
    return True


def flood(bad):
    """Connects so many times a second: some are reset, some closed, some stay a while."""
    begun, stay = now(), []
    for n in itertools.count():
        if not bad.goes_on():
            return
        one = bad.connect("lf" if n % 2 else "counted")
        bad.count("connects")
        if n % 8 == 0:
            stay.append(one)
            if len(stay) > 256:
                stay.pop(0).close()
        elif n % 8 < 3:
            one.close()
        else:
            reset(one)
        if n % 50 == 0:
            time.sleep(max(0, begun + n / CONNECTS - now()))


def endless(bad):
    """A line without an end; beside it a counted frame of a thousand million octets, and a record behind it."""
    line, giant, left = bad.connect("lf"), bad.server.open("counted"), GIANT
    giant.sendall(b"%d " % GIANT)
    giant.setblocking(False)
    late = bad.finish + PATIENCE
    while bad.goes_on() or (left and now() < late):
        for one in select.select([], [line, giant] if left else [line], [], 0.1)[1]:
            try:
                sent = one.send(PIECE[:left] if one is giant else PIECE)
            except BlockingIOError:
                continue
            except OSError:
                return
            bad.count("octets of lines and frames", sent)
            left -= sent if one is giant else 0
    giant.setblocking(True)
    giant.sendall(framed("counted", BEHIND))
    end(giant)


def datagrams(bad):
    """Datagrams of 0 and of 65,507 octets, records and others."""
    with socket.socket(socket.AF_INET, socket.SOCK_DGRAM) as one:
        for n in itertools.count():
            if not bad.goes_on():
                return
            one.sendto([b"", LARGE, b"", PIECE[:65_507]][n % 4], bad.places["udp"])
            bad.count("datagrams")
            time.sleep(0.002)


def run_bad(client, bad):
    bad.begins.wait()
    client(bad)


# ---------------------------------------------------------------- good clients

class Good:
    """Those whose records are to be kept: when each was sent, by its way and number."""

    def __init__(self, server, visited):
        self.server, self.waiting, self.total, self.ends = server, {}, 0, False
        self.failed = []
        places = server.places()
        self.udp = places[0][1]
        kinds = ["counted", "counted", "counted", "lf", "lf", places[0], places[-1]]
        self.ways = [(kind if isinstance(kind, str) else kind[0], server.open(kind, GOOD)) for kind in kinds]
        self.threads = [threading.Thread(target=self.send_on)]
        if visited:
            self.threads.append(threading.Thread(target=self.visit))
        for thread in self.threads:
            thread.start()

    def record(self, way, number):
        """A record that no other has, and which is waited for from now on."""
        key = b"%d %d" % (way, number)
        self.waiting[key] = now()
        self.total += 1
        return b"<14>1 %b h good - - - %b %b" % (timestamp(time.time_ns() // 1_000), key, b"x" * 900)

    def send_on(self):
        for number in itertools.count():
            if self.ends:
                return
            begun = now()
            for way, (kind, one) in enumerate(self.ways):
                octets = self.record(way, number)
                try:
                    one.sendall(octets if kind in ("udp", "unix") else framed(kind, octets))
                except OSError as error:
                    self.failed.append(f"{kind}: {error}")
            time.sleep(max(0, begun + EVERY - now()))

    def visit(self):
        way = len(self.ways)
        for number in itertools.count():
            if self.ends:
                return
            try:
                one = self.server.open("counted", GOOD)
                one.sendall(framed("counted", self.record(way, number)))
            except OSError as error:
                self.failed.append(f"a visitor: {error}")
                continue
            if not end(one):
                self.failed.append("a visitor that was not closed")
            time.sleep(EVERY)

    def end(self):
        """Ends all; whether each connection stayed to its end."""
        self.ends = True
        for thread in self.threads:
            thread.join()
        streams = [one for kind, one in self.ways if kind in ("counted", "lf")]
        until_arrived(*streams)
        return all(end(one) for one in streams)

    def kind_of(self, key):
        """The kind of the client that sent a record."""
        return dict(enumerate(kind for kind, _ in self.ways)).get(int(key.split()[0]), "counted")

    def dropped(self):
        """How many datagrams the system dropped before the server could read them."""
        rows = [line.split() for line in Path("/proc/net/udp").read_text().splitlines()[1:]]
        return sum(int(row[-1]) for row in rows if row[1].endswith(f":{self.udp[1]:04X}"))


class Watch:
    """Reads the store again and again, and finds how long each record was not there."""

    def __init__(self, server, good):
        self.server, self.good = server, good
        self.before, self.least, self.most, self.late, self.readings = now(), 0.0, 0.0, set(), 0

    def look(self):
        begun, back = now(), time.time_ns() // 1_000 - BACK * 1_000_000
        status, text, _ = self.server.read("--from", timestamp(back).decode())
        ended = now()
        self.readings += status == 0
        for key in RECORD.findall(text):
            sent = self.good.waiting.pop(key, None)
            if sent is not None:
                self.least, self.most = max(self.least, self.before - sent), max(self.most, ended - sent)
        late = begun - COMMIT / 1_000 - BEYOND
        self.late.update(key for key, sent in list(self.good.waiting.items()) if sent < late)
        self.before = begun


# ---------------------------------------------------------------- rounds

ROUNDS = [Round("crowd", 4_096, None, SILENT, [crowd, flood, endless, datagrams], TOLD[:5], True),
          Round("descriptors", 1_024, 64, 200, [crowd, flood, datagrams], TOLD[3::2], False)]


def peak(server):
    """The most memory that the server had, in MiB."""
    lines = Path(f"/proc/{server.process.pid}/status").read_text().splitlines()
    return next(int(line.split()[1]) for line in lines if line.startswith("VmHWM")) / 1_024


def play(program, results, path, played, seconds):
    """A round."""
    words = [*any_port("udp"), *any_port("udp"), *any_port("counted"), *any_port("lf"), "--unix", path / "socket",
             "--commit", COMMIT, "--checkpoint", 1, "--connections", played.connections, "--per-peer", played.connections]
    front = ["sh", "-c", f'ulimit -n {played.descriptors}; exec "$@"', "sh"] if played.descriptors else []
    with Runs(program, results, path).until_eof(*words, front=front) as server:
        bad = Bad(server, now() + seconds, played.silent)
        clients = [FORK.Process(target=run_bad, args=(client, bad)) for client in played.bad]
        for one in clients:
            one.start()
        good = Good(server, played.visited)
        watch = Watch(server, good)
        bad.begins.set()
        while bad.goes_on():
            watch.look()
        stays = good.end()
        watch.look()
        for one in clients:
            one.join(2 * PATIENCE)
            one.kill()
        Seen(played, server, bad, good, watch).tell(results, stays)


class Seen:
    """What was seen of a round, once the server has ended."""

    def __init__(self, played, server, bad, good, watch):
        self.played, self.bad, self.good, self.watch, self.name = played, bad, good, watch, played.name
        self.runs_on = server.process.poll() is None
        self.memory = peak(server) if self.runs_on else 0
        self.dropped = good.dropped()
        self.status, self.lines = server.end()
        text = server.read()[1]
        self.records, self.found = counted_frames(text)[0], set(RECORD.findall(text))
        self.verified = but_unlisted(server.program.run(["verify", str(server.store)]))
        self.segments = sum(name.endswith(".archive") for name in os.listdir(server.store))
        self.lost = {key for key in good.waiting if key not in self.found}
        self.undelivered = {key for key in self.lost if good.kind_of(key) == "udp"}

    def told(self, words):
        """How many lines have these words behind their sender, and perhaps a number."""
        return sum(words in line for line in self.lines)

    def print(self):
        watch, good = self.watch, self.good
        print(f"{self.name}: {good.total:,} records of good clients, {len(self.found):,} held; the greatest wait "
              f"{max(0, watch.least):.2f} to {watch.most:.2f} s at --commit {COMMIT}, by {watch.readings} readings")
        done = ", ".join(f"{count:,} {what}" for what, count in zip(COUNTED, self.bad.counts) if count)
        told = ", ".join(f"{self.told(words.encode()):,} {words}" for words in TOLD)
        print(f"{self.name}: {done}")
        print(f"{self.name}: {len(self.lines):,} lines, of them {told}")
        print(f"{self.name}: {self.segments} segments, {self.memory:.0f} MiB at most, {self.dropped} datagrams dropped "
              "by the system", flush=True)

    def tell(self, results, stays):
        self.print()
        name, right = self.name, self.runs_on and self.status == 1
        results.check(f"{name}: the server goes on", right, f"{self.status} {self.lines[-3:]}")
        results.check(f"{name}: good connections stay", stays and not self.good.failed, str(self.good.failed[:3]))
        right = self.lost == self.undelivered and len(self.lost) <= self.dropped
        results.check(f"{name}: no record is lost", right, f"{len(self.lost)} as {sorted(self.lost)[:3]}")
        late = self.watch.late - self.undelivered
        results.check(f"{name}: none is late", not late, f"{len(late)} as {sorted(late)[:3]}")
        about = [line for line in self.lines if f"{GOOD}:".encode() in line]
        results.check(f"{name}: no line is about a good client", not about, str(about[:3]))
        untold = [words for words in self.played.told if not self.told(words.encode())]
        results.check(f"{name}: bad ones are told", not untold, str(untold))
        if endless in self.played.bad:
            results.check(f"{name}: what follows a frame of {GIANT:,} octets is held", BEHIND in self.records)
        results.same(f"{name}: verify", self.verified, (0, b"", b""))


def main(words):
    given = argparse.ArgumentParser(prog="tests/run.py clients", description=__doc__,
                                    formatter_class=argparse.RawDescriptionHelpFormatter)
    given.add_argument("program", type=Path)
    given.add_argument("--seconds", type=float, default=60, metavar="N", help="of both rounds together, by default 60")
    given = given.parse_args(words)
    _, hard = resource.getrlimit(resource.RLIMIT_NOFILE)
    resource.setrlimit(resource.RLIMIT_NOFILE, (min(hard, 16_384), hard))
    results = Results()
    for played in ROUNDS:
        with tempfile.TemporaryDirectory() as path:
            play(Program(given.program, Folder(path)), results, Path(path), played, given.seconds / len(ROUNDS))
    return results.end()

"""`serve` with noisy senders beside a good one: no datagram of the good one is lost, each record is committed in time, and new
connections are served in time. And what a socket has of its own: room, a port, a place among the connections, a mode.

The noise comes from other addresses of the loopback, and from processes of their own, which send without waiting. When a
record is committed is seen in the journal, whose batches are opened once they are on the disk.

Usage: tests/run.py noisy PROGRAM [--seconds N] [--folder FOLDER] [KIND..]

It prints a table: beside so many noisy connections of each kind, how long records waited until they were committed.
"""
import multiprocessing
import os
import re
import resource
import selectors
import socket
import sys
import tempfile
import threading
import time
from contextlib import suppress
from datetime import date, timedelta
from pathlib import Path

from lib.loopback import HERE, own_network
from lib.program import Program
from lib.quiet import bound
from lib.reference import counted, counted_frames
from lib.results import Results
from lib.server import Runs, any_port, end, reset, until, until_closed
from lib.store_format import HEAD, OPEN

ELSEWHERE = "127.0.0.2"
SOURCES = [f"127.0.0.{2 + n}" for n in range(8)]  # of the noise
MANY = 1, 32, 1_024
FEWER = 256  # in place of those that the limit on descriptors does not let be open
OF_ONE = 512  # connections of a process that makes noise
DESCRIPTORS = 64  # that a process has besides
NEW = 25  # connections, one after the other
SECONDS = 1.6  # of the good sender, in each run
PACE = 0.001  # seconds from one datagram to the next
SELDOM = 0.01  # seconds from one record of the connection to the next
LOOK = 0.001  # seconds from one look at the journal to the next
PERIOD = 0.05  # seconds of a commit
LATE = bound(0.1, 1.0)  # seconds more
LATE_BESIDE_MANY = bound(0.1, 2.5)  # beside more than 32 connections
NEVER = 3.0  # seconds after which a record that is not committed is lost
HALF = b"200000 " + b"<14>1 - - - - - - " + b"a" * 90_000
ROOM = 262_144
GOOD = re.compile(rb"<14>1 - h good - - - ((?:datagram|stream) \d+;)")


# ---------------------------------------------------------------- noise

def many_days():
    """Frames of records of other days each."""
    days = (date(1980, 1, 1) + timedelta(n) for n in range(15_000))
    return counted([b"<14>1 %bT12:00:00.000000Z - noise - - - x" % str(day).encode() for day in days])


class Noise:
    """Connections that make noise until the process is stopped. A kind has a listener, what it sends, and whether it sends that
    again and again, and what comes once it is sent or the connection is closed."""

    def __init__(self, address, count, octets, goes_on, last):
        self.address, self.count, self.octets, self.goes_on, self.last = address, count, octets, goes_on, last
        self.poll, self.left, self.begun = selectors.DefaultSelector(), {}, 0

    def begin(self):
        one = socket.socket()
        one.setsockopt(socket.SOL_SOCKET, socket.SO_REUSEADDR, 1)
        one.bind((SOURCES[self.begun % len(SOURCES)], 0))
        one.setblocking(False)
        one.connect_ex(self.address)
        self.begun += 1
        self.left[one] = memoryview(self.octets)
        self.poll.register(one, selectors.EVENT_WRITE | selectors.EVENT_READ)

    def finish(self, one):
        self.poll.unregister(one)
        del self.left[one]
        self.last(one)
        self.begin()

    def turn(self, one, events):
        try:
            if events & selectors.EVENT_READ:
                return self.finish(one)  # the other end never sends: it has closed
            sent = one.send(self.left[one])
        except BlockingIOError:
            return None
        except OSError:
            return self.finish(one)
        self.left[one] = self.left[one][sent:]
        if self.left[one]:
            return None
        if self.goes_on:
            self.left[one] = memoryview(self.octets)
        elif self.last is reset:
            self.finish(one)
        else:
            self.poll.modify(one, selectors.EVENT_READ)
        return None

    def run(self, until_stopped):
        for _ in range(self.count):
            self.begin()
        until_stopped.set()
        while True:
            for key, events in self.poll.select(1):
                self.turn(key.fileobj, events)


KINDS = {
    "only line feeds": ("lf", b"\n" * ROOM, True, socket.socket.close),
    "many days": ("counted", many_days(), True, socket.socket.close),
    "wrong counts": ("counted", b"x1 ", False, socket.socket.close),
    "resets": ("lf", b"half a line", False, reset),
    "silence": ("counted", b"1", False, socket.socket.close),
    "half frames": ("counted", HALF, False, socket.socket.close),
}


def forked(target, *words):
    process = multiprocessing.get_context("fork").Process(target=target, args=words, daemon=True)
    process.start()
    return process


class Beside:
    """Noise of a kind that lasts as long as the block."""

    def __init__(self, server, kind, count):
        listener, *how = KINDS[kind]
        address, self.processes = server.address(listener), []
        for first in range(0, count, OF_ONE):
            begun = multiprocessing.Event()
            noise = Noise(address, min(OF_ONE, count - first), *how)
            self.processes.append(forked(noise.run, begun))
            begun.wait(5)

    def __enter__(self):
        return self

    def __exit__(self, *_):
        for process in self.processes:
            process.kill()
            process.join()


# ---------------------------------------------------------------- the good sender

def text_of(kind, number):
    return b"%s %d;" % (kind, number)


def record(kind, number):
    return b"<14>1 - h good - - - " + text_of(kind, number)


def held(server, seen):
    """The records that a `read` shows which begins now."""
    seen |= set(counted_frames(server.read()[1])[0])
    return seen


class Journal:
    """The good records of a store's journals, and when each was seen to be committed."""

    def __init__(self, store):
        self.store, self.number, self.at, self.seen = Path(store), 1, 0, {}
        self.file = os.open(self.store / "journal.1", os.O_RDONLY)

    def next_batch(self):
        """The next batch that is open, if there is one."""
        head = os.pread(self.file, HEAD, self.at)
        if len(head) < HEAD or head[0] != OPEN:
            return None
        size = int.from_bytes(head[1:], "little")
        body = os.pread(self.file, size, self.at + HEAD)
        self.at += HEAD + size
        return body

    def turn(self):
        """Goes on with the next journal, if there is one."""
        try:
            newer = os.open(self.store / f"journal.{self.number + 1}", os.O_RDONLY)
        except FileNotFoundError:
            return
        self.look()
        os.close(self.file)
        self.file, self.number, self.at = newer, self.number + 1, 0

    def look(self):
        while (body := self.next_batch()) is not None:
            now = time.monotonic()
            for text in GOOD.findall(body):
                self.seen.setdefault(text, now)

    def watch(self, sent, answer):
        """Looks until it is told what was sent, and all of that has been seen or is lost."""
        wanted, late = None, 0
        while wanted is None or (time.monotonic() < late and not wanted <= self.seen.keys()):
            self.look()
            self.turn()
            if wanted is None and sent.poll():
                wanted, late = sent.recv(), time.monotonic() + NEVER
            time.sleep(LOOK)
        answer.send(self.seen)


def at_pace(send, pace, seconds):
    """Sends one after the other at a pace; gives when each was sent. Where nobody takes them any more, they are lost."""
    begun, times = time.monotonic(), []
    for n in range(int(seconds / pace)):
        time.sleep(max(0, begun + n * pace - time.monotonic()))
        times.append(time.monotonic())
        with suppress(OSError):
            send(n)
    return times


def good_sender(server, connection, seconds):
    """Sends datagrams and records of a connection at their paces. Gives how long each kind waited until it was committed;
    None is one that was lost."""
    results, result = multiprocessing.Pipe(False)
    told, tell = multiprocessing.Pipe(False)
    seen, answer = multiprocessing.Pipe(False)
    watcher = forked(Journal(server.store).watch, told, answer)
    with server.open("udp", HERE) as one:
        sender = forked(lambda: result.send(at_pace(lambda n: one.send(record(b"datagram", n)), PACE, seconds)))
        streams = at_pace(lambda n: connection.sendall(record(b"stream", n) + b"\n"), SELDOM, seconds)
        sent = {b"datagram": results.recv(), b"stream": streams}
    tell.send({text_of(kind, n) for kind, times in sent.items() for n in range(len(times))})
    at = seen.recv()
    sender.join()
    watcher.join()
    return {kind: [at[text_of(kind, n)] - time_ if text_of(kind, n) in at else None for n, time_ in enumerate(times)]
            for kind, times in sent.items()}


def waits_beside(runs, kind, count, seconds):
    """How long records of a good sender wait beside noise of a kind."""
    words = [*any_port("udp"), *any_port("counted"), *any_port("lf"), "--commit", round(1_000 * PERIOD), "--connections", 2_048,
             "--checkpoint", 1]  # in MiB: the records of many days are more
    with runs.server(*words) as server, server.open("lf", HERE) as connection:
        connection.sendall(record(b"stream", -1) + b"\n")
        until(lambda: record(b"stream", -1) in held(server, set()))
        with Beside(server, kind, count):
            return good_sender(server, connection, seconds)


def in_order(waits):
    """The waits of those that were not lost, the shortest first."""
    return sorted(one for one in waits if one is not None)


def late_beside(count):
    """How many seconds more anything may take beside so many noisy connections."""
    return LATE if count <= 32 else LATE_BESIDE_MANY


def until_served(server):
    """How long a new connection takes until the record that it sends is read, and it is closed; None if it is not."""
    begun = time.monotonic()
    with suppress(OSError):
        one = server.open("counted", HERE)
        one.settimeout(NEVER)
        one.sendall(counted([record(b"new", 0)]))
        return time.monotonic() - begun if end(one) else None
    return None


def new_connections(runs, kind, count):
    """New connections are accepted, and served, in time beside noisy ones."""
    words = [*any_port("counted"), *any_port("lf"), "--commit", round(1_000 * PERIOD), "--connections", 2_048]
    with runs.server(*words) as server, Beside(server, kind, count):
        waits = []
        for _ in range(NEW):
            waits.append(until_served(server))
            time.sleep(SELDOM)
    late = [one for one in waits if one is None or one > PERIOD + late_beside(count)]
    runs.results.check(f"{count} of {kind}: new connections are served in time", not late,
                       f"{len(late)} of {NEW} are late, {waits.count(None)} are never; the longest wait {in_order(waits)[-1:]}")


def beside(runs, kind, count):
    name = f"{count} of {kind}"
    for what, waits in waits_beside(runs, kind, count, SECONDS).items():
        most = PERIOD + late_beside(count)
        late = [n for n, one in enumerate(waits) if one is None or one > most]
        lost = waits.count(None)
        longest = in_order(waits)[-1:]
        runs.results.check(f"{name}: each {what.decode()} is committed in time", not late,
                           f"{len(late)} of {len(waits)} are late, {lost} lost; the longest wait {longest}")


def buffer_that_is_larger(runs):
    """A socket that is handed over with more room than the server asks for keeps it."""
    with socket.socket(socket.AF_INET, socket.SOCK_DGRAM) as one:
        one.bind((HERE, 0))
        try:
            one.setsockopt(socket.SOL_SOCKET, 33, 33_554_432)  # SO_RCVBUFFORCE
        except PermissionError:
            runs.results.skip("room for datagrams stays", "it takes a privilege to give a socket more room")
            return
        before = one.getsockopt(socket.SOL_SOCKET, socket.SO_RCVBUF)
        with runs.server("--inherited", "udp", hands=[one]):
            after = one.getsockopt(socket.SOL_SOCKET, socket.SO_RCVBUF)
        runs.results.check("room for datagrams stays", before == after, f"{before} became {after}")


def socket_without_a_port(runs):
    """A socket of connections that is handed over without a port is refused."""
    with socket.socket() as one:
        runs.refused("a socket without a port", ["--inherited", "lf"], hands=[one])


def silence_while_stopped(runs):
    """A connection that sent while the server was stopped is not idle: what waits is read first."""
    with runs.server(*any_port("lf"), "--commit", 5, "--idle", 1) as server, server.open("lf") as one:
        one.sendall(record(b"before", 0) + b"\n")
        until(lambda: record(b"before", 0) in held(server, set()))
        server.stop()
        one.sendall(record(b"meanwhile", 0) + b"\n")
        time.sleep(1.5)
        server.go_on()
        seen = until(lambda: record(b"meanwhile", 0) in held(server, set()), 5)
        runs.results.check("what came while the server was stopped is read", seen, str(server.lines()))


def places(runs):
    """An address has no more places than it may. If all are taken, one that has none gets one, and the connection that
    was silent longest of the address that has most is closed."""
    with runs.server(*any_port("lf"), "--commit", 5, "--connections", 3, "--per-peer", 2) as server:
        others = []
        for n, source in enumerate([ELSEWHERE, ELSEWHERE, "127.0.0.3"]):
            others.append(server.open("lf", source))
            others[-1].sendall(record(b"other", n) + b"\n")
            until(lambda: record(b"other", n) in held(server, set()))
        with server.open("lf", ELSEWHERE) as third:
            runs.results.check("an address that has as many as it may gets no more", until_closed(third))
        with server.open("lf", HERE) as one:
            one.sendall(record(b"good", 0) + b"\n")
            seen = until(lambda: record(b"good", 0) in held(server, set()), 5)
            runs.results.check("an address that has none gets a place", seen, str(server.lines()))
            runs.results.check("the one that was silent longest is closed", until_closed(others[0]))
            others[1].sendall(record(b"other", 4) + b"\n")
            others[2].sendall(record(b"other", 5) + b"\n")
            both = {record(b"other", 4), record(b"other", 5)}
            runs.results.check("the others go on", until(lambda: both <= held(server, set()), 5), str(server.lines()))
        for other in others:
            other.close()


def hosts(runs, told):
    """The addresses of IPv6 that begin with the same 64 bits have the places of one; others, and those of IPv4, have their own."""
    with runs.server("--lf", "[::1]:0", *any_port("lf"), "--commit", 5, "--connections", 8, "--per-peer", 1) as server:
        ipv6, ipv4 = server.places()
        with server.open(ipv6, "2001:db8::1") as one:
            one.sendall(record(b"host", 0) + b"\n")
            until(lambda: record(b"host", 0) in held(server, set()))
            with server.open(ipv6, "2001:db8::2") as other:
                told.append(("an address of a host that has as many as it may gets no more", until_closed(other)))
            for n, (where, source) in enumerate([(ipv6, "2001:db8:0:1::1"), (ipv4, HERE), (ipv4, ELSEWHERE)], 1):
                with server.open(where, source) as other:
                    other.sendall(record(b"host", n) + b"\n")
                    seen = until(lambda n=n: record(b"host", n) in held(server, set()), 5)
                told.append((f"another host has places of its own, {source}", seen))


def places_of_hosts(runs):
    told, tell = multiprocessing.Pipe(False)

    def run():
        try:
            own_network("2001:db8::1", "2001:db8::2", "2001:db8:0:1::1")
        except OSError as error:
            tell.send(str(error))
            return
        found = []
        hosts(runs, found)
        tell.send(found)

    process = forked(run)
    found = told.recv() if told.poll(60) else [("the places of hosts: it comes to its end", False)]
    process.join()
    if isinstance(found, str):
        runs.results.skip("the places of hosts", f"a network of its own is not to be had: {found}")
        return
    for name, holds in found:
        runs.results.check(name, holds)


def modes_of(path, modes, found):
    """The modes that a path has had."""
    while not found.is_set():
        try:
            modes.append(os.stat(path).st_mode & 0o777)
        except FileNotFoundError:
            pass


def mode_before_its_name(runs):
    """A socket at a path has its mode as soon as it has its name, and nothing else is left beside it."""
    folder = runs.path / "folder"
    folder.mkdir()
    path, modes = folder / "socket", []
    for _ in range(10):
        found = threading.Event()
        watcher = threading.Thread(target=modes_of, args=(path, modes, found))
        watcher.start()
        with runs.server("--unix", path):
            found.set()
            watcher.join()
            runs.results.check("nothing is left beside it", os.listdir(folder) == ["socket"], str(os.listdir(folder)))
        path.unlink()
    runs.results.check("the mode comes before the name", set(modes) == {0o666}, str(set(map(oct, modes))))
    with runs.server("--unix", path):
        runs.refused("a path whose socket is open", ["--unix", path], "in use")
    deep = runs.path / ("d" * (107 - len(str(runs.path)) - 4))
    deep.mkdir()
    with runs.server("--unix", deep / "s", "--commit", 5) as server:
        server.datagrams("unix", record(b"deep", 0))
        seen = until(lambda: record(b"deep", 0) in held(server, set()), 5)
        runs.results.check("a path of 107 octets at most", seen, str(server.told()))


FEW = [buffer_that_is_larger, socket_without_a_port, silence_while_stopped, places, places_of_hosts, mode_before_its_name]


def may_be_open():
    """How many connections of noise there are in each run, as far as the limit on descriptors goes."""
    hard = resource.getrlimit(resource.RLIMIT_NOFILE)[1]
    most = max(MANY) if hard == resource.RLIM_INFINITY else hard - DESCRIPTORS
    return [count if count <= most else min(FEWER, most) for count in MANY]


def with_descriptors(run):
    """Runs with as many descriptors as there may be."""
    soft, hard = resource.getrlimit(resource.RLIMIT_NOFILE)
    resource.setrlimit(resource.RLIMIT_NOFILE, (hard, hard))
    try:
        return run()
    finally:
        resource.setrlimit(resource.RLIMIT_NOFILE, (soft, hard))


def try_all(program, results):
    for test in FEW:
        with tempfile.TemporaryDirectory() as path:
            try:
                test(Runs(program, results, path))
            except Exception as error:  # a server that has ended too early
                results.check(f"{test.__name__}: it comes to its end", False, repr(error))
    for kind in KINDS:
        for count in may_be_open():
            for test in beside, new_connections:
                with tempfile.TemporaryDirectory() as path:
                    test(Runs(program, results, path), kind, count)


def noisy_senders(program, results):
    with_descriptors(lambda: try_all(program, results))


# ---------------------------------------------------------------- the table

def millis(waits, share):
    ordered = in_order(waits)
    return f"{1_000 * ordered[min(len(ordered) - 1, int(share * len(ordered)))]:.0f}" if ordered else "-"


def row(kind, count, waits):
    cells = [f"{millis(one, 0.99)}, {millis(one, 1)}" for one in waits.values()]
    lost = sum(one.count(None) for one in waits.values())
    return f"| {kind} | {count:,} | {' | '.join(cells)} | {lost} |"


def table(program, kinds, seconds, folder):
    print("| Noise | Connections | Datagrams | Records of a connection | Lost |\n|---|---|---|---|---|", flush=True)
    for kind in kinds:
        for count in may_be_open():
            with tempfile.TemporaryDirectory(dir=folder) as path:
                print(row(kind, count, waits_beside(Runs(program, Results(), path), kind, count, seconds)), flush=True)


def main(words):
    words, options = list(words), {"--seconds": str(SECONDS), "--folder": None}
    for name in options:
        if name in words:
            at = words.index(name)
            options[name] = words[at + 1]
            del words[at:at + 2]
    if not words or words[0].startswith("-") or not set(words[1:]) <= set(KINDS):
        print(__doc__, f"The kinds are {', '.join(KINDS)}.", file=sys.stderr)
        return 2
    with_descriptors(lambda: table(Program(words[0]), words[1:] or KINDS, float(options["--seconds"]), options["--folder"]))
    return 0

"""A run of `serve` over the loopback, those who send to it, and what its store holds."""
import fcntl
import itertools
import os
import re
import signal
import socket
import struct
import subprocess
import sys
import tempfile
import termios
import time
from pathlib import Path

from lib.ledger import but_unlisted
from lib.loopback import HERE, NEVER
from lib.reference import archive_text, counted_frames

LISTENERS = ("--udp", "--counted", "--lf", "--unix", "--inherited", "--metrics")
LISTENING = re.compile(rb"listening (udp|counted|lf|unix|metrics) (.*)")
ADDRESS = re.compile(r"\[?([0-9a-f.:]+?)\]?:(\d+)")
AWAY = struct.pack("ii", 1, 0)  # with SO_LINGER a close sends a reset
WINDOW = 20  # datagrams that may wait in a socket

# hands its own descriptors over as a service manager does, from 3 on, and becomes the program
HAND_OVER = """
import os, sys
count = int(sys.argv[1])
held = [os.dup(int(word)) for word in sys.argv[2:2 + count]]
held = [os.dup2(one, 100 + n, False) for n, one in enumerate(held)]
for n, one in enumerate(held):
    os.dup2(one, 3 + n, True)
os.environ.update(LISTEN_FDS=str(count), LISTEN_PID=str(os.getpid()))
os.execv(sys.argv[2 + count], sys.argv[2 + count:])
"""


def until(holds, seconds=NEVER):
    """Waits until a condition holds, and gives its last answer. It looks for at most half of the time."""
    finish, pause = time.monotonic() + seconds, 0.001
    while True:
        begun = time.monotonic()
        seen = holds()
        now = time.monotonic()
        if seen or now >= finish:
            return seen
        time.sleep(max(pause, now - begun))
        pause = min(0.05, 1.5 * pause)


def handing_over(*sockets):
    """The words before those of a program that is handed these sockets, and the descriptors that it has to inherit."""
    numbers = [one.fileno() for one in sockets]
    return [sys.executable, "-c", HAND_OVER, str(len(numbers)), *map(str, numbers)], numbers


def address_of(place):
    """The address that a line names, as a socket takes it; a path, or what else it is, as it stands."""
    found = ADDRESS.fullmatch(place)
    return (found.group(1), int(found.group(2))) if found else place


def spelled(address):
    """An address as the server's lines have it."""
    return (f"[{address[0]}]:{address[1]}" if ":" in address[0] else f"{address[0]}:{address[1]}").encode()


def family_of(address):
    if isinstance(address, str):
        return socket.AF_UNIX
    return socket.AF_INET6 if ":" in address[0] else socket.AF_INET


def has_ipv6():
    try:
        with socket.socket(socket.AF_INET6, socket.SOCK_DGRAM) as one:
            one.bind(("::1", 0))
    except OSError:
        return False
    return True


# ---------------------------------------------------------------- senders

def waiting(one):
    """How many octets that a connection sent have not reached the other end."""
    return struct.unpack("i", fcntl.ioctl(one, termios.TIOCOUTQ, b"\0" * 4))[0]


def until_arrived(*sockets):
    """Waits until all that was sent waits at the other end, or was taken there."""
    return until(lambda: not any(map(waiting, sockets)))


def hexadecimal(address):
    """An address of IPv4 as the system's tables have it."""
    return f"{socket.inet_aton(address[0])[::-1].hex().upper()}:{address[1]:04X}"


def is_taken(one):
    """Whether the other end has accepted a connection of IPv4, and taken all that has come."""
    ends = [hexadecimal(one.getpeername()), hexadecimal(one.getsockname())]
    rows = [line.split() for line in Path("/proc/net/tcp").read_text().splitlines()[1:]]
    return any(row[1:3] == ends and row[4].endswith(":00000000") and row[9] != "0" for row in rows)


def until_taken(one):
    """Waits until the other end has taken all that was sent."""
    return until_arrived(one) and until(lambda: is_taken(one))


def until_closed(one):
    """Whether the other end closes a connection, which sends nothing itself."""
    try:
        return one.recv(1) == b""
    except ConnectionResetError:
        return True  # it was closed before all that came was read
    except OSError:
        return False


def end(one):
    """Ends a connection, and waits until the other end has read all and closes it too."""
    try:
        one.shutdown(socket.SHUT_WR)
    except OSError:
        pass  # the other end was faster
    with one:
        return until_closed(one)


def reset(one):
    one.setsockopt(socket.SOL_SOCKET, socket.SO_LINGER, AWAY)
    one.close()


def datagrams_wait(address):
    """Whether datagrams wait in the socket at an address of IPv4 or IPv6."""
    table, port = "/proc/net/udp6" if ":" in address[0] else "/proc/net/udp", f":{address[1]:04X}"
    rows = [line.split() for line in Path(table).read_text().splitlines()[1:]]
    return any(row[1].endswith(port) and row[3] == "07" and int(row[4].split(":")[1], 16) for row in rows)


# ---------------------------------------------------------------- the server

def heed_signals():
    """In a new process: the signals that end it do, even if whoever started the tests ignores them."""
    for number in signal.SIGINT, signal.SIGHUP:
        signal.signal(number, signal.SIG_DFL)


class Server:
    """A run of `serve` on a store. Once this is made it has told where it listens, or has ended. `front` are words
    before the program's, `hands` sockets that it is handed."""

    def __init__(self, program, store, *words, front=(), hands=(), environment=None, **streams):
        self.program, self.store = program, Path(store)
        self.notes = tempfile.TemporaryFile()
        handed, numbers = handing_over(*hands) if hands else ([], [])
        streams = {"stdin": subprocess.DEVNULL, "stderr": self.notes, "pass_fds": numbers, "preexec_fn": heed_signals, **streams}
        words = list(map(str, words))
        self.process = subprocess.Popen([*front, *handed, program.path, "serve", str(store), *words],
                                        env={**os.environ, **(environment or {})}, **streams)
        self.asked = sum(word in LISTENERS for word in words)
        if streams["stderr"] is self.notes:
            until(lambda: len(self.places()) == self.asked or self.process.poll() is not None)

    def __enter__(self):
        return self

    def __exit__(self, *_):
        self.kill()

    def told(self):
        """All lines on standard error so far, those on listeners too."""
        return os.pread(self.notes.fileno(), os.fstat(self.notes.fileno()).st_size, 0).split(b"\n")[:-1]

    def lines(self):
        """The lines behind those on the listeners."""
        return [line for line in self.told() if not LISTENING.fullmatch(line)]

    def places(self):
        """Kind and address of each listener, as told."""
        found = [LISTENING.fullmatch(line) for line in self.told()]
        return [(seen.group(1).decode(), address_of(seen.group(2).decode())) for seen in found if seen]

    def address(self, kind):
        """The address of the first listener of a kind."""
        return next(address for one, address in self.places() if one == kind)

    def open(self, where, source=None):
        """A socket that sends to a listener: to the first of a kind, or to that of a pair of kind and address; from
        `source`, if that is given."""
        kind, address = where if isinstance(where, tuple) else (where, self.address(where))
        one = socket.socket(family_of(address), socket.SOCK_DGRAM if kind in ("udp", "unix") else socket.SOCK_STREAM)
        one.settimeout(NEVER)
        if source and kind != "unix":
            one.bind((source, 0))
        one.connect(address)
        return one

    def send(self, where, *pieces):
        """A connection that sends these pieces and ends, and of which the server has read all; gives its address."""
        one = self.open(where)
        name = one.getsockname()
        try:
            for piece in pieces:
                one.sendall(piece)
        except ConnectionError:
            pass  # it was closed, which the server tells
        end(one)
        return name

    def datagrams(self, where, *sent):
        """A socket that sends these datagrams, never more than some at once; gives its address."""
        with self.open(where) as one:
            address, name = one.getpeername(), one.getsockname()
            for n, octets in enumerate(sent, 1):
                one.send(octets)
                if n % WINDOW == 0 or n == len(sent):
                    until(lambda: isinstance(address, str) or not datagrams_wait(address))
        return name

    def until_told(self, line, count=1):
        """Waits until lines that are these octets, or match them, have come so often; whether they have."""
        holds = line.fullmatch if isinstance(line, re.Pattern) else line.__eq__
        return until(lambda: sum(map(bool, map(holds, self.lines()))) >= count)

    def read(self, *words):
        """Status, output and notes of `read` beside it."""
        return self.program.run(["read", str(self.store), *words])

    def held(self):
        """The records that are read beside it."""
        return set(counted_frames(self.read()[1])[0])

    def until_held(self, archive):
        """Waits until `read` gives this archive; gives its last answer."""
        seen = []

        def holds():
            seen[:] = self.read()
            return seen[1] == archive

        until(holds)
        return tuple(seen)

    def stop(self):
        """Stops the process for a while."""
        self.process.send_signal(signal.SIGSTOP)

    def go_on(self):
        self.process.send_signal(signal.SIGCONT)

    def status(self):
        """The status, once it has ended."""
        try:
            return self.process.wait(timeout=NEVER)
        except subprocess.TimeoutExpired:
            self.process.kill()
            self.process.wait()
            return "not ended"

    def end(self):
        """Ends its standard input; gives the status and the lines."""
        self.process.stdin.close()
        return self.status(), self.lines()

    def kill(self, number=signal.SIGKILL):
        """Ends it by a signal; gives the status."""
        if self.process.poll() is None:
            self.process.send_signal(number)
        if self.process.stdin:
            self.process.stdin.close()
        return self.status()


def any_port(kind):
    """The words for a listener at a port of the loopback address that the system chooses."""
    return [f"--{kind}", f"{HERE}:0"]


# ---------------------------------------------------------------- tests

SOON = ["--commit", 5]


def numbered(number):
    """A record that no other number has."""
    return b"<14>1 - h serving - - - %d" % number


def refused_file(store, name="refused"):
    """Each line of a file of refused frames, and what follows its line feed, or None."""
    frames, fault = counted_frames((Path(store) / name).read_bytes())
    return fault or [tuple(frame.split(b"\n", 1)) if b"\n" in frame else (frame, None) for frame in frames]


class Runs:
    """The program, the results, and a folder for the stores of a test."""

    def __init__(self, program, results, path):
        self.program, self.results, self.path, self.count = program, results, Path(path), itertools.count()

    def store(self):
        """The path of a store that is not there."""
        return self.path / f"store{next(self.count)}"

    def server(self, *words, store=None, **others):
        return Server(self.program, store or self.store(), *words, **others)

    def until_eof(self, *words, store=None, **others):
        """A server that ends with its standard input."""
        return self.server(*words, "--until-eof", store=store, **{"stdin": subprocess.PIPE, **others})

    def archive(self, octets, *words):
        return self.program.run(["archive", *words], octets)

    def verify(self, store):
        return but_unlisted(self.program.run(["verify", str(store)]))

    def holds(self, name, server, *sent):
        """A store comes to hold just these records."""
        text = archive_text(sent)
        self.results.same(f"{name}: what is read", server.until_held(text), (0, text, b""))

    def ends(self, name, server, status, *lines):
        """A server ends with this status, after just these lines."""
        seen, right = server.end(), (status, list(lines))
        self.results.check(f"{name}: its end", seen == right, f"{seen} for {right}"[:3_000])

    def refused(self, name, words, *said, **others):
        """A server does not begin: a line that has these words, status 2."""
        with self.server(*words, **others) as server:
            status, told = server.status(), server.told()
        right = status == 2 and len(told) == 1 and all(str(word).encode() in told[0] for word in said)
        self.results.check(name, right, f"{status} {told}")

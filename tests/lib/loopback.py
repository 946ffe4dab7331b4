"""`collect` and other receivers over the loopback."""
import ctypes
import fcntl
import itertools
import os
import select
import socket
import struct
import subprocess
import time
from pathlib import Path
from random import randrange

HERE = "127.0.0.1"
NEVER = 30  # seconds, after which a run is given up
# below those that the system chooses from, so that no other socket has one by chance
PORTS = range(12_000, 32_000)


CLONE_NEWNET = 0x40000000  # unshare(2)
SIOCSIFFLAGS, SIOCSIFADDR = 0x8914, 0x8916  # netdevice(7)
UP = 0x41  # IFF_UP and IFF_RUNNING


def own_network(*addresses):
    """Moves this process to a network of its own, whose loopback has these addresses of IPv6 too."""
    libc = ctypes.CDLL(None, use_errno=True)
    if libc.unshare(CLONE_NEWNET):
        raise OSError(ctypes.get_errno(), os.strerror(ctypes.get_errno()))
    with socket.socket(socket.AF_INET, socket.SOCK_DGRAM) as one:
        fcntl.ioctl(one, SIOCSIFFLAGS, struct.pack("16sH14x", b"lo", UP))
    with socket.socket(socket.AF_INET6, socket.SOCK_DGRAM) as one:
        for address in addresses:
            octets = socket.inet_pton(socket.AF_INET6, address)
            fcntl.ioctl(one, SIOCSIFADDR, struct.pack("16sIi", octets, 128, socket.if_nametoindex("lo")))


def kind_of(transport):
    return socket.SOCK_DGRAM if transport == "udp" else socket.SOCK_STREAM


def ports():
    """The ports of this process, over and over: of parts that run side by side each has some of its own."""
    first, count = map(int, os.environ.get("TESTS_PORTS", f"{PORTS[0]} {len(PORTS)}").split())
    begin = randrange(count)
    return itertools.cycle([first + (begin + n) % count for n in range(count)])


OWN = ports()


def free_port(kind):
    """A port that no socket has."""
    while True:
        port = next(OWN)
        with socket.socket(socket.AF_INET, kind) as one:
            try:
                one.bind(("", port))
            except OSError:
                continue
            return port


def sockets(kind, port, state):
    """The rows of the system's table on the sockets of the loopback address that have the port and are in the state."""
    table = "/proc/net/tcp" if kind == socket.SOCK_STREAM else "/proc/net/udp"
    rows = [line.split() for line in Path(table).read_text().splitlines()[1:]]
    return [row for row in rows if row[1] == f"0100007F:{port:04X}" and row[3] == state]


def is_bound(kind, port):
    """Whether a socket of the loopback address has the port: a listening one, for connections."""
    return bool(sockets(kind, port, "0A" if kind == socket.SOCK_STREAM else "07"))


def is_taken(kind, port):
    """Whether no octets and no connections wait at a port: the program has taken all that was sent."""
    rows = sockets(kind, port, "01" if kind == socket.SOCK_STREAM else "07")
    return all(int(row[4].split(":")[1], 16) == 0 and row[9] != "0" for row in rows)


def until_bound(kind, port, ended):
    """Waits until a program has the port, or has ended."""
    begun = time.monotonic()
    while not is_bound(kind, port) and not ended() and time.monotonic() - begun < NEVER:
        time.sleep(0.002)


class Collect:
    """A run of `collect`, bound to a free port. `front` are words before the program's, `number` writes its numbers."""

    def __init__(self, program, transport, count, words=(), environment=None, front=(), number=str, **streams):
        self.kind = kind_of(transport)
        self.port = free_port(self.kind)
        streams = {"stdin": subprocess.DEVNULL, "stdout": subprocess.PIPE, "stderr": subprocess.PIPE, **streams}
        words = [*front, program.path, "collect", transport, number(self.port), number(count), *words]
        self.process = subprocess.Popen(words, env={**os.environ, **(environment or {})}, **streams)
        until_bound(self.kind, self.port, lambda: self.process.poll() is not None)

    def open(self):
        one = socket.socket(socket.AF_INET, self.kind)
        one.settimeout(NEVER)
        try:
            one.connect((HERE, self.port))
        except OSError:
            pass  # the program has ended, which its answer says
        return one

    def until_taken(self):
        """Waits until the program has taken all that was sent, or has ended."""
        begun = time.monotonic()
        while not is_taken(self.kind, self.port) and self.process.poll() is None and time.monotonic() - begun < NEVER:
            time.sleep(0.002)

    def connection(self, *pieces, apart=False):
        """A connection that sends the pieces and ends; `apart` sends each once the program has taken what came before."""
        with self.open() as one:
            try:
                for n, piece in enumerate(pieces):
                    if apart and n:
                        self.until_taken()
                    one.sendall(piece)
            except OSError:
                pass

    def datagrams(self, *octets):
        with self.open() as one:
            for piece in octets:
                try:
                    one.send(piece)
                except OSError:
                    pass

    def line(self):
        """The next line on standard error, while the program runs."""
        ready, _, _ = select.select([self.process.stderr], [], [], NEVER)
        return self.process.stderr.readline() if ready else b"nothing in time"

    def answer(self):
        """Status, output and notes."""
        try:
            output, notes = self.process.communicate(timeout=NEVER)
        except subprocess.TimeoutExpired:
            self.process.kill()
            output, notes = self.process.communicate()
            return "not ended", output, notes
        return self.process.returncode, output, notes


def collected(program, transport, sent, words=(), environment=None, apart=False, **others):
    """The answer after these datagrams, or connections one after the other, each with its pieces, as `connection` sends them."""
    run = Collect(program, transport, len(sent), words, environment, **others)
    if transport == "udp":
        run.datagrams(*sent)
    else:
        for pieces in sent:
            run.connection(*([pieces] if isinstance(pieces, bytes) else pieces), apart=apart)
    return run.answer()

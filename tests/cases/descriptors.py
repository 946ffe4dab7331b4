"""Standard descriptors that are closed when the program starts: nothing else ever takes their place.

A read or a write of one is the fault that it is of a closed descriptor, and what does not need it goes on as ever. `collect`
tells at once, before anything is received, that its output cannot be written.
"""
import os
import socket
import subprocess
import time
from itertools import combinations
from pathlib import Path

from cases.rows import A, EXAMPLE, Y, Z, entries
from lib.faults import failed
from lib.loopback import Collect, free_port, kind_of
from lib.program import run

CLOSED = [closed for count in (1, 2, 3) for closed in combinations((0, 1, 2), count)]
SOON = 10  # seconds in which a program ends that waits for nothing
LINE = b"2 syntax priority 0\n"
MODES = {os.O_RDONLY: "reading alone", os.O_WRONLY: "writing alone", os.O_RDWR: "both"}


def closing(closed):
    """The words before those of a program that starts with these descriptors closed."""
    return ["sh", "-c", 'exec "$@" ' + " ".join(f"{one}>&-" for one in closed), "sh"]


def run_without(closed, program, words, octets=b"", **streams):
    """The answer of a run that starts with these descriptors closed."""
    shell, *front = closing(closed)
    return run(shell, [*front, program.path, *words], octets, **streams)


def label(closed, name):
    return f"closed {' '.join(map(str, closed))}: {name}"


class Case:
    """What is run, and its answer with all descriptors open. `front` is the output that it may have written where its first
    line cannot be."""

    def __init__(self, name, words, octets, whole, front=b"", reads=False):
        self.name = name
        self.words = words
        self.octets = octets
        self.whole = whole
        self.front = front
        self.reads = reads

    def is_right(self, closed, seen):
        """Whether this is the answer with these descriptors closed."""
        status, output, notes = self.whole
        if self.reads and 0 in closed:
            right = 2, b"", b"read fault\n"
        elif 1 in closed and output:
            # what was to be told of the frames is told before the fault or not at all
            return seen[:2] == (2, b"") and (seen[2] == b"" if 2 in closed else failed("write", seen, self.whole))
        elif 2 in closed and notes:
            right = 2, self.front, b""
        else:
            right = self.whole
        shown = right[0], b"" if 1 in closed else right[1], b"" if 2 in closed else right[2]
        return seen == shown


def cases(folder):
    left, right = folder.file("left", entries(A, Z)), folder.file("right", entries(A, Y))
    bad, none = folder.file("bad", entries(Y, A)), folder.file("none", b"")
    lines = A + b"\nx\n" + Y + b"\n"
    lf = ["--framing", "lf"]
    return [
        Case("archive", ["archive", *lf], A + b"\n" + Y + b"\n", (0, entries(A, Y), b""), reads=True),
        Case("archive, a frame is refused", ["archive", *lf], lines, (1, entries(A, Y), LINE), reads=True),
        Case("convert", ["convert"], A, (0, A, b""), reads=True),
        Case("check", ["check", *lf], lines, (1, b"1 ok\n" + LINE + b"3 ok\n", b""), reads=True),
        Case("send", ["send", "x"], b"", (0, b"<13>1 - - - - - - x\n", b"")),
        Case("merge", ["merge", left, right], b"", (0, entries(A, Z, Y), b"")),
        Case("merge of what is no archive", ["merge", bad, none], b"", (1, entries(Y), b"left not-ascending 48\n"), entries(Y)),
        Case("migrate", ["migrate", left], b"", (0, entries(A, Z), b"")),
        Case("migrate of what is no archive", ["migrate", bad], b"", (1, b"", b"old not-ascending 48\n")),
    ]


def state(folder):
    """The octets of each file of a folder, and when they were written."""
    return {path.name: (path.read_bytes(), path.stat().st_mtime_ns) for path in sorted(folder.path.iterdir()) if path.is_file()}


def on_files(program, results):
    """The commands that read standard input or files."""
    for case in cases(program.folder):
        for closed in CLOSED:
            before = state(program.folder)
            seen = run_without(closed, program, case.words, case.octets)
            results.check(label(closed, case.name), case.is_right(closed, seen), str(seen))
            results.check(label(closed, f"{case.name}: its files"), state(program.folder) == before, "changed")


def send(run, transport, pieces):
    """Sends each piece, as a datagram or as a connection of its own, and gives the sockets."""
    senders = []
    for piece in pieces:
        senders.append(one := run.open())
        try:
            one.sendall(piece)
            if transport != "udp":
                one.shutdown(socket.SHUT_WR)
        except OSError:
            pass  # the program has ended
    return senders


def sent_back(one, transport):
    """What a sender has got when the program has ended."""
    one.settimeout(0 if transport == "udp" else SOON)
    octets = b""
    try:
        while piece := one.recv(65_536):
            octets += piece
    except OSError:
        pass  # nothing came, or there was no connection
    one.close()
    return octets


COLLECTED = [
    ("lf", "two connections", [A + b"\n", Y + b"\n"], (0, entries(A, Y), b""), b""),
    ("lf", "a frame is refused", [A + b"\nx\n", Y + b"\n"], (1, entries(A, Y), LINE), entries(A)),
    ("udp", "two datagrams", [A, Y], (0, entries(A, Y), b""), b""),
    ("udp", "a datagram is refused", [A, b"x"], (1, entries(A), LINE), entries(A)),
]


def on_sockets(program, results):
    """`collect`, whose senders get nothing but the end."""
    for transport, name, pieces, whole, front in COLLECTED:
        case = Case(f"collect {transport}, {name}", [], b"", whole, front)
        for closed in CLOSED:
            run = Collect(program, transport, len(pieces), front=closing(closed))
            senders = send(run, transport, pieces)
            seen = run.answer()
            right = seen == (2, b"", b"" if 2 in closed else b"write fault\n") if 1 in closed else case.is_right(closed, seen)
            results.check(label(closed, case.name), right, str(seen))
            back = [sent_back(one, transport) for one in senders]
            results.check(label(closed, f"{case.name}: what its senders get back"), not any(back), str(back))


def held(process, descriptor):
    """What a descriptor of a process is, and what it is open for."""
    try:
        flags = Path(f"/proc/{process.pid}/fdinfo/{descriptor}").read_text().split("flags:")[1].split()[0]
        return f"{os.readlink(f'/proc/{process.pid}/fd/{descriptor}')} for {MODES[int(flags, 8) & os.O_ACCMODE]}"
    except OSError:
        return "closed"


def waiting(program, closed):
    """A program that waits for input or, where its output is open, for a datagram."""
    if 1 not in closed:
        return Collect(program, "udp", 1, front=closing(closed)).process
    words = [*closing(closed), program.path, "archive", "--framing", "lf"]
    return subprocess.Popen(words, stdin=subprocess.PIPE, stdout=subprocess.PIPE, stderr=subprocess.PIPE)


def in_their_place(program, results):
    """While the program waits, /dev/null is in the place of each closed descriptor, the wrong way round."""
    for closed in CLOSED:
        if {0, 1} <= set(closed):
            continue  # there is nothing that it waits for
        process, begun = waiting(program, closed), time.monotonic()
        for one in closed:
            right = "/dev/null for " + MODES[os.O_WRONLY if one == 0 else os.O_RDONLY]
            while (seen := held(process, one)) != right and time.monotonic() - begun < 2:
                time.sleep(0.02)
            results.check(label(closed, f"in place of {one}"), seen == right, f"{seen}, not {right}")
        process.kill()
        process.communicate()


def told_at_once(program, results):
    """An output that cannot be written at all is told before anything is received; any other is written."""
    source = program.folder.file("source", b"octets")
    read_end, write_end = os.pipe()
    os.close(read_end)
    for transport in "lf", "counted", "udp":
        words = ["collect", transport, str(free_port(kind_of(transport))), "2"]
        with open(source, "rb") as readable:
            for name, closed, output in [("a closed output", [1], subprocess.PIPE), ("closed output and notes", [1, 2], subprocess.PIPE),
                                         ("an output for reading alone", [], readable), ("a pipe without a reader", [], write_end)]:
                seen = run_without(closed, program, words, stdin=subprocess.DEVNULL, stdout=output, timeout=SOON)
                right = 2, b"" if 2 in closed else b"write fault\n"
                results.check(f"collect {transport}, {name}: told at once", (seen[0], seen[2]) == right, str(seen))
    os.close(write_end)
    with open(source, "r+b") as both:
        one = Collect(program, "udp", 1, stdout=both)
        one.datagrams(A)
        seen = one.answer()
    right = (seen[0], seen[2]) == (0, b"") and Path(source).read_bytes() == entries(A)
    results.check("collect to a file for reading and writing", right, str(seen))


def no_null_device(program, results):
    """Where /dev/null cannot be opened the run says so, and neither reads nor writes anything else."""
    for words in ["convert"], ["collect", "lf", str(free_port(kind_of("lf"))), "1"]:
        seen = program.run(words, EXAMPLE, program.failing(null=1))
        line = b"error: a standard descriptor is closed, and /dev/null cannot be opened\n"
        results.same(f"{words[0]}: /dev/null cannot be opened", seen, (2, b"", line))


def descriptors(program, results):
    on_files(program, results)
    no_null_device(program, results)
    on_sockets(program, results)
    in_their_place(program, results)
    told_at_once(program, results)

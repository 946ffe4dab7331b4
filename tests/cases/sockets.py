"""The sockets of `collect`: datagrams of each size come whole, a reset is told and is no end, a half-closed socket is one.

No clause holds what a call of the system gives. So each row is also tried on the program with a wrong source in its place
(tests/lib/shim.c), whose answer has to differ from the right one.
"""
import socket
import struct
from collections import namedtuple

from cases.rows import A, MARK, Y, Z, entries
from lib.loopback import Collect

FRONT = b"<0>1 - - - - - - "
LEGACY = b"<13>1 - - - - - - "
DATAGRAM_MAX = 65_507
FAULT = b"socket fault\n"
RESET = struct.pack("ii", 1, 0)  # with SO_LINGER a close sends a reset

# datagrams, other words of the command, and the answer; the faults are those of a source that gives another answer
Datagrams = namedtuple("Datagrams", "name sent words right faults")

# the octets of a connection, and the answer to it
Stream = namedtuple("Stream", "name transport octets right")


def message(size):
    """A record of so many octets, no two parts of which are equal."""
    numbers = b" ".join(b"%d" % n for n in range(size))
    return (FRONT + numbers)[:size]


def text(size):
    """So many octets that are no record by their last octet alone, which is no UTF-8."""
    return FRONT + MARK + b"a" * (size - len(FRONT) - len(MARK) - 1) + b"\xff"


def refused(size):
    """Octets of the size whose fault lies at their end, and what is told of it behind the number."""
    if size <= 2:
        return b"<1"[:size], b"syntax priority %d\n" % size
    return text(size), b"syntax message %d\n" % (size - 1)


HALF, CUT, PASSED = {"half": 1}, {"cut": 4_095}, {"empty_passed": 1}
LARGE = [1_000, 4_096, DATAGRAM_MAX]


def faults_at(size):
    """The wrong sources that a datagram of the size shows."""
    return [HALF] * (size > 0) + [CUT] * (size > 4_095) + [PASSED] * (size == 0)


def datagram_rows():
    """Each size as a record, and as octets whose fault lies at their end, one datagram a run, and all of them in one."""
    for size in LARGE:
        yield Datagrams(f"a record of {size}", [message(size)], [], (0, entries(message(size)), b""), faults_at(size))
    for size in [0, 1, 2, *LARGE]:
        octets, told = refused(size)
        yield Datagrams(f"{size} octets that are refused", [octets], [], (1, b"", b"1 " + told), faults_at(size))
    for size in 0, 1, 2:
        octets = b"xy"[:size]
        record = LEGACY + octets if size else LEGACY[:-1]
        right = 0, entries(record), b""
        yield Datagrams(f"{size} octets as a legacy packet", [octets], ["--legacy", "2001"], right, faults_at(size))
    numbered = list(enumerate((refused(size) for size in [0, 1, 2, *LARGE]), 1))
    sent = [*(octets for _, (octets, _) in numbered), *map(message, reversed(LARGE)), A]
    lines = b"".join(b"%d %b" % (n, told) for n, (_, told) in numbered)
    right = 1, entries(*map(message, LARGE), A), lines
    yield Datagrams("all sizes", sent, [], right, [HALF, CUT, PASSED])


def received(program, row, environment=None):
    """The answer to the datagrams, each sent when that before it was taken, and to one more than was asked for."""
    run = Collect(program, "udp", len(row.sent), row.words, environment)
    for octets in row.sent:
        run.datagrams(octets)
        run.until_taken()
    run.datagrams(Z)
    return run.answer()


def datagrams(program, results):
    for row in datagram_rows():
        results.same(f"collect udp, {row.name}", received(program, row), row.right)
        for fault in row.faults:
            seen = received(program, row, program.failing(**fault))
            differs = seen[0] in (0, 1) and seen != row.right
            results.check(f"collect udp, {row.name}: the test sees {fault}", differs, str(seen)[:300])


# what came before a connection was reset; the octets of a frame that was begun are no record
RESETS = [
    Stream("before any octet", "lf", b"", (2, b"", FAULT)),
    Stream("in the middle of the first frame", "lf", A[:9], (2, b"", FAULT)),
    Stream("in the middle of a frame", "lf", A + b"\n" + Y, (2, entries(A), FAULT)),
    Stream("between frames", "lf", A + b"\n" + Y + b"\n", (2, entries(A, Y), FAULT)),
    Stream("behind a frame that is refused", "lf", A + b"\nx\n", (2, entries(A), b"2 syntax priority 0\n" + FAULT)),
    Stream("before any octet", "counted", b"", (2, b"", FAULT)),
    Stream("in the middle of a count", "counted", entries(A) + b"4", (2, entries(A), FAULT)),
    Stream("behind a count", "counted", entries(A) + b"45 ", (2, entries(A), FAULT)),
    Stream("in the middle of a frame", "counted", entries(A) + entries(Y)[:-1], (2, entries(A), FAULT)),
    Stream("between frames", "counted", entries(A, Y), (2, entries(A, Y), FAULT)),
    Stream("behind a bad count", "counted", entries(A) + b"x", (2, entries(A), b"2 bad-count 22\n" + FAULT)),
]

# what came before the sender shut its end and no more; it reads on, so that the socket is not closed
ENDS = [
    Stream("before any octet", "lf", b"", (0, b"", b"")),
    Stream("in the middle of a frame", "lf", A + b"\n" + Y, (1, entries(A), b"unterminated 20\n")),
    Stream("between frames", "lf", A + b"\n" + Y + b"\n", (0, entries(A, Y), b"")),
    Stream("before any octet", "counted", b"", (0, b"", b"")),
    Stream("in the middle of a count", "counted", entries(A) + b"4", (1, entries(A), b"unterminated 22\n")),
    Stream("in the middle of a frame", "counted", entries(A) + entries(Y)[:-1], (1, entries(A), b"unterminated 22\n")),
    Stream("between frames", "counted", entries(A, Y), (0, entries(A, Y), b"")),
]


def framed(row, record):
    return entries(record) if row.transport == "counted" else record + b"\n"


def reset(program, row, environment=None):
    """The answer to a connection that is reset behind the octets, and to one behind it, which must not be served."""
    run = Collect(program, row.transport, 2, environment=environment)
    with run.open() as sender:
        sender.sendall(row.octets)
        run.until_taken()
        sender.setsockopt(socket.SOL_SOCKET, socket.SO_LINGER, RESET)
    run.connection(framed(row, Z))
    return run.answer()


def reset_while_waiting(program, row, environment=None):
    """The same, where a first connection is served while that one is opened and reset: all that it sent came before."""
    run = Collect(program, row.transport, 3, environment=environment)
    with run.open() as first:
        with run.open() as sender:
            sender.setsockopt(socket.SOL_SOCKET, socket.SO_LINGER, RESET)
        first.sendall(framed(row, A))
    run.connection(framed(row, Z))
    return run.answer()


def half_closed(program, row, environment=None):
    """The answer to a connection whose sender sends no more, and waits for the program to end."""
    run = Collect(program, row.transport, 1, environment=environment)
    with run.open() as sender:
        sender.sendall(row.octets)
        sender.shutdown(socket.SHUT_WR)
        return run.answer()


def resets(program, results):
    as_end = program.failing(reset_is_end=1)
    for row in RESETS:
        name = f"collect {row.transport}, a reset {row.name}"
        results.same(name, reset(program, row), row.right)
        seen = reset(program, row, as_end)
        taken = seen[0] in (0, 1) and entries(Z) in seen[1] and FAULT not in seen[2]
        results.check(f"{name}: the test sees it taken for an end", taken, str(seen))
    for transport in "lf", "counted":
        row = Stream("of a connection that waits", transport, b"", (2, entries(A), FAULT))
        name = f"collect {transport}, a reset {row.name}"
        results.same(name, reset_while_waiting(program, row), row.right)
        seen = reset_while_waiting(program, row, as_end)
        results.same(f"{name}: the test sees it taken for an end", seen, (0, entries(A, Z), b""))


def ends(program, results):
    for row in ENDS:
        name = f"collect {row.transport}, half-closed {row.name}"
        results.same(name, half_closed(program, row), row.right)
        seen = half_closed(program, row, program.failing(end_is_reset=1))
        results.same(f"{name}: the test sees it taken for a reset", seen, (2, row.right[1], FAULT))
        if row.name == "between frames":  # each octet is one of a record
            seen = half_closed(program, row, program.failing(half=1))
            results.check(f"{name}: the test sees half of each piece", seen[0] in (0, 1) and seen != row.right, str(seen))


def sockets(program, results):
    datagrams(program, results)
    resets(program, results)
    ends(program, results)

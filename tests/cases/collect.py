"""`collect`: datagrams and connections over the loopback, sockets that fail, and each of its calls refused in turn."""
import re
import socket
import struct
import time
from random import Random

from cases.mutated import mutations
from cases.rows import A, EXAMPLE, LEGACY_2001, MARK, NOT_COLLECTED, Y, Z, entries
from lib import reference
from lib.loopback import HERE, Collect, collected, kind_of

LONG = b"<0>1 - - - - - - " + b"a" * 262_127  # 262,144 octets
BOTH = entries(A, Y)

# transport, datagrams or connections, other words, status, archive, lines
COLLECTED = [
    ("udp", [Y, A], [], 0, BOTH, b""),
    ("udp", [A, Y, A, A], [], 0, BOTH, b""),
    ("udp", [b"", A, b"x", A + b"\n"], [], 1, entries(A, A + b"\n"), b"1 syntax priority 0\n3 syntax priority 0\n"),
    ("udp", [LONG[:65_507]], [], 0, entries(LONG[:65_507]), b""),
    ("counted", [entries(A) + b"45 ", entries(Y)], [], 1, BOTH, b"unterminated 22\n"),
    ("counted", [b"x", entries(A)], [], 1, entries(A), b"1 bad-count 0\n"),
    ("counted", [entries(Y) + b"0 " + entries(Z), entries(A), b"1x"], [], 1, BOTH, b"2 bad-count 48\n4 bad-count 1\n"),
    ("counted", [entries(A, Y), b"", entries(Z)], [], 0, entries(A, Z, Y), b""),
    ("counted", [[b"1", b"9 " + A[:7], A[7:], b"45 " + Y], [b"45", b" " + Z]], [], 0, entries(A, Z, Y), b""),
    ("counted", [b"262145 " + b"a" * 262_145 + entries(A)], [], 1, entries(A), b"1 too-long\n"),
    ("counted", [b"262144 " + LONG], [], 0, b"262144 " + LONG, b""),
    ("lf", [A + b"\n", Y + b"\n"], [], 0, BOTH, b""),
    ("lf", [A + b"\n" + Y, Y + b"\n"], [], 1, BOTH, b"unterminated 20\n"),
    ("lf", [b"\nx\n" + A + b"\n", b"y\n" + Y + b"\n"], [], 1, BOTH,
     b"1 syntax priority 0\n2 syntax priority 0\n4 syntax priority 0\n"),
    ("lf", [b"a" * 262_145 + b"\n" + A + b"\n"], [], 1, entries(A), b"1 too-long\n"),
    ("lf", [b"", b""], [], 0, b"", b""),
    ("lf", [A + b"\n"] * 150, [], 0, entries(A), b""),
    ("udp", [b"<13>Feb  5 17:32:18 10.0.0.99 cron[42]: x", A, b"<13>1 x", MARK + b"A\xff"], [*LEGACY_2001, "--zone", "W0500"], 1,
     entries(A, b"<13>1 2001-02-05T22:32:18.000000Z 10.0.0.99 cron 42 - - x"), b"3 syntax timestamp 6\n4 legacy-not-utf8 4\n"),
    ("lf", [b"<13>Feb  5 17:32:18 h\n", b"z\n"], LEGACY_2001, 0,
     entries(b"<13>1 - - - - - - z", b"<13>1 2001-02-05T17:32:18.000000Z h - - - -"), b""),
    ("counted", [b"1 x"], ["--legacy=2001"], 0, entries(b"<13>1 - - - - - - x"), b""),
    ("udp", [A], ["--zone", "W0500"], 0, entries(A), b""),
    ("udp", [A + b"\n", A + b"\0", A], ["--trim"], 0, entries(A), b""),
    ("udp", [A + b"\n", A], [], 0, entries(A, A + b"\n"), b""),
    ("counted", [entries(A + b"\r\n", Y), entries(Y + b"\n")], ["--trim"], 0, entries(A, Y), b""),
    ("lf", [A + b"\r\n", Y + b"\0\n" + A + b"\n"], ["--trim"], 0, entries(A, Y), b""),
    ("udp", [b"<13>Feb  5 17:32:18 h\n", b"z\r\n"], [*LEGACY_2001, "--trim"], 0,
     entries(b"<13>1 - - - - - - z", b"<13>1 2001-02-05T17:32:18.000000Z h - - - -"), b""),
]


def tables(program, results):
    for transport, sent, words, *right in COLLECTED:
        seen = collected(program, transport, sent, words)
        results.same(f"collect {transport} {' '.join(words)}: {str(sent)[:80]}", seen, tuple(right))
    for words in NOT_COLLECTED:
        seen = program.run(["collect", *words])
        results.check(f"collect {words} is refused", seen[:2] == (2, b"") and seen[2] not in (b"", b"socket fault\n"), str(seen))
    seen = collected(program, "udp", [A], number="{:041d}".format)
    results.same("forty leading zeros", seen, (0, entries(A), b""))


def faults(program, results):
    """Ports in use, connections that are reset, devices that are full."""
    for transport in "udp", "lf", "counted":
        with socket.socket(socket.AF_INET, kind_of(transport)) as other:
            other.bind((HERE, 0))
            if transport != "udp":
                other.listen()
            seen = program.run(["collect", transport, str(other.getsockname()[1]), "1"])
        results.same(f"{transport}: a port in use", seen, (2, b"", b"socket fault\n"))
    one = Collect(program, "lf", 3)
    one.connection(Y + b"\n")
    with one.open() as reset:
        reset.sendall(A + b"\nx\n<13>1")
        results.check("a line is told while the connection is open", one.line() == b"3 syntax priority 0\n")
        reset.setsockopt(socket.SOL_SOCKET, socket.SO_LINGER, struct.pack("ii", 1, 0))
    results.same("a connection that is reset", one.answer(), (2, BOTH, b"socket fault\n"))
    with open("/dev/full", "wb") as full:
        seen = collected(program, "udp", [A], stdout=full)
        results.check("collect to a full device", (seen[0], seen[2]) == (2, b"write fault\n"), str(seen))
        seen = collected(program, "udp", [A, b"x", Y], stderr=full)
        results.check("a line of collect that cannot be written", seen[:2] == (2, entries(A)), str(seen))


def order(program, results):
    """Connections are served one after the other, in the order in which they were opened; no more than were asked for."""
    one = Collect(program, "lf", 2)
    with one.open() as first, one.open() as second, one.open() as third:
        second.sendall(b"x\n" + Y + b"\n")
        second.shutdown(socket.SHUT_WR)
        third.sendall(Z + b"\n")
        first.sendall(A + b"\n\n")
        results.check("the first connection is served first", one.line() == b"2 syntax priority 0\n")
        first.shutdown(socket.SHUT_WR)
        results.same("then the second, and no third", one.answer(), (1, BOTH, b"3 syntax priority 0\n"))
    one = Collect(program, "counted", 1)
    with one.open() as slow:
        for octet in b"x1 x19 " + A:
            slow.send(bytes([octet]))
            if octet == b"x"[0]:
                time.sleep(0.05)
        slow.shutdown(socket.SHUT_WR)
        results.same("the rest after a bad count is passed over", one.answer(), (1, b"", b"1 bad-count 0\n"))


def same(program, results, frames):
    """What came by connections is what `archive` makes of their octets, one after the other; of datagrams, what the second
    reader makes of them."""
    random = Random(5426)
    for framing in "counted", "lf":
        chosen = [frame for frame in frames if frame and (framing == "counted" or b"\n" not in frame)]
        octets = [reference.framed(framing, frame) for frame in chosen]
        cuts = [0, *sorted(random.sample(range(len(octets)), 6)), len(octets)]
        streams = [b"".join(octets[begin:end]) for begin, end in zip(cuts, cuts[1:])]
        pieces = [re.findall(rb".{1,%d}" % random.choice([7, 1_000, 9_999]), stream, re.DOTALL) for stream in streams]
        seen, right = collected(program, framing, pieces), program.run(["archive", "--framing", framing], b"".join(octets))
        results.same(f"collect of {framing} connections", seen, right)
    one, sent = Collect(program, "udp", 300), random.choices(frames, k=300)
    with one.open() as sender:
        for n, frame in enumerate(sent):
            sender.send(frame)
            if n % 20 == 19:
                time.sleep(0.01)
    answers = reference.Answers(b"", "counted")
    answers.outcomes = [reference.read(frame) for frame in sent]
    results.same("collect of datagrams", one.answer(), answers.archive())


FRAMES = [Y, b"x", EXAMPLE, A]
RUNS = [("udp", FRAMES), ("lf", [[Y + b"\nx\n" + EXAMPLE[:40], EXAMPLE[40:] + b"\n"], [A + b"\n"]]),
        ("counted", [[entries(Y, b"x", EXAMPLE)[:60], entries(Y, b"x", EXAMPLE)[60:]], [entries(A)]])]


def fronts():
    """What is answered after the first frames, none of them to all."""
    answers = reference.Answers(entries(*FRAMES), "counted")
    for count in range(len(FRAMES) + 1):
        front = reference.Answers(b"", "counted")
        front.outcomes = answers.outcomes[:count]
        yield front.archive()


def calls(program, results):
    """Each growth, each call of a socket and each write is refused, interrupted or short in turn."""
    whole = list(fronts())[-1]
    some = [(archive, notes) for _, archive, notes in fronts()]
    for transport, sent in RUNS:
        name = f"collect {transport}"

        def refused(**chosen):
            return collected(program, transport, sent, environment=program.failing(**chosen), apart=True)

        def stopped(seen):
            """Whether a socket's fault was told, after some of the frames."""
            return seen[0] == 2 and seen[2].endswith(b"socket fault\n") and (seen[1], seen[2].removesuffix(b"socket fault\n")) in some

        environment, counts = program.counting()
        # so that a run makes the same calls each time
        results.same(f"{name}: ample", collected(program, transport, sent, environment=environment, apart=True), whole)
        made = counts()
        right = made.bind >= 2 and made.receive >= 4 and (made.accept == 2) == (transport != "udp")
        results.check(f"{name}: calls are counted", right, str(made))
        reported = 0
        for n in range(1, made.malloc + 2):
            seen = refused(malloc=n)
            wanting = seen[:2] == (3, b"") and any(seen[2] == notes + b"want of memory\n" for _, notes in some)
            reported += wanting
            results.check(f"{name}: growth {n} of {made.malloc}", wanting or seen == whole, str(seen))
        results.check(f"{name}: a growth that is refused is reported", 0 < reported <= made.malloc, str(reported))
        for n in range(1, made.bind + 1):
            results.same(f"{name}: bind {n}", refused(bind=n), (2, b"", b"socket fault\n"))
        for kind in "accept", "receive":
            for n in range(1, getattr(made, kind) + 1):
                label = f"{name}: {kind} {n} of {getattr(made, kind)}"
                seen = refused(**{kind: n})
                # pieces that came as one make fewer calls, but never less than a piece and an end for each connection
                results.check(f"{label} fails", stopped(seen) or (n > 4 and seen == whole), str(seen))
                seen = refused(**{f"{kind}_again": n})
                results.check(f"{label} is interrupted", seen == whole or stopped(seen), str(seen))
                if kind == "receive":
                    results.same(f"{label} is short", refused(receive_short=n), whole)
        # nothing is written at the start, where it is asked whether the output can be written
        results.same(f"{name}: the archive cannot be written", refused(fd=1, write=1), (2, b"", whole[2] + b"write fault\n"))
        results.same(f"{name}: a short write", refused(fd=1, write_short=1), whole)
        seen = refused(fd=2, write=1)
        right = seen[0] == 2 and seen[1] in [archive for archive, _ in some[2:]] and seen[2] == b""
        results.check(f"{name}: a line cannot be written", right, str(seen))


def collect(program, results):
    tables(program, results)
    faults(program, results)
    order(program, results)
    same(program, results, mutations(400))
    calls(program, results)

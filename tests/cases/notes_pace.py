"""The pace of the notes of `serve`: of one peer a burst of a hundred lines and ten a second are written, of all peers
a thousand and a thousand a second. The others are counted, and `refused` has every frame, each behind its line.
"""
import re
import tempfile
import time

from lib.reference import counted
from lib.server import Runs, SOON, any_port, end, refused_file, spelled, until

BURST, A_SECOND = 100, 10
ALL = 1_000
NOISE = 20_000
WRITES = 200  # at most, on standard error, for so much noise
SLACK = 20  # lines more, for the time that a test does not see
OTHER = "127.0.0.2"
COUNTS = re.compile(rb"received \d+ .* refused (\d+) .* octets \d+ quiet (\d+)")


def told_of(server, words):
    """The lines that have these words."""
    return [line for line in server.lines() if words in line]


def empty_frames(server, count, source=None):
    """A connection that sends so many empty lines, of which the server has read all; gives its address."""
    one = server.open("lf", source)
    name = one.getsockname()
    one.sendall(b"\n" * count)
    end(one)
    return name


def most(begun, burst=BURST, a_second=A_SECOND):
    """How many lines may have come by now."""
    return burst + a_second * (time.monotonic() - begun) + SLACK


def one_peer(runs):
    """A client that sends only line feeds: few lines, and every frame is kept behind its line, as it came."""
    with runs.until_eof(*any_port("lf"), *SOON) as server:
        begun = time.monotonic()
        front = b"lf %b " % spelled(empty_frames(server, NOISE))
        status, lines = server.end()
        right = BURST <= len(lines) <= most(begun)
        runs.results.check("one peer: its lines go by the pace", right, f"{len(lines)} lines")
        first = [front + b"%d syntax priority 0" % n for n in range(1, BURST + 1)]
        runs.results.check("one peer: its burst is told in order", lines[:BURST] == first, str(lines[:3]))
        runs.results.check("one peer: the status", status == 1, str(status))
        kept = refused_file(server.store)
        right = [(front + b"%d syntax priority 0" % n, b"") for n in range(1, NOISE + 1)]
        runs.results.check("one peer: every frame is kept behind its line", kept == right, f"{len(kept)} {kept[:2]}")


def two_peers(runs):
    """What one peer spends another still has."""
    with runs.until_eof(*any_port("lf"), *SOON) as server:
        begun = time.monotonic()
        noisy = spelled(empty_frames(server, NOISE))
        quiet = spelled(empty_frames(server, BURST // 2, OTHER))
        server.end()
        told = len(told_of(server, b"lf %b " % quiet))
        runs.results.check("another peer is told", told == BURST // 2, f"{told} lines")
        told = len(told_of(server, b"lf %b " % noisy))
        runs.results.check("the noisy one goes by its pace", BURST <= told <= most(begun), f"{told} lines")


def ports_of_a_peer(runs):
    """A peer is an address, whatever its ports and however it sends."""
    with runs.until_eof(*any_port("lf"), *any_port("udp"), *SOON) as server:
        begun = time.monotonic()
        for _ in range(5):
            empty_frames(server, BURST)
        server.datagrams("udp", *[b"x"] * BURST)
        server.end()
        told = len(server.lines())
        runs.results.check("a peer has one pace for all its ports", BURST <= told <= most(begun), f"{told} lines")
        kept = len(refused_file(server.store))
        runs.results.check("all its frames are kept", kept == 6 * BURST, f"{kept} frames")


def connections(runs):
    """Lines on connections go by the same pace."""
    with runs.until_eof(*any_port("counted"), *SOON) as server:
        begun = time.monotonic()
        for _ in range(3 * BURST):
            server.send("counted", b"x")
        server.end()
        told = len(told_of(server, b" bad-count 0"))
        runs.results.check("lines on connections go by the pace", BURST <= told <= most(begun), f"{told} lines")


def all_peers(runs):
    """All peers together have a pace too."""
    with runs.until_eof(*any_port("lf"), *SOON) as server:
        begun = time.monotonic()
        for n in range(1, 41):
            empty_frames(server, BURST, f"127.0.1.{n}")
        server.end()
        told = len(server.lines())
        right = ALL <= told <= most(begun, ALL, ALL)
        runs.results.check("all peers: their lines go by the pace", right, f"{told} lines of {40 * BURST}")


def counts(runs):
    """The line of each minute, here of a second, has how many lines were quiet."""
    environment = runs.program.failing(speed=60)
    with runs.until_eof(*any_port("lf"), *SOON, environment=environment) as server:
        empty_frames(server, NOISE)
        seen = until(lambda: [found for found in map(COUNTS.fullmatch, server.lines()) if found])
        runs.results.check("quiet lines are counted", bool(seen), str(server.lines()[-1:]))
        if seen:
            refused, quiet = map(int, seen[-1].groups())
            told = len(told_of(server, b" syntax priority 0"))
            right = refused == NOISE and told + quiet == NOISE
            runs.results.check("each line is told or counted", right, f"{refused} refused, {told} told, {quiet} quiet")
        server.end()


def writes(runs):
    """The lines on refused frames are joined: so much noise makes few writes on standard error."""
    environment, made = runs.program.counting(fd=2)
    with runs.until_eof(*any_port("lf"), *SOON, environment=environment) as server:
        empty_frames(server, NOISE)
        status, lines = server.end()
        right = status == 1 and len(lines) >= BURST and len(refused_file(server.store)) == NOISE
        runs.results.check("writes: each frame was refused", right, f"{status}, {len(lines)} lines")
    count = made().write
    runs.results.check("writes: lines are joined", 0 < count < WRITES, f"{count} writes for {NOISE} frames")


def records(runs):
    """Records are told of by no line, and are no quieter for the noise of their peer."""
    sent = [b"<14>1 - h pace - - - %d" % n for n in range(300)]
    with runs.until_eof(*any_port("lf"), *any_port("counted"), *SOON) as server:
        empty_frames(server, NOISE)
        server.send("counted", counted(sent))
        runs.holds("records beside noise", server, *sent)
        server.end()


TESTS = [one_peer, two_peers, ports_of_a_peer, connections, all_peers, counts, writes, records]


def notes_pace(program, results):
    for test in TESTS:
        with tempfile.TemporaryDirectory() as path:
            try:
                test(Runs(program, results, path))
            except Exception as error:  # a server that has ended too early, or waits for ever
                results.check(f"notes, {test.__name__}: it comes to its end", False, repr(error))

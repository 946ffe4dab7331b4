"""`serve` within a limit on its address space: connections that are silent cost what they hold, the room of a long frame is
given back once it has ended, want of memory ends the connection that it was wanted for alone, and a set that has no room for a
record is written to the disk. Without a limit it takes at most what docs/OPERATING.md says."""
import re
import tempfile
from pathlib import Path

from cases.noisy_senders import with_descriptors
from lib.program import ROOT
from lib.reference import counted
from lib.server import Runs, any_port, until

MEBIBYTE = 1_048_576
LIMIT = 128 * MEBIBYTE  # with 262,144 octets for each of the connections below they would take twice as much
CONNECTIONS = 1_000
OF_ONE = 250  # from one address of the loopback
HALF = b"200000 <14>1 - - - - - - "
MOST = HALF + b"x" * 190_000
GOOD = b"<14>1 - h good - - - beside them"
LONG = b"<14>1 - h long - - - " + b"x" * 200_000
PERIOD, CHECKPOINT = 200, 64  # MiB that come within a commit, and the default
EARLY = 32  # MiB that wait for a commit at most
BOUND = re.compile(r"^    (\d+) \+ ([\d.]+) \* CHECKPOINT \+ ([\d.]+) \* PERIOD \+ [\d.]+ \* CONNECTIONS$", re.MULTILINE)


def limited():
    """The words before the program's that limit its address space."""
    return ["sh", "-c", f'ulimit -n 4096; ulimit -v {LIMIT // 1_024}; exec "$@"', "sh"]


def beside(runs, name, first, *records):
    """So many connections send these octets and are silent then; a record of another connection and a datagram are kept."""
    words = [*any_port("counted"), *any_port("udp"), "--commit", 5, "--connections", 2_048]
    datagram = GOOD + b", a datagram"
    with runs.until_eof(*words, front=limited()) as server:
        silent = []
        for n in range(CONNECTIONS):
            silent.append(server.open("counted", f"127.0.0.{2 + n // OF_ONE}"))
            silent[-1].sendall(first)
        server.send("counted", counted([GOOD]))
        server.datagrams("udp", datagram)
        wanted = {GOOD, datagram, *records}
        runs.results.check(f"{name}: what others send is kept", until(lambda: wanted <= server.held()), str(server.lines()[-3:]))
        runs.results.check(f"{name}: the server goes on", server.process.poll() is None, str(server.lines()[-3:]))
        for one in silent:
            one.close()


def half_sent(server, n):
    """A connection that sends most of a long frame and is silent then, unless it was closed before."""
    one = server.open("counted", f"127.0.0.{2 + n // OF_ONE}")
    try:
        one.sendall(MOST)
    except OSError:
        pass  # the server closed it, as it may
    return one


def is_kept(server, number):
    """Whether a record that a new connection sends is held then, and one that a datagram has."""
    record, datagram = (b"<14>1 - h good - - - %s %d" % (kind, number) for kind in (b"counted", b"udp"))
    try:
        server.send("counted", counted([record]))
    except OSError:
        pass
    server.datagrams("udp", datagram)
    return until(lambda: {record, datagram} <= server.held(), 2)


def long_halves(runs, name):
    """Frames that are not whole take more memory than there is: some of their connections are closed, and no other is."""
    words = [*any_port("counted"), *any_port("udp"), "--commit", 5, "--connections", 2_048]
    with runs.until_eof(*words, front=limited()) as server:
        silent = [half_sent(server, n) for n in range(CONNECTIONS)]
        closed = until(lambda: any(b" closed: want of memory" in line for line in server.lines()))
        runs.results.check(f"{name}: it is told that connections were closed", closed, str(server.lines()[-3:]))
        kept = any(is_kept(server, number) for number in range(10))
        runs.results.check(f"{name}: what others send is kept", kept, str(server.lines()[-3:]))
        for one in silent:
            one.close()
        runs.results.same(f"{name}: the status", server.end()[0], 1)


def large_set(runs, name, *words):
    """More records come than there is memory for, before a checkpoint is due: all are kept."""
    records = [b"<14>1 - h large - - - %d %s" % (number, b"y" * 8_000) for number in range(25_000)]
    with runs.until_eof(*any_port("counted"), *words, "--checkpoint", 2_048, front=limited()) as server:
        server.send("counted", counted(records))
        runs.results.check(f"{name}: all is kept", until(lambda: len(server.held()) == len(records)), str(server.lines()[-3:]))
        runs.ends(name, server, 0)


def most_memory(server):
    """How many MiB a server has had in memory at most."""
    status = Path(f"/proc/{server.process.pid}/status").read_text()
    return int(re.search(r"VmHWM:\s*(\d+)", status)[1]) / 1_024


def bound(period):
    """The most MiB that the operator is told, beside connections, if so many MiB come within one commit."""
    fixed, of_checkpoint, of_period = map(float, BOUND.search((ROOT / "docs/OPERATING.md").read_text()).groups())
    return fixed + of_checkpoint * CHECKPOINT + of_period * min(period, EARLY)


def within_the_bound(runs):
    """What comes within one commit takes no more memory than the operator is told, however much it is; one connection is as
    good as none."""
    frames = [counted([b"<14>1 2026-11-29T10:00:00.%06dZ h good - - - %s" % (n, b"x" * 170)]) for n in range(1_000_000)]
    octets = b"".join(frames[:PERIOD * MEBIBYTE // len(frames[0])])
    with runs.until_eof(*any_port("counted"), "--commit", 6_000) as server:
        server.send("counted", octets)
        written = until(lambda: sum(path.stat().st_size for path in server.store.iterdir()) > len(octets) * 0.9)
        taken, most = most_memory(server), bound(PERIOD)
        runs.results.check("memory of what comes within a commit", written and taken <= most, f"{taken:.0f} MiB of {most:.0f}")


def short_packets(runs):
    """So do legacy packets of a few octets, each of which is a record."""
    letters = bytes(octet for octet in range(33, 127) if octet != ord("<"))
    octets = b"".join(bytes([one, two, three]) + b"\n" for one in letters for two in letters for three in letters) * 4
    octets += b"".join(bytes([one, two, three, four]) + b"\n" for one in letters[:50] for two in letters for three in letters for four in letters[:8])
    with runs.until_eof(*any_port("lf"), "--commit", 6_000, "--legacy", 2026) as server:
        server.send("lf", octets)
        size = len(octets) / MEBIBYTE
        taken, most = most_memory(server), bound(EARLY)
        runs.results.check("memory of short legacy packets", taken <= most, f"{taken:.0f} MiB of {most:.0f}, for {size:.0f} MiB")


def try_all(program, results):
    for name, first, records in [
        ("one octet", b"1", []),
        ("half a frame", HALF, []),
        ("a long frame, whole", counted([LONG]), [LONG]),
    ]:
        with tempfile.TemporaryDirectory() as path:
            try:
                beside(Runs(program, results, path), name, first, *records)
            except Exception as error:  # a server that has ended too early
                results.check(f"{name}: it comes to its end", False, repr(error))
    for case, name, *words in [
        (long_halves, "most of a long frame"),
        (large_set, "a large set, committed often", "--commit", 20),
        (large_set, "a large set, committed each second", "--commit", 1_000),
    ]:
        with tempfile.TemporaryDirectory() as path:
            try:
                case(Runs(program, results, path), name, *words)
            except Exception as error:  # a server that has ended too early
                results.check(f"{name}: it comes to its end", False, repr(error))


def scarce_memory(program, results):
    with_descriptors(lambda: try_all(program, results))
    with tempfile.TemporaryDirectory() as path:
        within_the_bound(Runs(program, results, path))
    with tempfile.TemporaryDirectory() as path:
        short_packets(Runs(program, results, path))

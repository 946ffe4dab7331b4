"""How fast a sender may send to `serve --rate`: datagrams above the rate are dropped, and connections wait."""
import time

from cases.watching import METRICS, of_listener, scrape
from lib.reference import counted
from lib.server import SOON, any_port, numbered, spelled, until

OTHER = "127.0.0.2"
RATE = 5
BURST = 10 * RATE


def over_rate(name):
    return b"%b over-rate" % spelled(name)


def datagrams(runs):
    """Datagrams beyond the burst are dropped, told and counted, of their address alone; those at a path are not asked."""
    path = str(runs.path / "socket")
    with runs.until_eof(*any_port("udp"), "--unix", path, "--rate", RATE, *METRICS, *SOON) as server:
        name = next(f"{kind} {spelled(address).decode()}" for kind, address in server.places() if kind == "udp")
        sent = [numbered(n) for n in range(3 * BURST)]
        with server.open("udp") as one:
            own = one.getsockname()
            for octets in sent[:2 * BURST]:
                one.send(octets)
        until(lambda: server.lines().count(over_rate(own)) >= BURST - 2 * RATE)
        with server.open("udp", OTHER) as one:
            one.send(sent[2 * BURST])
        server.datagrams(("unix", path), *sent[2 * BURST + 1:])
        until(lambda: sent[-1] in server.held() and sent[2 * BURST] in server.held())
        held = server.held()
        passed = sum(octets in held for octets in sent[:2 * BURST])
        runs.results.check("a burst passes, and little more", BURST <= passed <= BURST + 2 * RATE, str(passed))
        runs.results.check("the burst is what came first", all(octets in held for octets in sent[:BURST]))
        runs.results.check("others are not dropped", all(octets in held for octets in sent[2 * BURST:]))
        dropped = until(lambda: of_listener(scrape(server), "syslogbox_dropped_datagrams_total", name) == 2 * BURST - passed)
        runs.results.check("they are counted by listener", dropped)
        status, lines = server.end()
        runs.results.same("each is told", lines.count(over_rate(own)), 2 * BURST - passed)
        runs.results.check("it changes no status", status == 0, str(status))


def minute(runs):
    """The counts of each minute have them, under --rate alone."""
    for words, told in (["--rate", RATE], True), ([], False):
        with runs.until_eof(*any_port("udp"), *words, *SOON, environment=runs.program.failing(speed=60)) as server:
            server.datagrams("udp", numbered(0))
            lines = until(lambda: [line for line in server.lines() if line.startswith(b"received 1 ")])
            runs.results.check(f"counts under {words}", bool(lines) and (b" over-rate 0" in lines[0]) == told, str(lines)[:300])
            server.end()


def connections(runs):
    """Of a connection above the rate nothing is lost, it is not idle meanwhile, and another address is not slowed."""
    burst, more = 10, 3  # under a rate of one a second
    sent, quick = [numbered(n) for n in range(burst + more)], numbered(9_999)
    for kind, frames in ("lf", lambda records: b"".join(one + b"\n" for one in records)), ("counted", counted):
        with runs.until_eof(*any_port(kind), "--rate", 1, "--idle", 1, *SOON) as server, server.open(kind) as slow:
            begun = time.monotonic()
            slow.sendall(frames(sent))
            until(lambda: len(server.held()) >= burst)
            with server.open(kind, OTHER) as one:
                one.sendall(frames([quick]))
                until(lambda: quick in server.held())
            seen = len(server.held())
            runs.results.check(f"{kind} of another address is not slowed", seen < len(sent) + 1, str(seen))
            runs.holds(f"{kind} above its rate", server, *sent, quick)
            took = time.monotonic() - begun
            runs.results.check(f"{kind} waits as long as it has to", took >= more - 0.5, f"{took:.1f} s")
            name = b"%b idle" % spelled(slow.getsockname())
            runs.results.check(f"{kind} is not idle while it waits", name not in server.lines() or time.monotonic() - begun > more + 1)


def counted_together(runs):
    """What an address sends over UDP and TCP counts together."""
    with runs.until_eof(*any_port("lf"), *any_port("udp"), "--rate", RATE, *SOON) as server:
        sent = [numbered(n) for n in range(BURST)]
        server.send("lf", b"".join(one + b"\n" for one in sent))
        until(lambda: len(server.held()) == BURST)
        with server.open("udp") as one:
            names = [one.getsockname()]
            for n in range(BURST):
                one.send(numbered(1_000 + n))
        told = until(lambda: server.lines().count(over_rate(names[0])) >= BURST - 4 * RATE)
        runs.results.check("datagrams behind a burst of lines are dropped", told)
        server.end()


RATED = [datagrams, minute, connections, counted_together]

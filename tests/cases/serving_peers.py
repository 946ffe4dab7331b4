"""Who may send to `serve`: records come from the networks of `--allow` alone, and nothing of others reaches the store."""
import re
import socket
import threading
import time

from cases.rows import A, Y, Z
from lib.loopback import HERE, kind_of
from lib.reference import counted
from lib.server import SOON, any_port, datagrams_wait, has_ipv6, numbered, refused_file, spelled, until, until_closed

OTHER = "127.0.0.2"
WINDOW = 200  # datagrams from elsewhere that may wait in a socket
STRANGE, SECONDS, A_SECOND = 10_000, 2, 1_000
COUNTS = re.compile(rb"received (\d+) .* quiet (\d+) not-allowed (\d+)")


def not_allowed(name):
    return b"%b not allowed" % spelled(name)


def connect_from(server, kind, source, octets):
    """A connection from an address that sends this, and which the server closes; gives its name."""
    with server.open(kind, source) as one:
        name = one.getsockname()
        try:
            one.sendall(octets)
        except ConnectionError:
            pass  # it was closed before
        return name, until_closed(one)


def datagram_from(server, source, octets):
    with server.open("udp", source) as one:
        one.send(octets)
        return one.getsockname()


def elsewhere(runs):
    """A connection from elsewhere is closed and a datagram thrown away, and both are told; a socket at a path is open."""
    path = str(runs.path / "socket")
    words = [*any_port("udp"), *any_port("lf"), *any_port("counted"), "--unix", path, "--allow", "192.0.2.0/24", "--allow", HERE]
    with runs.until_eof(*words, *SOON) as server:
        told = []
        for kind, octets in ("lf", Z + b"\nx\n"), ("counted", counted([Z]) + b"x"):
            name, closed = connect_from(server, kind, OTHER, octets)
            runs.results.check(f"{kind} from elsewhere is closed", closed)
            told.append(not_allowed(name))
        told += [not_allowed(datagram_from(server, OTHER, octets)) for octets in (Z, b"no record", b"")]
        until(lambda: len(server.lines()) == len(told))
        sent = [numbered(n) for n in range(4)]
        server.datagrams("udp", sent[0])
        server.send("lf", sent[1] + b"\n")
        server.send("counted", counted(sent[2:3]))
        server.datagrams("unix", sent[3])
        runs.holds("beside senders from elsewhere", server, *sent)
        runs.ends("beside senders from elsewhere", server, 0, *told)
        kept = refused_file(server.store)
        runs.results.check("nothing of them is kept", kept == [], str(kept)[:300])


def everybody(runs):
    """Without networks everybody may send; a network may be one of IPv6 alone."""
    for words, may_send in ([], True), (["--allow", "127.0.0.0/30"], True), (["--allow", "::/0"], False):
        with runs.until_eof(*any_port("udp"), *words, *SOON) as server:
            name = datagram_from(server, OTHER, A)
            if may_send:
                runs.holds(f"a sender under {words}", server, A)
            else:
                server.until_told(not_allowed(name))
            runs.ends(f"a sender under {words}", server, 0, *([] if may_send else [not_allowed(name)]))


def dual(kind):
    """A socket of both families, as a service manager opens it."""
    one = socket.socket(socket.AF_INET6, kind_of(kind))
    one.setsockopt(socket.IPPROTO_IPV6, socket.IPV6_V6ONLY, 0)
    one.bind(("::", 0))
    if kind != "udp":
        one.listen(64)
    return one


def mapped(runs):
    """Sockets that are handed over are asked too, and an IPv6 address that stands for one of IPv4 counts as that one."""
    if not has_ipv6():
        return
    hands = [dual("udp"), dual("lf")]
    ports = {kind: one.getsockname()[1] for kind, one in zip(("udp", "lf"), hands)}
    words = ["--inherited", "udp", "--inherited", "lf", "--allow", f"{HERE}/32"]
    with runs.until_eof(*words, *SOON, hands=hands) as server:
        told = []
        for source, octets in (HERE, A), (OTHER, Z):
            for kind, sent in ("udp", octets), ("lf", octets.replace(A, Y) + b"\n"):
                with socket.socket(socket.AF_INET, kind_of(kind)) as one:
                    one.bind((source, 0))
                    one.connect((source, ports[kind]))
                    one.sendall(sent)
                    told += [not_allowed((f"::ffff:{source}", one.getsockname()[1]))] if source == OTHER else []
                    until(lambda: all(map(server.lines().count, told)))
        runs.holds("addresses of both families", server, A, Y)
        runs.ends("addresses of both families", server, 0, *told)


def fling(server, address):
    """Sends many datagrams from elsewhere, never more than some at once."""
    with server.open("udp", OTHER) as one:
        for n in range(STRANGE):
            one.send(b"<14>1 - strange - - - - %d" % n)
            if n % WINDOW == 0:
                until(lambda: not datagrams_wait(address))


def beside_good(runs):
    """A sender that may send loses nothing beside one that may not; this one is told at the pace of notes, and counted. The
    server's clock goes sixty times as fast, so that its counts come each second."""
    environment = runs.program.failing(speed=60)
    words = [*any_port("udp"), "--allow", HERE, *SOON]
    with runs.until_eof(*words, environment=environment) as server, server.open("udp") as good:
        strange = threading.Thread(target=fling, args=(server, server.address("udp")))
        strange.start()
        sent, begun = [], time.monotonic()
        while len(sent) < SECONDS * A_SECOND or strange.is_alive():
            sent.append(numbered(len(sent)))
            good.send(sent[-1])
            time.sleep(max(0.0, begun + len(sent) / A_SECOND - time.monotonic()))
        strange.join()
        runs.holds("beside one that may not send", server, *sent)
        seen = until(lambda: [found.groups() for found in map(COUNTS.fullmatch, server.lines()) if found and int(found[3]) == STRANGE])
        status, lines = server.end()
        told = sum(line.endswith(b" not allowed") for line in lines)
        runs.results.check("each datagram is told or counted", seen and told + int(seen[-1][1]) == STRANGE, f"{told} {seen} {lines[-1:]}")
        runs.results.check("it changes no status", status == 0, str(status))


ALLOWED = [elsewhere, everybody, mapped, beside_good]

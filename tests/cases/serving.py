"""`serve` over real sockets: each kind of listener, frames that are refused, wrong senders, limits, ends, counts,
who may send (serving_peers.py), and its stores (serving_stores.py).

What a store holds is read by `read`, and has to be what `archive` makes of the octets that were sent. Each test waits
until something holds, and never for a time.
"""
import itertools
import os
import re
import signal
import socket
import tempfile
from pathlib import Path
from random import Random

from cases.mutated import mutations
from cases.rows import A, LEGACY_2001, Y, Z, entries
from cases.serving_peers import ALLOWED
from cases.serving_rates import RATED
from cases.serving_stores import KEPT, Sender, segments_of
from lib import reference
from lib.loopback import HERE, NEVER, free_port, kind_of
from lib.reference import archive_text, counted, counted_frames, framed
from lib.server import (SOON, Runs, any_port, datagrams_wait, end, family_of, has_ipv6, numbered, refused_file, reset,
                        spelled, until, until_arrived, until_closed, until_taken)
from lib.store_format import bodies_of, seal_of

SEED = 5426
UNTIL_STOPPED = Path(__file__).resolve().parents[2] / "contrib/until-stopped"
FRAME_MAX = 262_144
REFUSED_MAX = 64 << 20
BURST = 100  # lines on one peer that are told at once
LONG = b"<14>1 - - - - - - " + b"a" * (FRAME_MAX - 18)
BOTH = [*any_port("counted"), *any_port("lf")]


def is_datagrams(kind):
    return kind in ("udp", "unix")


def in_frame(kind, record):
    """A record as the senders of a kind send it."""
    return record if is_datagrams(kind) else framed(kind, record)


def pieces_of(octets, random, most):
    """Octets cut at random."""
    cuts = [0]
    while cuts[-1] < len(octets):
        cuts.append(cuts[-1] + random.randint(1, most))
    return [octets[begin:finish] for begin, finish in zip(cuts, cuts[1:])]


# ---------------------------------------------------------------- listeners

def listeners(runs):
    """All kinds at once, told kind by kind; what waits in their sockets at the end is read."""
    path = str(runs.path / "socket")
    words = ["--unix", path, *any_port("lf"), *any_port("counted"), *any_port("udp"), *any_port("lf")]
    right = ["udp", "counted", "lf", "lf", "unix"]
    if has_ipv6():
        words += [word for kind in ("udp", "counted", "lf") for word in (f"--{kind}", "[::1]:0")]
        right = ["udp", "udp", "counted", "counted", "lf", "lf", "lf", "unix"]
    with runs.until_eof(*words, *SOON) as server:
        kinds, places = [kind for kind, _ in server.places()], set(server.places())
        runs.results.check("listeners are told kind by kind", kinds == right, str(server.told()))
        runs.results.check("each has a place of its own", len(places) == len(right), str(server.told()))
        runs.results.check("the socket at a path", ("unix", path) in places, str(server.told()))
        runs.results.check("everybody may send to it", os.stat(path).st_mode & 0o777 == 0o666)
        sent = [numbered(n) for n in range(3 * len(right))]
        for n, place in enumerate(server.places()):
            send_to(server, place, *sent[3 * n:3 * n + 3])
        runs.holds("all listeners", server, *sent)
        sent += what_waits(server)
        runs.ends("all listeners", server, 0)
        runs.results.same("what waited is read", server.read(), (0, archive_text(sent), b""))


def send_to(server, place, *sent):
    """Sends records to a listener."""
    if is_datagrams(place[0]):
        return server.datagrams(place, *sent)
    return server.send(place, *(framed(place[0], one) for one in sent))


def what_waits(server):
    """A record for each listener, which waits in its socket when standard input ends."""
    server.stop()
    sent, senders = [], []
    for n, place in enumerate(server.places()):
        sent.append(numbered(1_000 + n))
        senders.append(server.open(place))
        senders[-1].sendall(in_frame(place[0], sent[-1]))
        if place[0] == "udp":
            until(lambda: datagrams_wait(place[1]))
    until_arrived(*(one for one in senders if one.type == socket.SOCK_STREAM))
    server.process.stdin.close()
    server.go_on()
    server.status()
    for one in senders:
        one.close()
    return sent


def families(runs):
    """A listener of IPv6 takes IPv6 alone, so that one of IPv4 may have its port; peers of both are told."""
    if not has_ipv6():
        return
    port = free_port(socket.SOCK_STREAM)
    with runs.until_eof("--lf", f"0.0.0.0:{port}", "--lf", f"[::]:{port}", *SOON) as server:
        right = [("lf", ("0.0.0.0", port)), ("lf", ("::", port))]
        runs.results.check("one port of both families", server.places() == right, str(server.told()))
        names = [server.send(("lf", (HERE, port)), A + b"\nx\n"), server.send(("lf", ("::1", port)), Y + b"\nx\n")]
        runs.holds("one port of both families", server, A, Y)
        lines = [b"lf %b %d syntax priority 0" % (spelled(name), n) for n, name in zip((2, 4), names)]
        runs.ends("one port of both families", server, 1, *lines)


def bound(kind, path=None):
    """A socket as a service manager opens it."""
    one = socket.socket(socket.AF_UNIX if path else socket.AF_INET, kind_of(kind))
    one.bind(path or (HERE, 0))
    if kind != "udp":
        one.listen(64)
    return one


def inherited(runs):
    """Sockets that are handed over, in their order; what comes while no server runs waits in them."""
    path, kinds = str(runs.path / "handed"), ["lf", "udp", "counted", "udp"]
    hands = [bound("lf"), bound("udp"), bound("counted"), bound("udp", path)]
    words = [word for kind in kinds for word in ("--inherited", kind)]
    places = [(kind, one.getsockname()) for kind, one in zip(kinds, hands)][:3] + [("unix", path)]
    store, sent = runs.store(), []
    for n in range(3):
        name = f"sockets that are handed over, {n}"
        with runs.until_eof(*words, *any_port("udp"), *SOON, store=store, hands=hands) as server:
            found = server.places()
            right = found[1:4] == places[:3] and [kind for kind, _ in found] == ["udp", *kinds]
            runs.results.check(f"{name}: what is told", right, str(server.told()))
            runs.holds(f"{name}: what came before", server, *sent)
            for place in [found[0], *places]:
                sent.append(numbered(len(sent)))
                send_to(server, place, sent[-1])
            runs.holds(name, server, *sent)
            runs.ends(name, server, 0)
        sent += while_none_runs(places, len(sent))
    for one in hands:
        one.close()


def while_none_runs(places, first):
    """A record for each of these places, sent while no server has them."""
    sent = []
    for n, (kind, address) in enumerate(places, first):
        with socket.socket(family_of(address), kind_of("udp" if is_datagrams(kind) else kind)) as one:
            one.connect(address)
            one.sendall(in_frame(kind, numbered(n)))
        sent.append(numbered(n))
    return sent


def not_inherited(runs):
    """Descriptors that are not what is asked for."""
    with bound("udp") as udp, bound("lf") as lf, open("/dev/null", "rb") as null:
        for name, kinds, hands in [("a descriptor that is not there", ["lf", "udp"], [lf]),
                                   ("a listening socket for datagrams", ["udp"], [lf]),
                                   ("a datagram socket for connections", ["counted"], [udp]),
                                   ("sockets in another order", ["udp", "lf"], [lf, udp]),
                                   ("what is no socket", ["lf"], [null])]:
            words = [word for kind in kinds for word in ("--inherited", kind)]
            runs.refused(name, words, "inherited: ", hands=hands)


# ---------------------------------------------------------------- frames that are refused

def lines_on(way, address, notes):
    """The lines that a server tells of a stream, by those that `archive` has on it."""
    front = b"%b %b " % (way.encode(), spelled(address))
    return [front + re.sub(rb"^\d+ (bad-count)", rb"\1", line) for line in notes.split(b"\n")[:-1]]


def ones_for(kind, frames):
    """Those of the frames that a stream can have."""
    return [one for one in frames if one and (kind == "counted" or b"\n" not in one)]


def framed_ones(kind, frames):
    """The same, framed."""
    return b"".join(framed(kind, one) for one in ones_for(kind, frames))


def kept_of(lines, frames):
    """What is kept of a connection's frames: each line, and the frame that it is on, unless that is too long."""
    return [(line, None if line.endswith(b" too-long") else frames[int(line.split(b" ")[2]) - 1]) for line in lines]


def ends_at_pace(runs, name, server, lines):
    """A server ends with status 1, after the first of these lines, and then some of them in order."""
    status, seen = server.end()
    rest = iter(lines)
    right = status == 1 and seen[:BURST] == lines[:BURST] and all(one in rest for one in seen)
    runs.results.check(f"{name}: its end", right, f"{status} {seen}"[:3_000])


def until_kept(server, last):
    """Waits until an entry is the last one of the refused frames."""
    return until(lambda: (server.store / "refused").exists() and refused_file(server.store)[-1] == last)


def streams(runs):
    """Random and changed frames of one connection, in pieces: what is held, what is told, and what is kept of it."""
    random, frames = Random(SEED), mutations(400)
    for kind in "counted", "lf":
        octets = framed_ones(kind, frames)
        _, text, notes = runs.archive(octets, "--framing", kind)
        with runs.until_eof(*any_port(kind), *SOON) as server:
            lines = lines_on(kind, server.send(kind, *pieces_of(octets, random, 4_000)), notes)
            runs.results.same(f"{kind}: what is read", server.until_held(text), (0, text, b""))
            ends_at_pace(runs, f"{kind}, random frames", server, lines)
            kept = refused_file(server.store)
            right = kept_of(lines, ones_for(kind, frames))
            runs.results.check(f"{kind}: what is kept", kept == right, str(kept)[:300])
        runs.results.check(f"{kind}: some are refused, and some are not", len(lines) > 30 and len(text) > 3_000)


def datagrams(runs):
    """The same of datagrams."""
    frames, path = [b"", *mutations(300), LONG[:65_507], b"x" * 65_507], str(runs.path / "datagrams")
    outcomes = [reference.read(frame) for frame in frames]
    text = archive_text(reference.canonical(one) for one in outcomes if not isinstance(one, bytes))
    for kind, words in ("udp", any_port("udp")), ("unix", ["--unix", path]):
        with runs.until_eof(*words, *SOON) as server:
            name = server.datagrams(kind, *frames)
            front = b"unix - " if kind == "unix" else b"udp %b " % spelled(name)
            right = [(b"%b%d %b" % (front, n, one), frame)
                     for n, (one, frame) in enumerate(zip(outcomes, frames), 1) if isinstance(one, bytes)]
            runs.results.check(f"{kind}: the last is kept", until_kept(server, right[-1]), str(server.lines()[-1:]))
            runs.results.same(f"{kind}: what is read", server.until_held(text), (0, text, b""))
            ends_at_pace(runs, f"{kind}, random datagrams", server, [line for line, _ in right])
            kept = refused_file(server.store)
            runs.results.check(f"{kind}: what is kept", kept == right, str(kept)[:300])


def at_once(runs):
    """Many connections of both framings at once, whose pieces come in any order: nothing is lost, and each frame that
    is refused is told once, with its sender and a number of its own."""
    random, frames = Random(SEED), mutations(600)
    with runs.until_eof(*BOTH, *SOON) as server:
        faults, senders, texts = {}, [], []
        for n in range(24):
            kind = "counted" if n % 2 else "lf"
            octets = framed_ones(kind, frames[25 * n:25 * n + 25])
            one = server.open(kind)
            senders.append((one, pieces_of(octets, random, 300)))
            _, text, notes = runs.archive(octets, "--framing", kind)
            texts += counted_frames(text)[0]
            front = b"%b %b " % (kind.encode(), spelled(one.getsockname()))
            faults[front] = [line.split(b" ", 1)[1] for line in notes.split(b"\n")[:-1]]
        turns = [n for n, (_, pieces) in enumerate(senders) for _ in pieces]
        random.shuffle(turns)
        for n in turns:
            senders[n][0].sendall(senders[n][1].pop(0))
        runs.results.check("each connection is read to its end", all(end(one) for one, _ in senders))
        runs.holds("connections at once", server, *texts)
        status, lines = server.end()
        kept = [line for line, _ in refused_file(server.store)]
    told = [re.fullmatch(rb"(\w+ \S+ )(\d+) (.*)", line).groups() for line in kept]
    by_sender = {front: [fault for one, _, fault in told if one == front] for front in faults}
    right = status == 1 and by_sender == faults and len(told) == sum(map(len, faults.values()))
    runs.results.check("connections at once: each fault is kept of its sender", right, str(kept)[:300])
    runs.results.check("connections at once: the first are told", lines[:BURST] == kept[:BURST], str(lines)[:300])
    numbers = [int(number) for _, number, _ in told]
    runs.results.check("numbers ascend over the run", numbers == sorted(set(numbers)) and numbers[-1] <= 600)


def cut_over(runs):
    """At 64 MiB the file of refused frames gets another name, in place of the one that had it."""
    store = runs.store()
    store.mkdir(mode=0o700)
    (store / "refused.1").write_bytes(b"old")
    sizes = [262_144] * 255
    sizes.append(REFUSED_MAX - 1 - sum(size + 7 for size in sizes) - 7)  # so the last one ends an octet before
    before = b"".join(b"%d " % size + bytes(size) for size in sizes)
    (store / "refused").write_bytes(before)
    with runs.until_eof(*any_port("lf"), *SOON, store=store) as server:
        name = spelled(server.send("lf", b"first\n", b"second\n", b"third\n"))
        lines = [b"lf %b %d syntax priority 0" % (name, n) for n in (1, 2, 3)]
        runs.ends("refused frames at 64 MiB", server, 1, *lines)
    kept = refused_file(store)
    right = list(zip(lines[1:], (b"second", b"third")))
    runs.results.check("a new file of refused frames", kept == right, str(kept)[:300])
    older = (store / "refused.1").read_bytes()
    right = older == before + framed("counted", lines[0] + b"\nfirst")
    runs.results.check("the older one", right, f"{len(older)} {older[-99:]}")


def readings(runs):
    """The options that say how frames are read."""
    for words, octets in [(["--trim"], A + b"\r\n" + Y + b"\0\n" + A + b"\n"),
                          ([*LEGACY_2001, "--zone", "W0500"], b"<13>Feb  5 17:32:18 h cron[42]: x\nz\n"),
                          ([*LEGACY_2001, "--dialect", "wide"], b"<13>2001 Feb  5 17:32:18 h cron[42]: x\n")]:
        with runs.until_eof(*any_port("lf"), *words) as server:
            server.send("lf", octets)
            runs.ends(f"serve {words}", server, 0)
            right = runs.archive(octets, "--framing", "lf", *words)
            runs.results.same(f"serve {words}: what is read", server.read(), right)


# ---------------------------------------------------------------- senders that are wrong

ONE = framed("counted", Y)

# the kind and the octets of a wrong sender, how it goes on, and what is told of it: behind its way and address where
# that begins with a space, else behind its address
WRONG = [
    ("counted", b"x", "waits", [" bad-count 0"]),
    ("counted", b"0 " + ONE, "waits", [" bad-count 0"]),
    ("counted", ONE + b"12x" + ONE, "waits", [f" bad-count {len(ONE) + 2}"]),
    ("counted", b"99999999999 ", "waits", [" bad-count 10"]),
    ("counted", ONE + ONE[:-1], "resets", [f" unterminated {len(ONE)}", "reset"]),
    ("counted", b"4", "resets", [" unterminated 0", "reset"]),
    ("counted", ONE, "resets", ["reset"]),
    ("counted", ONE + ONE[:9], "shuts", [f" unterminated {len(ONE)}"]),
    ("counted", ONE, "shuts", []),
    ("counted", b"", "shuts", []),
    ("lf", Y + b"\n" + Y[:9], "resets", [f" unterminated {len(Y) + 1}", "reset"]),
    ("lf", Y + b"\n", "resets", ["reset"]),
    ("lf", b"", "resets", ["reset"]),
    ("lf", Y + b"\n" + Y, "shuts", [f" unterminated {len(Y) + 1}"]),
    ("lf", Y + b"\n", "shuts", []),
]


def told_of(kind, address, told):
    """The lines on a connection."""
    peer = spelled(address)
    return [b"%b %b%b" % (kind.encode(), peer, one.encode()) if one.startswith(" ") else b"%b %b" % (peer, one.encode())
            for one in told]


def go_on(sender, how):
    """A sender goes on so; whether its connection comes to an end."""
    if how == "shuts":
        return end(sender)
    if how == "waits":
        with sender:
            return until_closed(sender)
    taken = until_taken(sender)
    reset(sender)
    return taken


def wrong(runs):
    """Each wrong sender ends its own connection alone, and is told; good ones, which have begun a frame, go on."""
    with runs.until_eof(*BOTH, *SOON) as server, server.open("counted") as first, server.open("lf") as other:
        sent, right = [Y], []
        for n, (kind, octets, how, told) in enumerate(WRONG):
            name = f"{kind} {octets[:60]} {how}"
            sent += [numbered(n), numbered(100 + n)]
            good = [(first, framed("counted", sent[-2])), (other, framed("lf", sent[-1]))]
            for one, frame in good:
                one.sendall(frame[:9])
            sender = server.open(kind)
            lines = told_of(kind, sender.getsockname(), told)
            sender.sendall(octets)
            runs.results.check(f"{name}: it ends", go_on(sender, how))
            runs.results.check(f"{name}: it is told", all(map(server.until_told, lines)), str(server.lines()[-4:]))
            for one, frame in good:
                one.sendall(frame[9:])
            right += lines
        runs.holds("good senders beside wrong ones", server, *sent)
        runs.results.check("good connections stay", end(first) and end(other))
        runs.ends("wrong senders", server, 1, *right)


def endless(runs):
    """A line without an end and a frame that is too long hold nobody up; what follows them is a frame again."""
    line, frame = b"a" * (4 << 20), b"%d " % (4 << 20) + b"a" * (4 << 20)
    with runs.until_eof(*BOTH, *SOON) as server, server.open("lf") as one, server.open("counted") as other:
        one.sendall(line)
        other.sendall(frame[:-9])
        server.send("counted", framed("counted", A))
        runs.holds("beside a line without an end", server, A)
        one.sendall(b"\n" + Y + b"\n")
        other.sendall(frame[-9:] + framed("counted", Z))
        runs.holds("behind a frame that is too long", server, A, Y, Z)
        right = [spelled(name.getsockname()) + b" too-long" for name in (other, one)]
        runs.results.check("they go on", end(one) and end(other))
        status, lines = server.end()
        seen = [re.sub(rb"\S+ (\S+) \d+ ", rb"\1 ", line) for line in sorted(lines)]
        runs.results.check("frames that are too long are told", status == 1 and seen == right, f"{status} {lines}")


def numbers(runs):
    """The number of a connection that was closed is given again: nothing of the one before is in the one behind it."""
    with runs.until_eof(*BOTH, *SOON, "--connections", 3, "--per-peer", 3) as server, server.open("lf") as stays:
        sent, right = [], []
        for n in range(60):
            kind, how = ("counted", "lf")[n % 2], ("resets", "shuts", "waits")[n // 2 % 3]
            begun, frame = framed(kind, numbered(n)), framed(kind, numbered(1_000 + n))
            octets, told = begun[:-1 - n % 9], [" unterminated 0"]
            if how == "waits" and kind == "counted":
                octets, told = begun + b"99x", [f" bad-count {len(begun) + 2}"]
                sent.append(numbered(n))
            how = "shuts" if (how, kind) == ("waits", "lf") else how
            sender = server.open(kind)
            lines = told_of(kind, sender.getsockname(), told + ["reset"] * (how == "resets"))
            stays.sendall(numbered(2_000 + n))
            sender.sendall(octets)
            ended = go_on(sender, how) and all(map(server.until_told, lines))
            runs.results.check(f"connection {n} {how}", ended, str(server.lines()[-4:]))
            server.send(kind, frame[:9], frame[9:])
            stays.sendall(b" stays\n")
            sent += [numbered(1_000 + n), numbered(2_000 + n) + b" stays"]
            right += lines
        runs.results.check("the one that stays", end(stays))
        runs.holds("numbers that are given again", server, *sent)
        runs.ends("numbers that are given again", server, 1, *right)


# ---------------------------------------------------------------- limits

def too_many(runs):
    """A connection above the limit is closed at once, and told; once one has ended there is room again."""
    with runs.until_eof(*any_port("lf"), *SOON, "--connections", 2, "--per-peer", 2) as server:
        first, second = server.open("lf"), server.open("lf")
        first.sendall(numbered(0) + b"\n")
        second.sendall(numbered(1) + b"\n")
        runs.holds("two connections", server, numbered(0), numbered(1))
        with server.open("lf") as third:
            line = spelled(third.getsockname()) + b" closed: too many connections"
            runs.results.check("a third is closed", until_closed(third))
        runs.results.check("a third is told", server.until_told(line), str(server.lines()))
        runs.results.check("the first ends", end(first))
        server.send("lf", numbered(3) + b"\n")
        second.sendall(numbered(4) + b"\n")
        runs.results.check("the second goes on", end(second))
        runs.holds("after a third", server, *map(numbered, (0, 1, 3, 4)))
        runs.ends("two connections", server, 0, line)


def idle(runs):
    """A connection that sends nothing for so long is closed and told, and one that does is not."""
    with runs.until_eof(*any_port("lf"), *SOON, "--idle", 3) as server:
        silent, half, alive = (server.open("lf") for _ in range(3))
        names, count = [spelled(one.getsockname()) for one in (silent, half)], itertools.count()
        half.sendall(Y[:9])

        def speaks():
            alive.sendall(numbered(next(count)) + b"\n")
            return all(name + b" idle" in server.lines() for name in names)

        runs.results.check("silent connections are told", until(speaks), str(server.lines()))
        with silent, half:
            runs.results.check("and closed", until_closed(silent) and until_closed(half))
        runs.results.check("one that is not silent goes on", end(alive))
        runs.holds("an idle connection", server, *map(numbered, range(next(count))))
        status, lines = server.end()
        right = sorted([names[0] + b" idle", b"lf %b unterminated 0" % names[1], names[1] + b" idle"])
        runs.results.check("what is told of them", (status, sorted(lines)) == (1, right), f"{status} {lines}")


def few_descriptors(runs):
    """Where the system has no descriptor left, a new connection is closed and told, and those that are open go on,
    through a checkpoint too."""
    front, away = ["sh", "-c", 'ulimit -n 32; exec "$@"', "sh"], re.compile(rb"\S+ closed: too many connections")
    sent = [b"%b %b" % (numbered(n), b"x" * 60_000) for n in range(24)]
    with runs.until_eof(*any_port("counted"), *SOON, "--checkpoint", 1, front=front) as server, \
            server.open("counted") as good:
        good.sendall(counted(sent[:1]))
        runs.holds("before descriptors are used up", server, sent[0])
        others = [server.open("counted") for _ in range(60)]
        runs.results.check("descriptors are used up", server.until_told(away, 60 - 32), str(server.lines()[-3:]))
        good.sendall(counted(sent[1:]))
        runs.holds("while no descriptor is left", server, *sent)
        runs.results.check("with a checkpoint", until(lambda: segments_of(server.store)))
        for one in others:
            end(one)
        server.send("counted", framed("counted", A))
        runs.holds("once there are descriptors again", server, A, *sent)
        runs.results.check("the good connection stays", end(good))
        status, lines = server.end()
        runs.results.check("nothing else is told", status == 0 and all(map(away.fullmatch, lines)), f"{status} {lines}")


# ---------------------------------------------------------------- commits

def commits(runs):
    """With --commit 0 what a read gave is committed before the next read, on a clock that stands still too; with any
    other it waits for the clock."""
    sent = [numbered(n) for n in range(20)]
    still = runs.program.failing(still=1)
    with runs.until_eof(*any_port("lf"), *any_port("udp"), "--commit", 0, environment=still) as server:
        with server.open("udp") as one:
            server.stop()
            for record in sent:
                one.send(record)
            server.go_on()
            runs.holds("--commit 0, datagrams", server, *sent)
        batches, _ = bodies_of((server.store / "journal.1").read_bytes())
        texts = [framed("counted", record) for record in sent]
        runs.results.same("--commit 0: a batch for each read", batches, [text + seal_of(text) for text in texts])
        with server.open("lf") as one:
            one.sendall(A + b"\n" + Y)
            runs.holds("--commit 0, a connection", server, A, *sent)
            one.sendall(b"\n")
            runs.holds("--commit 0, a connection goes on", server, A, Y, *sent)
        runs.ends("--commit 0", server, 0)
    with runs.until_eof(*any_port("lf"), "--commit", 1, environment=still) as server:
        server.send("lf", A + b"\n")
        runs.results.same("--commit 1, before a millisecond has passed", server.read(), (0, b"", b""))
        runs.ends("--commit 1", server, 0)
        runs.results.same("--commit 1, at its end", server.read(), (0, entries(A), b""))


# ---------------------------------------------------------------- ends

# the kind and the octets of a sender, and the status of a server with --until-eof
STATUSES = [
    ("nothing", "lf", b"", 0), ("a record", "lf", A + b"\n", 0), ("a refused frame", "lf", A + b"\nx\n", 1),
    ("a frame that is too long", "lf", LONG + b"a\n", 1), ("the longest record", "lf", LONG + b"\n", 0),
    ("a bad count", "counted", ONE + b"x", 1), ("a frame without an end", "lf", Y + b"\nx", 1),
]


def statuses(runs):
    """How a server ends with its standard input: all is committed then, however long --commit is."""
    for name, kind, octets, status in STATUSES:
        with runs.until_eof(*any_port(kind), "--commit", 3_600_000) as server:
            server.send(kind, octets)
            seen, lines = server.end()
            runs.results.check(f"{name}: the status", seen == status, f"{seen} {lines}")
            text = runs.archive(octets, "--framing", kind)[1]
            runs.results.same(f"{name}: what is read", server.read(), (0, text, b""))


def open_ends(runs):
    """Connections that are open when standard input ends: what came is read, and a frame that was begun is told."""
    with runs.until_eof(*BOTH, "--commit", 3_600_000) as server:
        senders = [server.open(kind) for kind in ("counted", "lf", "lf")]
        for one, octets in zip(senders, (ONE + ONE[:-1], A + b"\n" + Y, Z + b"\n")):
            one.sendall(octets)
            until_taken(one)
        status, lines = server.end()
        names = [spelled(one.getsockname()) for one in senders]
        right = [b"counted %b unterminated %d" % (names[0], len(ONE)),
                 b"lf %b unterminated %d" % (names[1], len(A) + 1)]
        name = "connections that are open at the end"
        runs.results.check(f"{name} are told", (status, sorted(lines)) == (1, right), f"{status} {lines}")
        runs.results.same(f"{name}: what is read", server.read(), (0, entries(A, Z, Y), b""))
        for one in senders:
            one.close()


def busy_end(runs):
    """A sender that never pauses keeps no server from its end: ten seconds by its clock, which goes sixty times as
    fast."""
    with runs.until_eof(*BOTH, *SOON, environment=runs.program.failing(speed=60)) as server:
        sender = Sender(server, "counted", [Y])
        server.send("lf", A + b"\n")
        runs.holds("beside a busy sender", server, A, Y)
        status, lines = server.end()
        sender.join()
        right = status in (0, 1) and all(b" unterminated " in line for line in lines) and len(lines) <= 1
        runs.results.check("a busy sender: its end", right, f"{status} {lines}")
        runs.results.same("a busy sender: what is read", server.read(), (0, entries(A, Y), b""))


def signals(runs):
    """A signal ends it, and what was committed is there."""
    for number in signal.SIGTERM, signal.SIGINT, signal.SIGHUP, signal.SIGKILL:
        with runs.server(*any_port("counted"), *SOON) as server:
            server.send("counted", entries(A, Y))
            runs.holds(f"before {number.name}", server, A, Y)
            seen = server.kill(number), server.lines()
            runs.results.check(f"{number.name} ends it", seen == (-number, []), str(seen))
            runs.results.same(f"after {number.name}: what is read", server.read(), (0, entries(A, Y), b""))


def inputs(runs):
    """Octets of standard input are dropped, and nobody asks for it without --until-eof; with it, one that cannot be
    waited for is told at once."""
    with runs.until_eof(*any_port("lf"), *SOON) as server:
        server.process.stdin.write(b"x" * 5_000_000)
        server.process.stdin.flush()
        server.send("lf", A + b"\n")
        runs.holds("octets on standard input", server, A)
        runs.ends("octets on standard input", server, 0)
    with runs.server(*any_port("lf"), *SOON) as server:  # its standard input is /dev/null
        server.send("lf", Y + b"\n")
        runs.holds("an end that is not asked for", server, Y)
        runs.results.check("it goes on", server.process.poll() is None)
    for name in "/dev/null", runs.program.folder.file("input", b"octets"):
        with open(name, "rb") as stream:
            runs.refused(f"the end of {name}", [*any_port("lf"), "--until-eof"], "standard input", stdin=stream)


def no_notes(runs):
    """Lines that cannot be written stop nothing."""
    port = free_port(socket.SOCK_STREAM)
    where = ("lf", (HERE, port))
    with open("/dev/full", "wb") as full, runs.until_eof("--lf", f"{HERE}:{port}", *SOON, stderr=full) as server:
        until(lambda: is_open(server, where))
        server.send(where, A + b"\nx\n" + Y + b"\n")
        runs.holds("lines that cannot be written", server, A, Y)
        status, _ = server.end()
        runs.results.check("lines that cannot be written: the status", status == 1, str(status))
        kept = refused_file(server.store)
        right = len(kept) == 1 and kept[0][0].endswith(b" 2 syntax priority 0") and kept[0][1] == b"x"
        runs.results.check("the frame is kept", right, str(kept))


def is_open(server, where):
    try:
        server.open(where).close()
    except ConnectionRefusedError:
        return False
    return True


# ---------------------------------------------------------------- counts

def counts(runs):
    """Every minute of its clock, which here goes sixty times as fast, a server tells its counts."""
    environment = runs.program.failing(speed=60)
    with runs.until_eof(*BOTH, *any_port("udp"), environment=environment) as server:
        lines = A + b"\n" + A + b"\n" + Y + b"\nx\n" + LONG + b"a\n"
        server.send("lf", lines)
        server.send("lf", lines)
        server.send("counted", framed("counted", Z) + b"x")
        server.datagrams("udp", A, b"y")
        octets = 2 * len(lines) + len(framed("counted", Z) + b"x") + len(A + b"y")
        right = re.compile(rb"received 8 new 3 held 5 refused 3 too-long 2 connections 3 batches [1-9]\d* octets %d quiet 0"
                           % octets)
        runs.results.check("the counts are told", server.until_told(right), str(server.lines()[-3:]))
        runs.results.check("and told again", server.until_told(right, 2), str(server.lines()[-3:]))
        others = [line for line in server.lines() if not line.startswith(b"received ")]
        runs.results.check("each frame is told once", len(others) == 6, str(others))


class Manager:
    """A service manager, at a path, or behind an at sign under a name that is no file's."""

    def __init__(self, name):
        self.socket = socket.socket(socket.AF_UNIX, socket.SOCK_DGRAM)
        self.socket.bind(name.replace("@", "\0"))
        self.socket.settimeout(NEVER)
        self.told = []

    def __enter__(self):
        return self

    def __exit__(self, *_):
        self.socket.close()

    def until_told(self, text):
        """Takes what it is told until something begins so; whether that has come."""
        try:
            while not self.told or not self.told[-1].startswith(text):
                self.told.append(self.socket.recv(4_096))
        except TimeoutError:
            return False
        return True


def managed(runs):
    """The service manager is told when a server listens, its counts, that it is alive, if it waits for that, and when it
    ends. By the server's clock, which goes sixty times as fast, it wants a sign of life every four seconds."""
    fast = runs.program.failing(speed=60)
    for name in str(runs.path / "manager"), f"@syslogbox-test-{os.getpid()}":
        for process, alive in [({}, True), ({"WATCHDOG_PID": "1"}, False)]:
            environment = {**fast, "NOTIFY_SOCKET": name, "WATCHDOG_USEC": "4000000", **process}
            with Manager(name) as manager, runs.until_eof(*any_port("lf"), *SOON, environment=environment) as server:
                seen = manager.until_told(b"READY=1") and manager.told == [b"READY=1"]
                runs.results.check(f"{name}: ready", seen, str(manager.told))
                server.send("lf", A + b"\n")
                seen = manager.until_told(b"STATUS=received 1 ")
                runs.results.check(f"{name}: the counts", seen, str(manager.told[-3:]))
                status, lines = server.end()
                right = status == 0 and all(line.startswith(b"received ") for line in lines)
                runs.results.check(f"{name}: its end", right, f"{status} {lines}")
                seen = manager.until_told(b"STOPPING=1")
                runs.results.check(f"{name}: the end", seen, str(manager.told[-3:]))
                signs = manager.told.count(b"WATCHDOG=1")
                runs.results.check(f"{name}: {signs} signs of life", 10 <= signs <= 1_000 if alive else signs == 0, str(signs))
            Path(name).unlink(missing_ok=True)


def not_managed(runs):
    """No service manager, or one that takes nothing, stops no server."""
    path = str(runs.path / "deaf")
    with Manager(path):
        for name in path, str(runs.path / "none"), "", "@", "x" * 200:
            environment = {**runs.program.failing(speed=60), "NOTIFY_SOCKET": name, "WATCHDOG_USEC": "4000"}
            with runs.until_eof(*any_port("lf"), *SOON, environment=environment) as server:
                server.send("lf", A + b"\n")
                runs.holds(f"a manager at {name[:9]}", server, A)
                status, lines = server.end()
                runs.results.check(f"a manager at {name[:9]}: the end", status == 0, f"{status} {lines}")


def stopped_by_signal(runs):
    """Under contrib/until-stopped a signal ends the input: what waits is read and committed, and the status is the server's."""
    front = [str(UNTIL_STOPPED)]
    for number, octets, status in [(signal.SIGTERM, b"", 0), (signal.SIGINT, b"x\n", 1)]:
        with runs.server(*any_port("udp"), *any_port("lf"), "--until-eof", "--commit", 3_600_000, front=front) as server:
            server.datagrams("udp", numbered(1))
            server.send("lf", numbered(2) + b"\n" + octets)
            server.process.send_signal(number)
            runs.results.same(f"signal {number}: its status", server.status(), status)
        text = archive_text([numbered(1), numbered(2)])
        runs.results.same(f"signal {number}: what is read", server.read(), (0, text, b""))


TESTS = [listeners, families, inherited, not_inherited, streams, datagrams, at_once, cut_over, readings, wrong, endless,
         numbers, too_many, idle, few_descriptors, commits, statuses, open_ends, busy_end, signals, stopped_by_signal, inputs,
         no_notes, counts, managed, not_managed,
         *ALLOWED, *RATED, *KEPT]


def serving(program, results):
    for test in TESTS:
        with tempfile.TemporaryDirectory() as path:
            try:
                test(Runs(program, results, path))
            except Exception as error:  # a server that has ended too early, or waits for ever
                results.check(f"serve, {test.__name__}: it comes to its end", False, repr(error))

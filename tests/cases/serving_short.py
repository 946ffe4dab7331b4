"""Stores of `serve` without room, on the disk or in memory, for a while: a server whose syncs find none, and lose what they were
to bring to the disk, or whose allocations fail. It waits and tells so, goes on, and loses nothing of what it was sent.
"""
import errno
import os
import re
import tempfile

from cases.serving_stores import ANEW, SET_ASIDE, Sender, boot_id, equal, journal_names
from lib.power_cut import Disk, calls_of
from lib.reference import counted
from lib.server import SOON, Runs, any_port, numbered, until
from lib.store_format import files_of, held
from lib.stores import Keeper, records

# what a server tells while it waits, by the error of its system; and what once it has room
WAITS = {errno.ENOSPC: b"store full", errno.EDQUOT: b"store full", errno.ENOMEM: b"store waits: want of memory"}
ROOM = b"store has room"

COMMIT, DRAFT = "sync@journal.", "sync@new.archive"


def faults_of(kind, first, times, error):
    """The calls of a kind that fail, as TRACE_FAIL has them."""
    return f"{kind} {first} {error} {first + times - 1}"


def log_of(store):
    """Where the calls on a store are written down."""
    return store.with_suffix(".log")


def tracing(runs, store, **chosen):
    return Keeper(runs.program).tracing(store, log_of(store), **chosen)


def has_ended(server):
    return server.process.poll() is not None


def send(server, sent):
    """Sends records to a server, which may end."""
    try:
        if not has_ended(server):
            server.send("counted", counted(sent))
    except OSError:
        pass  # it has ended meanwhile


def give(server, sent):
    """Sends records to a server, which may end, and waits until all are held."""
    send(server, sent)
    until(lambda: has_ended(server) or set(sent) <= server.held())


def note_of(store):
    return (store / "lock").read_bytes()


def is_whole(runs, name, store, sent):
    """A store that holds all that was sent, without damage, and no start has to make anything good."""
    runs.results.same(f"{name}: verify", runs.verify(store), (0, b"", b""))
    found = held(files_of(store)) or set()
    runs.results.check(f"{name}: what the files hold", found == set(sent), f"{len(found)} records of {len(set(sent))}")
    if found != set(sent):
        return
    equal(runs, f"{name}: its note", note_of(store), b"synced %b\n" % boot_id())
    with runs.until_eof(*any_port("counted"), store=store) as server:
        runs.holds(f"{name}: the next start", server, *sent)
        runs.ends(f"{name}: the next start", server, 0)


def waits(runs, name, parts, words, error, fail, spoil, rounds=1):
    """Some syncs of a server find no room: it tells that once, and once that there is room again, and loses nothing."""
    store = runs.store()
    environment = tracing(runs, store, fail=fail, spoil=spoil)
    with runs.until_eof(*any_port("counted"), *words, store=store, environment=environment) as server:
        for part in parts:
            give(server, part)
        until(lambda: has_ended(server) or server.lines().count(ROOM) == rounds)
        runs.ends(name, server, 0, *[WAITS[error], ROOM] * rounds)
    kinds = [call.kind for call in calls_of(log_of(store).read_bytes())]
    runs.results.check(f"{name}: syncs failed", "lost" in kinds, str(kinds))
    is_whole(runs, name, store, [one for part in parts for one in part])


def commits_short(runs):
    """Syncs of commits find no room: once, several times, and several times over."""
    parts = [[b"%b %b" % (numbered(n), b"x" * 40 * n) for n in range(begin, begin + 8)] for begin in range(0, 40, 8)]
    for first, times, error, spoil in [(2, 1, errno.ENOSPC, 1), (3, 1, errno.ENOSPC, 0), (4, 3, errno.ENOSPC, 255),
                                       (5, 2, errno.EDQUOT, 1), (2, 1, errno.ENOMEM, 0), (5, 2, errno.ENOMEM, 1)]:
        name = f"sync {first} of a journal finds no room {times} times, {os.strerror(error)}"
        waits(runs, name, parts, SOON, error, faults_of(COMMIT, first, times, error), spoil)
    again = ",".join(faults_of(COMMIT, first, times, errno.ENOSPC) for first, times in ((3, 1), (9, 2)))
    waits(runs, "syncs of a journal find no room, and again", parts, SOON, errno.ENOSPC, again, 32, 2)


def checkpoints_short(runs):
    """Syncs of checkpoints find no room: of a segment's draft, of the folder, of the next journal."""
    sent = records("short", 0, 800, 12_000)
    parts, words = [sent[:760], sent[760:]], [*SOON, "--checkpoint", 1]
    for kind, first, times, error in [(DRAFT, 1, 1, errno.ENOSPC), (DRAFT, 2, 3, errno.ENOSPC), (DRAFT, 1, 1, errno.ENOMEM),
                                      ("names", 2, 1, errno.ENOSPC), ("names", 4, 3, errno.EDQUOT), ("names", 3, 1, errno.ENOMEM),
                                      ("sync@journal.2", 1, 1, errno.ENOSPC), ("sync@journal.2", 1, 2, errno.ENOMEM)]:
        name = f"{kind} {first} of a checkpoint finds no room {times} times, {os.strerror(error)}"
        waits(runs, name, parts, words, error, faults_of(kind, first, times, error), 1)


def committed_in(store):
    """The records whose commit had come to its end when a server was killed: those of which all was on the disk."""
    disk, found = Disk(), set()
    for call in calls_of(log_of(store).read_bytes()):
        disk.do(call)
        if call.kind == "sync" and call.name.startswith(b"journal."):
            found |= held({call.name: bytes(disk.names[call.name].now.shown)}) or set()
    return found


def starts_again(runs, name, store, sent):
    """After a kill what was committed is there, and the newest journal is written anew where a sync had found no room since."""
    committed, note = committed_in(store), note_of(store)
    with runs.until_eof(*any_port("counted"), *SOON, store=store) as server:
        found, lines = server.held(), server.lines()
        runs.results.check(f"{name}: what is there", committed <= found <= set(sent), f"{len(committed - found)} are lost")
        is_anew = lines[:1] == [ANEW]
        equal(runs, f"{name}: is the journal written anew", is_anew, note == b"failed %b\n" % boot_id())
        right = all(map(SET_ASIDE.fullmatch, lines[is_anew:])) and len(lines) < 3
        runs.results.check(f"{name}: what is told", right, str(lines))
        give(server, sent)
        runs.ends(f"{name}: the next run", server, 0, *lines)
    is_whole(runs, name, store, sent)


def killed_short(runs):
    """A server is killed while its syncs find no room, and at calls around them; started again and sent everything, it has
    all."""
    parts = [[b"%b %b" % (numbered(n), b"x" * 40 * (n % 10)) for n in range(begin, begin + 10)] for begin in range(0, 80, 10)]
    sent = sum(parts, [])
    for first in 2, 3, 4, 7:  # of each commit two
        store, name = runs.store(), f"killed while syncs find no room from {first} on"
        environment = tracing(runs, store, fail=faults_of(COMMIT, first, 1_000_000, errno.ENOSPC), spoil=1)
        with runs.until_eof(*any_port("counted"), *SOON, store=store, environment=environment) as server:
            for part in parts[:first // 2 - 1]:
                give(server, part)
            sender = Sender(server, "counted", sent)
            told = until(lambda: has_ended(server) or WAITS[errno.ENOSPC] in server.lines())
            runs.results.check(f"{name}: it waits", told and not has_ended(server), str(server.lines()))
            equal(runs, f"{name}: its note", note_of(store), b"failed %b\n" % boot_id())
            server.kill()
            sender.join()
        starts_again(runs, name, store, sent)
    for call in range(8, 26, 2):
        store, name = runs.store(), f"killed at call {call}, around syncs that find no room"
        environment = tracing(runs, store, fail=faults_of(COMMIT, 3, 2, errno.ENOSPC), spoil=0, kill=call)
        with runs.until_eof(*any_port("counted"), *SOON, store=store, environment=environment) as server:
            for part in parts:
                give(server, part)
            equal(runs, f"{name}: its end", server.status(), -9)
        starts_again(runs, name, store, sent)


# ---------------------------------------------------------------- allocations

CLOSED = re.compile(rb"\S+ closed: (want of memory|too many connections)")
EARLIER = 24  # allocations that a run makes at its end at most
# what a server may tell of an allocation that failed
TOLD = re.compile(CLOSED.pattern + rb"|store waits: want of memory|store has room")
NOT_BEGUN = [b"want of memory"]


def is_closed(server):
    """Whether a connection was closed, of which some octets are lost then."""
    return any(map(CLOSED.fullmatch, server.lines()))


def status_of(lines):
    """The status that follows these lines: 1 where octets that were read are lost."""
    return int(any(line.endswith(b" closed: want of memory") for line in lines))


def try_allocation(runs, name, parts, words, number, finished):
    """A server of which an allocation fails does not begin, and tells it, or goes on: it has all that it was sent but what it
    tells that it has not. Whether it told anything."""
    store, sent = runs.store(), set(sum(parts, []))
    with runs.until_eof(*any_port("counted"), *words, store=store, environment=runs.program.failing(malloc=number)) as server:
        if not server.places():
            seen = server.status(), server.told()
            runs.results.check(f"{name}: it does not begin", seen[0] in (2, 3) and seen[1], str(seen))
            return True
        for part in parts:
            send(server, part)
        until(lambda: has_ended(server) or is_closed(server) or sent <= server.held() and finished(store))
        status, lines = server.end()
        closed = is_closed(server)
    if (status, lines) == (3, NOT_BEGUN):
        runs.results.check(f"{name}: it does not begin", not held(files_of(store)))
        return True
    right = status == status_of(lines) and all(map(TOLD.fullmatch, lines))
    runs.results.check(f"{name}: its end", right, f"{status} {lines}")
    found = held(files_of(store)) or set()
    right = found <= sent if closed else found == sent
    runs.results.check(f"{name}: what is held", right, f"{len(found)} records of {len(sent)}, {lines}")
    runs.results.same(f"{name}: verify", runs.verify(store), (0, b"", b""))
    return bool(lines)


def each_allocation(runs, name, parts, words, finished):
    """Each allocation fails in turn, from just before a server begins to serve."""
    environment, made = runs.program.counting()
    with runs.until_eof(*any_port("counted"), *words, environment=environment) as server:
        runs.ends(f"{name}: nothing is sent", server, 0)
    first = made().malloc
    with runs.until_eof(*any_port("counted"), *words, environment=environment) as server:
        for part in parts:
            give(server, part)
        until(lambda: finished(server.store))
        runs.ends(name, server, 0)
    last = made().malloc
    told = 0
    for number in range(first - EARLIER, last + 2):
        told += try_allocation(runs, f"{name}: allocation {number} of {last}", parts, words, number, finished)
    runs.results.check(f"{name}: some allocations are told", told, str(told))


def refused_memory(runs):
    """Each allocation around commits fails in turn."""
    parts = [[b"%b %b" % (numbered(n), b"x" * 700) for n in range(begin, begin + 4)] for begin in range(0, 8, 4)]
    each_allocation(runs, "a commit", parts, SOON, lambda store: True)


def refused_memory_at_checkpoint(runs):
    """Each allocation around a checkpoint fails in turn."""
    sent = [b"%b %b" % (numbered(n), b"x" * 60_000) for n in range(20)]
    each_allocation(runs, "a checkpoint", [sent], [*SOON, "--checkpoint", 1], lambda store: journal_names(store) != {b"journal.1"})


SHORT = [commits_short, checkpoints_short, killed_short, refused_memory, refused_memory_at_checkpoint]


def serving_short(program, results):
    for test in SHORT:
        with tempfile.TemporaryDirectory() as path:
            try:
                test(Runs(program, results, path))
            except Exception as error:  # a server that has ended too early, or waits for ever
                results.check(f"serve, {test.__name__}: it comes to its end", False, repr(error))

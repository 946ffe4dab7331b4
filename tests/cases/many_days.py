"""Checkpoints: at most 65 segments whatever times the records have, and what reads the store goes on at its pace; no
draft where the disk is full."""
import os
import subprocess
import tempfile
import threading
import time
from datetime import date, timedelta

from lib.power_cut import calls_of
from lib.reference import archive_text, counted
from lib.server import SOON, Runs, any_port, until
from lib.store_format import JOURNAL, SEGMENT, files_of, held, is_named_right
from lib.stores import Keeper

DAYS = 27_000
SEGMENTS = 65  # that a checkpoint writes at most
SECONDS = 10  # in which each step ends; a file for each day took some minutes
FIRST = date(1980, 1, 1)


def of_day(number, length=100):
    """A record of a day that no other number has."""
    front = b"<14>1 %bT12:00:00.000000Z - days - - - %d " % (str(FIRST + timedelta(number)).encode(), number)
    return front + b"x" * (length - len(front))


def is_turned(store):
    """Whether a checkpoint was made: the first journal is gone."""
    return any(JOURNAL.fullmatch(one) and one != b"journal.1" for one in os.listdir(os.fsencode(store)))


def timed(results, name, run):
    """What a step gives, which has to end soon."""
    begun = time.monotonic()
    answer = run()
    taken = time.monotonic() - begun
    results.check(f"{name}: within {SECONDS} s", taken < SECONDS, f"{taken:.1f} s")
    return answer


def periods_of(files):
    """The periods of the segments, in order, and how many checkpoints were made: the first journal is that of none."""
    segments = [name for name in files if SEGMENT.fullmatch(name)]
    numbers = [int(JOURNAL.fullmatch(name).group(1)) for name in files if JOURNAL.fullmatch(name)]
    return sorted(SEGMENT.fullmatch(name).group(1) for name in segments), max(numbers) - 1


def kept(runs, name, sent):
    """The periods of the segments of a store that was sent these records, and how many checkpoints were made. What is
    read is the archive of the records, also once it is compacted."""
    right = (0, archive_text(sent), b"")
    results = runs.results
    with runs.until_eof(*any_port("counted"), *SOON, "--checkpoint", 1) as server:
        store = server.store
        server.send("counted", counted(sent))
        timed(results, f"{name}: a checkpoint", lambda: until(lambda: is_turned(store)))
        timed(results, f"{name}: the end", lambda: runs.ends(name, server, 0))
    files = files_of(store)
    periods, checkpoints = periods_of(files)
    results.check(f"{name}: checkpoints", checkpoints > 0, str(sorted(files))[:500])
    few = len(periods) <= SEGMENTS * checkpoints
    results.check(f"{name}: segments", few, f"{len(periods)} of {checkpoints} checkpoints")
    names = [one for one in files if SEGMENT.fullmatch(one)]
    results.check(f"{name}: their names are right", all(is_named_right(one, files[one]) for one in names))
    results.check(f"{name}: what the files hold", held(files) == set(sent))
    answer = timed(results, f"{name}: read", lambda: runs.program.run(["read", str(store)]))
    results.same(f"{name}: what is read", answer, right)
    answer = timed(results, f"{name}: verify", lambda: runs.verify(store))
    results.same(f"{name}: what verify tells", answer, (0, b"", b""))
    status = timed(results, f"{name}: compact", lambda: runs.program.run(["compact", str(store)]))[0]
    results.check(f"{name}: compact ends", status == 0, str(status))
    results.same(f"{name}: read, compacted", runs.program.run(["read", str(store)]), right)
    results.check(f"{name}: what the files hold, compacted", held(files_of(store)) == set(sent))
    return periods, checkpoints


def alike(runs, days):
    """No day has a 64th: all share one segment at each checkpoint."""
    periods, checkpoints = kept(runs, f"{days} days", [of_day(number) for number in range(days)])
    runs.results.check(f"{days} days: their segments", periods == [b"mixed"] * checkpoints, str(periods)[:500])


def some_large(runs, days):
    """Some days have most octets: each gets a segment of its own, and the others share one."""
    large = [of_day(number, 60_000) for number in range(0, days, days // 20)]
    small = [of_day(number) for number in range(1, days, 9) if number % (days // 20)]
    padding = [of_day(0, 19_000 + number) for number in range(60)]
    sent = [*small, *large, *padding]
    periods, checkpoints = kept(runs, "some large days", sent)
    both = b"mixed" in periods and len(set(periods)) > 2
    runs.results.check("some large days: segments of their own", both, str(periods))


def undated(runs):
    """What has no time counts as a day."""
    sent = [of_day(number) for number in range(300)]
    sent += [b"<14>1 - - days - - - %d " % number + b"x" * 3_000 for number in range(400)]
    periods, _ = kept(runs, "undated", sent)
    runs.results.check("undated: its segments", {b"undated", b"mixed"} <= set(periods), str(periods))


def of_many(number):
    """A record of one of 32 days, each of which has a segment of its own."""
    return b"<14>1 %bT12:00:00.000000Z - days - - - %d " % (str(FIRST + timedelta(number % 32)).encode(), number) + b"x" * 300


def few_syncs(runs):
    """A commit syncs its journal twice. A checkpoint syncs twice for each of its segments, once for its line of the ledger, and a
    few times more for the next journal; so does a start."""
    sent = [of_many(number) for number in range(5_000)]
    store, log = runs.store(), runs.path / "log"
    with runs.until_eof(*any_port("counted"), *SOON, "--checkpoint", 1, store=store,
                        environment=Keeper(runs.program).tracing(store, log)) as server:
        server.send("counted", counted(sent))
        runs.holds("syncs", server, *sent)
        runs.ends("syncs", server, 0)
    calls = [call for call in calls_of(log.read_bytes()) if call.kind in ("sync", "names", "write")]
    commits = sum(call.kind == "write" and call.octets == b"\1" and is_journal(call.name) for call in calls)
    periods, checkpoints = periods_of(files_of(store))
    of_journals = sum(call.kind == "sync" and is_journal(call.name) for call in calls)
    of_ledger = sum(call.kind == "sync" and call.name == b"ledger" for call in calls)
    others = sum(call.kind != "write" for call in calls) - of_journals - of_ledger
    runs.results.check("syncs: segments", checkpoints > 0 and len(periods) >= 16 * checkpoints, f"{len(periods)} {checkpoints}")
    most = 2 * commits + 4 * (checkpoints + 1)
    runs.results.check("syncs of journals", of_journals <= most, f"{of_journals} of {commits} commits, {checkpoints} checkpoints")
    most = 2 * SEGMENTS * checkpoints + 4 * (checkpoints + 1)
    runs.results.check("syncs of the ledger", of_ledger <= SEGMENTS * checkpoints, f"{of_ledger} of {checkpoints} checkpoints")
    runs.results.check("syncs of segments and of the folder", others <= most, f"{others} of {checkpoints} checkpoints")


def is_journal(name):
    return JOURNAL.fullmatch(name) is not None


def without_room(runs):
    """A checkpoint that finds the disk full, where one may be mounted, leaves no draft, which would hold the room."""
    disk = runs.path / "disk"
    disk.mkdir()
    words = ["mount", "-t", "tmpfs", "-o", "size=1600k", "none", str(disk)]
    if subprocess.run(words, capture_output=True).returncode != 0:
        runs.results.skip("a checkpoint without room", "no disk may be mounted")
        return
    try:
        sent = [of_day(0, 2_000) + b"%d" % number for number in range(700)]
        with runs.until_eof(*any_port("counted"), *SOON, "--checkpoint", 1, store=disk / "store") as server:
            sender = threading.Thread(target=server.send, args=("counted", counted(sent)))
            sender.start()
            told = server.until_told(b"store full")
            runs.results.check("a checkpoint without room is told", told, str(server.lines()))
            seen = [has_draft(server.store) for _ in range(20)]
            runs.results.check("a checkpoint without room leaves no draft", seen.count(True) <= 5, str(seen))
            subprocess.run(["mount", "-o", "remount,size=16m", str(disk)], check=True)
            runs.holds("a checkpoint that was given room", server, *sent)
            sender.join()
    finally:
        subprocess.run(["umount", str(disk)], check=True)


def has_draft(store):
    time.sleep(0.1)
    return "new.archive" in os.listdir(store)


def few_descriptors(runs):
    """Checkpoints of many segments go on where connections have taken all descriptors that are not left to files."""
    front = ["sh", "-c", 'ulimit -n 256; exec "$@"', "sh"]
    with runs.until_eof(*any_port("counted"), *SOON, "--checkpoint", 1, "--per-peer", 1_024, store=runs.path / "few", front=front) as server:
        sent, sender = [], server.open("counted")
        others = [server.open("counted") for _ in range(300)]
        for _ in range(30):
            some = [of_day(len(sent) + number, 60_000) for number in range(25)]
            sent += some
            try:
                sender.sendall(counted(some))
            except OSError:
                break  # the server has ended
        sender.close()
        told = [line for line in server.lines() if b"too many connections" not in line and b"closed" not in line]
        runs.holds("checkpoints beside connections that have the descriptors", server, *sent)
        runs.results.check("the server goes on without descriptors", server.process.poll() is None, str(told[-3:]))
        for one in others:
            one.close()


def many_days(program, results, days=DAYS):
    with tempfile.TemporaryDirectory() as path:
        runs = Runs(program, results, path)
        alike(runs, days)
        some_large(runs, min(days, 9_000))
        undated(runs)
        few_syncs(runs)
        without_room(runs)
        few_descriptors(runs)

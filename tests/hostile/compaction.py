"""Compacts stores: each call on the disk fails or is the last of the process, and the power is cut at any call; beside
a server, too.

Whatever happens, the folder holds the same set as before, and the next compaction leaves at most eight segments a day.
The power is cut on disks that are built from the calls of real runs (tests/lib/power_cut.py); logs from which a sync is
missing have to be found wrong.
"""
import errno
import fcntl
import os
import resource
import shutil
import tempfile
from collections import Counter
from pathlib import Path
from random import Random

from hostile.stores import room, without
from lib.ledger import ledger_of
from lib.power_cut import Cut, Disk, calls_of
from lib.reference import archive_text, framed
from lib.server import SOON, Server, any_port, until
from lib.store_format import SEGMENT, day_of, files_of, held, is_named_right, segment_name
from lib.stores import FORGED, Keeper, put_folder, records

MOST = 8  # segments of a day
KINDS = ["create", "write", "sync", "rename", "remove", "names"]


def segments(files):
    """How many segments each day has."""
    return Counter(SEGMENT.fullmatch(name).group(1) for name in files if SEGMENT.fullmatch(name))


def many_segments(seed, parts):
    """A folder of so many segments for most days, some records in several of them."""
    random, files = Random(repr(seed)), {b"journal.1": b"\x00", b"refused": b"x"}
    sent = records(seed, 0, 4 * parts)
    for _ in range(parts):
        chosen = random.sample(sent, random.randint(1, len(sent) // 2))
        for day in {day_of(one) for one in chosen}:
            octets = archive_text({one for one in chosen if day_of(one) == day})
            files[segment_name(day, octets)] = octets
    return files


class Compactions:
    """Runs on a folder each."""

    def __init__(self, program, results, path, files):
        self.program, self.results, self.path, self.files = program, results, Path(path), files
        self.keeper, self.store, self.log = Keeper(program), self.path / "store", self.path / "log"
        self.ledger = ledger_of(program, files)
        self.held = held(files)

    def run(self, **chosen):
        """The answer of a run on a new folder, whose calls are written down."""
        shutil.rmtree(self.store, ignore_errors=True)
        self.log.unlink(missing_ok=True)
        put_folder(self.store, {**self.files, b"ledger": self.ledger})
        return self.program.run(["compact", str(self.store)], b"", self.keeper.tracing(self.store, self.log, **chosen))

    def calls(self):
        return [call for call in calls_of(self.log.read_bytes()) if call.name not in (b"lock.compact", b"lock.ledger")]

    def is_same(self, name):
        """The folder holds the same set."""
        self.results.check(f"{name}: what is held", held(files_of(self.store)) == self.held)

    def is_done(self, name, answer):
        """Each day has few segments, and each is the archive that its name says."""
        files = files_of(self.store)
        self.results.same(name, answer, (0, b"", b""))
        self.is_same(name)
        self.results.check(f"{name}: segments", max(segments(files).values()) <= MOST, str(segments(files)))
        right = all(is_named_right(one, files[one]) for one in files if SEGMENT.fullmatch(one))
        self.results.check(f"{name}: names", right)
        others = all(files[one] == self.files[one] for one in (b"journal.1", b"refused"))
        self.results.check(f"{name}: other files", others)
        read = self.program.run(["read", str(self.store)])
        self.results.same(f"{name}: read", read, (0, archive_text(self.held), b""))

    def goes_on(self, name):
        self.is_same(name)
        self.is_done(f"{name}: the next one", self.program.run(["compact", str(self.store)]))

    def fails(self, counts):
        """Each call fails in turn, and each is the last of the process."""
        for kind in KINDS:
            for n in range(1, counts[kind] + 1):
                name = f"compaction: {kind} {n} of {counts[kind]} fails"
                answer = self.run(fail=f"{kind} {n} {errno.EIO}")
                self.results.check(name, answer[0] == 2 and answer[2].endswith(b"\n"), str(answer))
                self.goes_on(name)
        for n in range(1, sum(counts.values()) + 1):
            self.results.check(f"compaction killed at call {n}", self.run(kill=n)[0] == -9)
            self.goes_on(f"compaction killed at call {n}")

    def is_full(self):
        """The disk is full."""
        answer = self.run(full="100 1000000")
        right = answer[0] == 2 and answer[2].startswith(b"compact.archive: ") and b"No space left" in answer[2]
        self.results.check("compaction on a full disk", right, str(answer))
        self.results.check("no draft is left on a full disk", not (self.store / "compact.archive").exists())
        self.goes_on("compaction on a full disk")

    def losses(self, calls, seed, each):
        """How many of the disks that cuts at each of these calls may leave hold another set."""
        disk, cut, wrong = Disk({**self.files, b"ledger": self.ledger}), Cut(seed, FORGED), 0
        for call in calls:
            disk.do(call)
            wrong += sum(held(cut.left(disk)) != self.held for _ in range(each))
        return wrong

    def is_cut(self, seed, each):
        """The power is cut at each call; without a sync, records are lost."""
        self.run()
        calls = self.calls()
        self.results.same("power cuts of a compaction", self.losses(calls, seed, each), 0)
        for kind in "sync", "names":
            left = without(calls, lambda _, call: call.kind == kind)
            self.results.check(f"a compaction without {kind} is found", self.losses(left, seed, each) > 0)


def is_damaged(program, results, path, files):
    """A damaged segment is told, and nothing of its day is removed."""
    day = max(segments(files), key=segments(files).get)
    name = next(one for one in sorted(files) if one.startswith(day + b"."))
    store = put_folder(Path(path) / "damaged", {**files, name: files[name] + b"4"})
    answer = program.run(["compact", str(store)])
    right = answer[0] == 1 and not answer[1] and answer[2].startswith(name + b" bad-frame ")
    results.check("a damaged segment", right, str(answer))
    stays = all((store / one.decode()).exists() for one in files if one.startswith(day))
    results.check("nothing of its day is removed", stays)


def is_locked(program, results, path, files):
    """One compaction at a time, and none where its lock cannot be made."""
    store = put_folder(Path(path) / "locked", files)
    with open(store / "lock.compact", "wb") as lock:
        fcntl.flock(lock, fcntl.LOCK_EX)
        answer = program.run(["compact", str(store)])
        results.same("a second compaction", answer, (2, b"", b"lock.compact: another process compacts or expires the store\n"))
        results.check("it changes nothing", {**files, b"lock.compact": b""} == files_of(store))
    (store / "lock.compact").unlink()
    (store / "lock.compact").mkdir()
    answer = program.run(["compact", str(store)])
    results.check("a lock that cannot be made", answer[0] == 2 and answer[2].startswith(b"lock.compact: Is a dir"), str(answer))
    answer = program.run(["compact", str(Path(path) / "none")])
    results.check("no store", answer[0] == 2 and answer[2].startswith(f"{path}/none: No such file".encode()), str(answer))


def few_descriptors():
    """In the new process: there are no more descriptors than these."""
    resource.setrlimit(resource.RLIMIT_NOFILE, (12, 12))


def has_few_descriptors(program, results, path, files):
    """Too few descriptors for the segments of a day: which file, and why. `verify` has one file open at once; if there is no
    descriptor for that, it tells the same."""
    store = put_folder(Path(path) / "descriptors", {**files, b"ledger": ledger_of(program, files)})

    def told(name, answer):
        last = answer[2].rstrip(b"\n").rpartition(b"\n")[2]
        file = last.removesuffix(b": Too many open files (os error 24)")
        right = answer[:2] == (2, b"") and file != last and file.rpartition(b"/")[2] in {*files, b"descriptors", b"ledger"}
        results.check(f"too few descriptors: {name}", right, str(answer))

    for command in "compact", "read":
        told(command, program.run([command, str(store)], preexec_fn=few_descriptors))
    results.check("too few descriptors: nothing changes", {**files, b"lock.compact": b""} == files_of(store))
    words = ["verify", str(store)]
    results.same("few descriptors: verify", program.run(words, preexec_fn=few_descriptors), (0, b"", b""))
    opens = program.counts(words).open
    results.check("verify opens its files", opens >= len(files), str(opens))
    for n in 1, 2, opens:
        told(f"verify, at open {n} of {opens}", program.run(words, b"", program.failing(open=n, open_error=errno.EMFILE)))


def named(store):
    """The names of the segments in a folder."""
    return {name for name in os.listdir(os.fsencode(store)) if SEGMENT.fullmatch(name)}


def removed_but_open(server):
    """The files that a server has open and that have no name any more."""
    folder, found = Path(f"/proc/{server.process.pid}/fd"), []
    for one in os.listdir(folder):
        try:
            found.append(os.readlink(folder / one))
        except FileNotFoundError:
            pass
    return [one for one in found if one.startswith(str(server.store)) and one.endswith(" (deleted)")]


def is_beside(program, results, path, files, seed):
    """A server goes on beside compactions: all is there, and what was removed takes no room."""
    store, sent = put_folder(Path(path) / "beside", files), records(("beside", seed), 0, 3_000, 8_000)
    text = archive_text(held(files) | set(sent))
    with Server(program, store, *any_port("counted"), *SOON, "--checkpoint", 1) as server:
        for part in range(3):
            begun = named(store)
            server.send("counted", *(framed("counted", one) for one in sent[1_000 * part:1_000 * part + 1_000]))
            until(lambda before=begun: named(store) - before)
            answer = program.run(["compact", str(store)])
            results.same(f"compaction {part} beside a server", answer, (0, b"", b""))
        results.same("beside a server: what is read", server.until_held(text), (0, text, b""))
        results.same("beside a server: files that were removed", removed_but_open(server), [])
        results.check("the server goes on", server.process.poll() is None, str(server.told()))


def compactions(program, results, seed, each=20):
    """Compacts stores of many segments, and of few."""
    with tempfile.TemporaryDirectory(dir=room()) as path:
        tried = Compactions(program, results, path, many_segments(("compaction", seed), 14))
        tried.is_done("compaction", tried.run())
        tried.fails(Counter(call.kind for call in tried.calls() if call.kind in KINDS))
        tried.is_full()
        tried.is_cut(seed, each)
        is_damaged(program, results, path, tried.files)
        is_locked(program, results, path, tried.files)
        has_few_descriptors(program, results, path, tried.files)
        is_beside(program, results, path, tried.files, seed)
        few = Compactions(program, results, path, many_segments(("few", seed), MOST))
        few.is_done("a compaction of few", few.run())
        left = {name: octets for name, octets in files_of(few.store).items() if name != b"lock.compact"}
        results.check("few segments stay", left == few.files)

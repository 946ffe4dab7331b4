"""A store on the system's files: each call on its disk fails, is short or is the last of the process; syncs that find no room,
and lose what they were to bring to the disk; power cuts and kills by chance; folders that cannot be used; octets of segments
that are changed; the same of compactions.

No clause says what a file of the system gives. `hostile/stores.py` has the power cuts and the kills, and longer runs of them,
`hostile/compaction.py` the compactions.
"""
import errno
import os
import re
import shutil
import subprocess
import tempfile
from collections import Counter
from datetime import date, timedelta
from pathlib import Path

from hostile.compaction import compactions
from hostile.stores import cuts, kills, not_written_again, readings, room, wrong_stores
from lib.power_cut import calls_of
from lib.program import Program
from lib.reference import archive_text
from lib.store_format import SEGMENT, damage, files_of, held
from lib.stores import Keeper, records, told_committed

SEED = 40
KINDS = ["create", "write", "cut", "sync", "rename", "remove", "names"]
# the line on a disk that fails: which file, and why
LINE = re.compile(rb"(journal\.\d+|\S+\.archive|\S+/lock|the folder): [^\n]*(Input/output error|No space left on device)"
                  rb"[^\n]*\n")
SENT = records("faults", 0, 14, 20)
MORE = records("faults", 100, 5, 20)
BATCH, CHECKPOINT = 3, 150
# want of room, on a disk or in memory, and how it is told
SHORT = {errno.ENOSPC: b"No space left on device", errno.EDQUOT: b"Disk quota exceeded", errno.ENOMEM: b"out of memory"}


class Faults:
    """Runs on a folder each, of which a call fails."""

    def __init__(self, keeper, results, path):
        self.keeper, self.results, self.path, self.log = keeper, results, Path(path), Path(path) / "log"

    def calls(self):
        """The calls of the last run."""
        return calls_of(self.log.read_bytes())

    def run(self, **chosen):
        """The answer of a run on a new folder."""
        shutil.rmtree(self.path / "store", ignore_errors=True)
        self.log.unlink(missing_ok=True)
        environment = self.keeper.tracing(self.path / "store", self.log, **chosen)
        return self.keeper.keep(self.path / "store", SENT, BATCH, CHECKPOINT, environment)

    def made(self):
        """How many calls of each kind a run makes, and in all."""
        self.run()
        counts = Counter(call.kind for call in self.calls())
        return counts, sum(counts[kind] for kind in KINDS)

    def is_kept(self, name, answer):
        """What was told as committed is held, and nothing that was not sent; and the next run goes on."""
        store, told = self.path / "store", set(SENT[:told_committed(answer[1])])
        if not store.exists():
            self.results.check(f"{name}: no folder", not told and b"open" not in answer[1], str(answer))
            return
        found = held(files_of(store))
        self.results.check(f"{name}: what is held", found is not None and told <= found <= set(SENT), str(answer))
        again = self.keeper.keep(store, MORE, BATCH, CHECKPOINT)
        self.results.check(f"{name}: the next run", again[0] == 0 and not again[2], str(again))
        found = (found or set()) | set(MORE)
        self.results.same(f"{name}: read", self.keeper.read(store), (0, archive_text(found), b""))

    def fails(self, counts):
        """Each call fails in turn, by the disk's own fault."""
        for kind in KINDS:
            for n in range(1, counts[kind] + 1):
                name = f"{kind} {n} of {counts[kind]} fails"
                answer = self.run(fail=f"{kind} {n} {errno.EIO}")
                self.results.check(name, answer[0] == 2 and LINE.fullmatch(answer[2]), str(answer))
                self.is_kept(name, answer)

    def is_short(self, counts, whole):
        """Each write takes one octet in turn, and then the rest."""
        for n in range(1, counts["write"] + 1):
            answer = self.run(short=n)
            self.results.same(f"write {n} of {counts['write']} is short", answer, whole)
            self.is_kept(f"write {n} is short", answer)

    def is_killed(self, calls):
        """The process is killed at each call in turn."""
        for n in range(1, calls + 1):
            answer = self.run(kill=n)
            self.results.check(f"killed at call {n} of {calls}", answer[0] == -9, str(answer))
            self.is_kept(f"killed at call {n} of {calls}", answer)

    def is_full(self, written):
        """The disk is full after so many octets."""
        for room_left in range(0, written, max(1, written // 40)):
            name = f"full after {room_left} octets"
            answer = self.run(full=f"{room_left} 1000000")
            self.results.check(name, answer[0] == 2 and LINE.fullmatch(answer[2]), str(answer))
            self.is_kept(name, answer)


    def before_open(self):
        """How many calls of each kind a run makes until it has told that the store is open."""
        self.run()
        calls = self.calls()
        opened = next(n for n, call in enumerate(calls) if call.octets == b"open\n")
        return Counter(call.kind for call in calls[:opened])

    def goes_on(self, name, answer):
        """A run that found no room for a while has ended well, and all that it was given is there."""
        right = answer[0] == 0 and not answer[2] and told_committed(answer[1]) == len(SENT)
        self.results.check(name, right, str(answer))
        lost = [call.kind for call in self.calls()].count("lost")
        self.results.check(f"{name}: syncs failed", lost > 0, str(lost))
        self.results.same(f"{name}: what is read", self.keeper.read(self.path / "store"), (0, archive_text(SENT), b""))
        self.is_kept(name, answer)

    def finds_no_room(self, counts):
        """Each sync finds no room in turn, once or several times, and what it was to bring to the disk is lost: it is written
        again. While a store is opened nothing is tried again, nor for want of memory: that is told."""
        early = self.before_open()
        for kind, n in [(kind, n) for kind in ("sync", "names") for n in range(1, counts[kind] + 1)]:
            for error, times, spoil in [(errno.ENOSPC, 1, 1), (errno.ENOSPC, 3, 0), (errno.ENOSPC, 5, 255), (errno.EDQUOT, 2, 1),
                                        (errno.ENOMEM, 1, 0)]:
                name = f"{kind} {n} of {counts[kind]} finds no room {times} times, {os.strerror(error)}, spoiled by {spoil}"
                answer = self.run(fail=f"{kind} {n} {error} {n + times - 1}", spoil=spoil)
                if error != errno.ENOMEM and n > early[kind]:
                    self.goes_on(name, answer)
                    continue
                self.results.check(name, answer[0] == 2 and SHORT[error] in answer[2] and answer[2].count(b"\n") == 1, str(answer))
                self.is_kept(name, answer)

    def never_finds_room(self, counts):
        """Where no sync finds room from some on, the run ends, and tells it; what was committed is there."""
        for n in range(1, counts["sync"] + 1, 5):
            answer = self.run(fail=f"sync {n} {errno.ENOSPC} 1000000", spoil=1)
            name = f"no sync finds room from {n} of {counts['sync']} on"
            self.results.check(name, answer[0] == 2 and LINE.fullmatch(answer[2]), str(answer))
            self.is_kept(name, answer)


def faults(keeper, results, path):
    tried = Faults(keeper, results, path)
    counts, calls = tried.made()
    written = sum(len(call.octets) for call in tried.calls() if call.kind == "write")
    whole = tried.run()
    results.check("a run without faults", whole[0] == 0 and not whole[2] and told_committed(whole[1]) == len(SENT), str(whole))
    tried.fails(counts)
    tried.is_short(counts, whole)
    tried.is_killed(calls)
    tried.is_full(written)
    tried.finds_no_room(counts)
    tried.never_finds_room(counts)


# ---------------------------------------------------------------- folders

def full_disk(keeper, results, path):
    """A real disk without room, where one may be mounted."""
    disk = Path(path) / "disk"
    disk.mkdir()
    if subprocess.run(["mount", "-t", "tmpfs", "-o", "size=64k", "none", str(disk)], capture_output=True).returncode != 0:
        results.skip("a full disk", "none may be mounted")
        return
    try:
        sent = records("full", 0, 4_000)
        answer = keeper.keep(disk / "store", sent, 20, 10_000)
        told = set(sent[:told_committed(answer[1])])
        results.check("a full disk", answer[0] == 2 and LINE.fullmatch(answer[2]) and told, str((answer[0], answer[2])))
        found = held(files_of(disk / "store"))
        results.check("a full disk: what is held", found is not None and told <= found <= set(sent))
        results.same("a full disk: read", keeper.read(disk / "store"), (0, archive_text(found), b""))
        subprocess.run(["mount", "-o", "remount,size=16m", str(disk)], check=True)
        answer = keeper.keep(disk / "store", MORE, BATCH, CHECKPOINT)
        results.check("a disk with room again", answer[0] == 0, str(answer))
        results.same("a disk with room again: read", keeper.read(disk / "store"), (0, archive_text(found | set(MORE)), b""))
    finally:
        subprocess.run(["umount", str(disk)], check=True)


def refused(results, name, answer, words):
    """A line that has these words, status 2, and nothing told."""
    line = answer[2].decode(errors="replace")
    is_line = line.count("\n") == 1 and all(word in line for word in words)
    results.check(name, answer[0] == 2 and not answer[1] and is_line, str(answer))


def folders(keeper, results, path):
    """Folders that cannot be used."""
    path = Path(path)
    store = path / "store"
    (path / "file").write_bytes(b"no folder")

    def unusable(name, where, *words):
        refused(results, name, keeper.keep(where, SENT, 1, 1), [str(word) for word in words])

    unusable("a file in the place of the folder", path / "file", path / "file", "Not a directory")
    unusable("a folder without a parent", path / "none" / "store", path / "none" / "store", "No such file")
    refused(results, "read of no folder", keeper.read(path / "none"), [str(path / "none"), "No such file"])
    for name in "journal.1", "lock":
        (path / f"with {name}" / name).mkdir(parents=True)
        unusable(f"a folder that has the name of {name}", path / f"with {name}", name, "Is a directory")
    (path / "with new.archive" / "new.archive").mkdir(parents=True)
    answer = keeper.keep(path / "with new.archive", SENT, 1, 1)
    right = answer[0] == 2 and answer[2].startswith(b"new.archive: ") and b"committed 1\n" in answer[1]
    results.check("a folder that has the name of a draft", right, str(answer))

    process = keeper.start(store, 1, 10 ** 9)
    results.check("a store is open", process.stdout.readline() == b"open\n")
    unusable("a second one on the folder", store, store, "the lock is held by another process")
    results.same("read beside it", keeper.read(store), (0, b"", b""))
    process.stdin.close()
    results.check("the first one ends", process.wait() == 0)
    results.check("the next one", keeper.keep(store, SENT, 1, 1)[0] == 0)
    not_writable(keeper, results, path, store)


def not_writable(keeper, results, path, store):
    """A folder that may not be written, by a user who is not root."""
    os.chmod(path, 0o755)
    program = shutil.copy(keeper.program.path, path / "program")
    for one in [store, *store.iterdir()]:
        os.chmod(one, 0o555 if one.is_dir() else 0o444)
    user = {"user": 65_534} if os.getuid() == 0 else {}
    other = Keeper(Program(program))
    before = files_of(store)
    refused(results, "a folder that may not be written", other.keep(store, MORE, 1, 1, **user), [str(store), "Permission denied"])
    results.check("nothing was changed", files_of(store) == before)
    results.same("it may be read", other.program.run(["read", str(store)], **user), (0, archive_text(SENT), b""))
    os.chmod(store, 0o755)


# ---------------------------------------------------------------- octets that are changed

def changed(keeper, results, path, program):
    """Each octet of each segment is another one: `verify` tells what is wrong with it, and where; `read` refuses it, has
    written what stands before, and still reads the other days."""
    store = Path(path) / "store"
    results.check("a store of segments", keeper.keep(store, SENT, 20, 10)[0] == 0)
    files = files_of(store)
    days = sorted((name for name in files if SEGMENT.fullmatch(name)), key=lambda name: (name[:1] != b"u", name))
    results.check("segments of some days", len(days) > 2, str(days))
    for n, name in enumerate(days):
        before = archive_text(held({day: files[day] for day in days[:n]}))
        for at, octet in enumerate(files[name]):
            other = bytearray(files[name])
            other[at] = octet ^ 1 << at % 8
            (store / name.decode()).write_bytes(other)
            place, words = f"octet {at} of {name.decode()}", damage(name, bytes(other))
            line = f"{name.decode()} {words}\n".encode()
            results.same(f"{place}: verify", program.run(["verify", str(store)]), (1, line, b""))
            results.same(f"{place}: read", program.run(["read", str(store)]), (1, before, line))
        (store / name.decode()).write_bytes(b"no archive")
        other_days(results, store, name, program)
        (store / name.decode()).write_bytes(files[name])


def other_days(results, store, name, program):
    """Ranges of time without the day of a segment are read, whatever that holds."""
    for words, low, high in ranges_without(name[:10].decode()):
        right = [one for one in SENT if low <= one.split(b" ")[1].decode() < high]
        answer = program.run(["read", str(store), *words])
        results.same(f"{words} beside {name.decode()}", answer, (0, archive_text(right), b""))


def ranges_without(day):
    """Ranges of time that do not reach into a day: their words, and between which times they are."""
    if day.startswith("u"):
        yield ["--from", "1960-01-01T00:00:00Z"], "1960", "~"
        return
    one = date.fromisoformat(day)
    low, high = f"{one + timedelta(1)}T00:00:00.000000Z", f"{one}T00:00:00.000000Z"
    yield ["--from", low], low, "~"
    yield ["--to", high, "--undated"], "", high  # `-` stands below all digits


def stores(program, trial, results):
    keeper = Keeper(trial)
    for part in faults, full_disk, folders:
        with tempfile.TemporaryDirectory(dir=room()) as path:
            part(keeper, results, path)
    with tempfile.TemporaryDirectory(dir=room()) as path:
        changed(keeper, results, path, program)
    for _ in wrong_stores(keeper, results, SEED):
        pass
    cuts(keeper, results, SEED, 1_500)
    cuts(keeper, results, SEED, 1_500, is_short=True)
    not_written_again(keeper, results, SEED)
    readings(keeper, results, SEED, 20)
    kills(keeper, program, results, SEED, 40)
    compactions(program, results, SEED)

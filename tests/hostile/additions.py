"""Adds archives to stores: each call on the disk fails or is the last of the process, and the power is cut at any call;
beside a server, too.

Whatever happens, the folder holds all that it held, and beside it a prefix of the archive and nothing else (these archives
have no day without a segment of its own, which would come last); where the status is 0, all of it. The power is cut on disks that are built from the calls of real runs (tests/lib/power_cut.py);
logs from which a sync is missing have to be found wrong.
"""
import errno
import fcntl
import re
import shutil
import tempfile
import threading
from collections import Counter
from pathlib import Path

from hostile.compaction import KINDS, many_segments
from hostile.stores import room, without
from lib.ledger import ledger_of
from lib.power_cut import Cut, Disk, calls_of
from lib.reference import archive_text, framed, place
from lib.server import SOON, Server, any_port
from lib.store_format import SEGMENT, files_of, held, is_named_right
from lib.stores import FORGED, Keeper, put_folder, records

ADDED = re.compile(rb"^added (\d+) entries, up to (\S+)$", re.MULTILINE)
SEGMENTS_MAX = 65  # that an archive of at most 64 MiB gives


def in_order(sent):
    """Records in the order of an archive."""
    return sorted(set(sent), key=place)


def told_added(notes):
    """How many entries are told as added, and up to which time; None where no line says so."""
    told = ADDED.findall(notes)
    return (int(told[0][0]), told[0][1]) if len(told) == 1 else None


def time_of(record):
    return record.split(b" ", 2)[1]


class Additions:
    """Runs on a folder each."""

    def __init__(self, program, results, path, files, sent):
        self.program, self.results, self.path, self.files = program, results, Path(path), files
        self.sent, self.text = in_order(sent), archive_text(sent)
        self.keeper, self.store, self.log = Keeper(program), self.path / "store", self.path / "log"
        self.ledger = ledger_of(program, files)
        self.held = held(files)

    def run(self, **chosen):
        """The answer of a run on a new folder, whose calls are written down."""
        shutil.rmtree(self.store, ignore_errors=True)
        self.log.unlink(missing_ok=True)
        put_folder(self.store, {**self.files, b"ledger": self.ledger})
        return self.program.run(["add", str(self.store)], self.text, self.keeper.tracing(self.store, self.log, **chosen))

    def calls(self):
        return [call for call in calls_of(self.log.read_bytes()) if call.name not in (b"lock.add", b"lock.ledger")]

    def has_prefix(self, found, least=0):
        """All that was held, and a prefix of the archive that has so many entries at least; nothing else."""
        if found is None or not self.held <= found:
            return False
        more = found - self.held
        new = [one for one in self.sent if one not in self.held]
        least = sum(1 for one in self.sent[:least] if one not in self.held)
        return more == set(new[:len(more)]) and len(more) >= least

    def is_done(self, name, answer):
        """All of it is held, each segment is the archive that its name says, and the other files are as they were."""
        files = files_of(self.store)
        self.results.same(name, answer, (0, b"", b""))
        self.results.check(f"{name}: what is held", held(files) == self.held | set(self.sent))
        self.results.check(f"{name}: names", all(is_named_right(one, files[one]) for one in files if SEGMENT.fullmatch(one)))
        self.results.check(f"{name}: other files", all(files[one] == self.files[one] for one in self.files))
        new = [one for one in files if SEGMENT.fullmatch(one) and one not in self.files]
        self.results.check(f"{name}: segments", len(new) <= SEGMENTS_MAX, str(len(new)))
        self.results.check(f"{name}: no draft", b"add.archive" not in files)
        whole = archive_text(self.held | set(self.sent))
        self.results.same(f"{name}: read", self.program.run(["read", str(self.store)]), (0, whole, b""))

    def goes_on(self, name, told=None):
        """A prefix is there, as it was told, and the next one adds the rest."""
        count = told[0] if told else 0
        self.results.check(f"{name}: what is held", self.has_prefix(held(files_of(self.store)), count))
        if told:
            self.results.same(f"{name}: up to", told[1], time_of(self.sent[count - 1]) if count else b"-")
        self.is_done(f"{name}: the next one", self.program.run(["add", str(self.store)], self.text))

    def fails(self, counts):
        """Each call fails in turn, and each is the last of the process."""
        for kind in KINDS:
            for n in range(1, counts[kind] + 1):
                name = f"addition: {kind} {n} of {counts[kind]} fails"
                answer = self.run(fail=f"{kind} {n} {errno.EIO}")
                told = told_added(answer[2])
                right = told is not None or answer[2].startswith((b"lock.add: ", b"ledger: ", b"lock.ledger: "))
                self.results.check(name, answer[0] == 2 and not answer[1] and right, str(answer))
                self.goes_on(name, told)
        for n in range(1, sum(counts.values()) + 1):
            self.results.check(f"addition killed at call {n}", self.run(kill=n)[0] == -9)
            self.goes_on(f"addition killed at call {n}")

    def is_full(self):
        """The disk is full."""
        answer = self.run(full="100 1000000")
        right = answer[0] == 2 and b"No space left" in answer[2] and told_added(answer[2]) is not None
        self.results.check("addition on a full disk", right, str(answer))
        self.results.check("no draft is left on a full disk", not (self.store / "add.archive").exists())
        self.goes_on("addition on a full disk", told_added(answer[2]))

    def losses(self, calls, seed, each, whole):
        """How many of the disks that cuts at each of these calls may leave hold anything else."""
        disk, cut, wrong = Disk({**self.files, b"ledger": self.ledger}), Cut(seed, FORGED), 0
        for n, call in enumerate(calls):
            disk.do(call)
            least = len(self.sent) if whole and n + 1 == len(calls) else 0
            wrong += sum(not self.has_prefix(held(cut.left(disk)), least) for _ in range(each))
        return wrong

    def is_cut(self, seed, each):
        """The power is cut at each call, and after the last one all of it is there; without a sync, records are lost."""
        self.run()
        calls = self.calls()
        self.results.same("power cuts of an addition", self.losses(calls, seed, each, True), 0)
        for kind in "sync", "names":
            left = without(calls, lambda _, call: call.kind == kind)
            self.results.check(f"an addition without {kind} is found", self.losses(left, seed, 4 * each, True) > 0)


def is_refused(program, results, path, files):
    """What is no archive is refused at its octet, behind the entries before it, which are there."""
    sent = in_order(records("refused", 0, 60))
    entries = [framed("counted", one) for one in sent]
    for kept in 0, 1, 30:
        front = b"".join(entries[:kept])
        damaged = {"bad-frame %d" % len(front): front + b"x",
                   "not-ascending %d" % len(front): front + framed("counted", b"<0>1 - - - - - -") if kept else None,
                   "bad-entry": front + b"3 abc"}
        for words, text in damaged.items():
            if text is None:
                continue
            store = put_folder(Path(path) / "refused", files)
            answer = program.run(["add", str(store)], text)
            lines = answer[2].splitlines()
            right = answer[0] == 1 and not answer[1] and len(lines) == 2 and lines[0].startswith(words.encode())
            results.check(f"{words} behind {kept} entries", right, str(answer))
            told = told_added(answer[2])
            results.check(f"{words} behind {kept}: told", told is not None and told[0] == kept, str(answer))
            results.check(f"{words} behind {kept}: held", held(files_of(store)) == held(files) | set(sent[:kept]))
            shutil.rmtree(store)


def is_made(program, results, path):
    """A folder that is missing is made; an archive without entries adds nothing; the same archive twice is there once."""
    store, sent = Path(path) / "made", records("made", 0, 40)
    results.same("nothing is added", program.run(["add", str(store)], b""), (0, b"", b""))
    text = archive_text(sent)
    for round_ in 1, 2:
        results.same(f"added {round_} times", program.run(["add", str(store)], text), (0, b"", b""))
        files = files_of(store)
        results.check(f"added {round_} times: held", held(files) == set(sent))
        results.same(f"added {round_} times: read", program.run(["read", str(store)]), (0, text, b""))
    names = set(files_of(store))
    program.run(["add", str(store)], text)
    results.same("no file comes with what is there", set(files_of(store)), names)
    results.same("verify", program.run(["verify", str(store)]), (0, b"", b""))
    answer = program.run(["add", str(Path(path) / "none" / "store")], text)
    results.check("no parent", answer[0] == 2 and b"No such file" in answer[2], str(answer))


def is_locked(program, results, path, files):
    """One process adds at a time."""
    store = put_folder(Path(path) / "locked", files)
    with open(store / "lock.add", "wb") as lock:
        fcntl.flock(lock, fcntl.LOCK_EX)
        answer = program.run(["add", str(store)], archive_text(records("locked", 0, 3)))
        results.same("a second addition", answer, (2, b"", b"lock.add: another process adds to the store\n"))
        results.check("it changes nothing", {**files, b"lock.add": b""} == files_of(store))


def many_days(program, results, path):
    """Records of 3,000 days give at most 65 segments."""
    sent = [b"<13>1 %04d-%02d-%02dT00:00:00.000000Z h a - - - x" % (2000 + n // 336, 1 + n // 28 % 12, 1 + n % 28)
            for n in range(3_000)]
    store, text = Path(path) / "days", archive_text(sent)
    results.same("many days", program.run(["add", str(store)], text), (0, b"", b""))
    found = Counter(SEGMENT.fullmatch(name) is not None for name in files_of(store))
    results.check("many days: segments", 0 < found[True] <= SEGMENTS_MAX, str(found))
    results.same("many days: read", program.run(["read", str(store)]), (0, text, b""))


def is_beside(program, results, path, seed):
    """A server, compactions and additions go on beside each other: all is there."""
    store, sent = Path(path) / "beside", records(("beside", seed), 0, 3_000, 400)
    more = [archive_text(records(("more", seed), 10_000 * n, 400)) for n in range(1, 5)]
    answers = []
    with Server(program, store, *any_port("counted"), *SOON, "--checkpoint", 1) as server:
        def add():
            answers.extend(program.run(["add", str(store)], text) for text in more)
        adding = threading.Thread(target=add)
        adding.start()
        server.send("counted", *(framed("counted", one) for one in sent))
        results.same("compaction beside an addition", program.run(["compact", str(store)]), (0, b"", b""))
        adding.join()
        results.same("additions beside a server", answers, [(0, b"", b"")] * len(more))
        text = archive_text(set(sent).union(*(records(("more", seed), 10_000 * n, 400) for n in range(1, 5))))
        results.same("beside a server: what is read", server.until_held(text), (0, text, b""))


def additions(program, results, seed, each=20):
    """Adds archives to stores, to empty ones and to one that holds some of their records."""
    with tempfile.TemporaryDirectory(dir=room()) as path:
        files = many_segments(("addition", seed), 3)
        sent = records(("addition", seed), 0, 12) + records(("added", seed), 500, 40)
        tried = Additions(program, results, path, files, sent)
        tried.is_done("addition", tried.run())
        tried.fails(Counter(call.kind for call in tried.calls() if call.kind in KINDS))
        tried.is_full()
        tried.is_cut(seed, each)
        is_refused(program, results, path, files)
        is_made(program, results, path)
        is_locked(program, results, path, files)
        many_days(program, results, path)
        is_beside(program, results, path, seed)

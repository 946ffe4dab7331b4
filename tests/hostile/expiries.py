"""Removes old records from stores: each call on the disk fails or is the last of the process, and the power is cut at any
call; beside a server, too.

Whatever happens, the folder holds all that is not expired of what it held, and nothing that it did not hold; a segment
that is gone was told by a line before; and the next run ends what was begun. The power is cut on disks that are built from
the calls of real runs (tests/lib/power_cut.py); logs from which a sync is missing have to be found wrong.
"""
import errno
import fcntl
import hashlib
import shutil
import tempfile
from collections import Counter
from datetime import datetime, timedelta, timezone
from pathlib import Path

from hostile.compaction import KINDS
from hostile.stores import room, without
from lib.ledger import ledger_of
from lib.power_cut import Cut, Disk, calls_of
from lib.reference import archive_read, archive_text, framed
from lib.server import SOON, Server, any_port, until
from lib.store_format import JOURNAL, SEGMENT, day_of, files_of, held, is_named_right, open_batch, seal_of, segment_name
from lib.stores import FORGED, Keeper, put_folder, records

BEFORE = b"2026-11-25T10:00:00Z"
HOUR = b"2026-11-25T10"


def is_old(record, undated, hour=HOUR):
    """Whether a record is from before the hour, or has no time and those are removed, too."""
    time = record.split(b" ", 2)[1]
    return undated if time == b"-" else time[:len(hour)] < hour


def segments_of(files):
    """The names of the segments in the order in which they are looked at: undated ones, days, mixed ones."""
    names = [name for name in files if SEGMENT.fullmatch(name)]
    return sorted(names, key=lambda name: (name.startswith(b"mixed"), not name.startswith(b"undated"), name))


def line_of(name, octets):
    """What is told of a segment that goes."""
    return b"%b %d %d %b\n" % (SEGMENT.fullmatch(name).group(1), len(archive_read(octets)[0]), len(octets),
                               hashlib.sha256(octets).hexdigest().encode())


def expired(files, undated, hour=HOUR):
    """The lines on the segments that have an old record, and the files that are left."""
    lines, left = [], dict(files)
    for name in segments_of(files):
        kept = [one for one in archive_read(files[name])[0] if not is_old(one, undated, hour)]
        if len(kept) == len(archive_read(files[name])[0]):
            continue
        lines.append(line_of(name, files[name]))
        del left[name]
        if kept:
            text = archive_text(kept)
            left[segment_name(SEGMENT.fullmatch(name).group(1), text)] = text
    return b"".join(lines), left


def old_store(seed):
    """A folder of segments of days, mixed and undated ones, and a journal that has old records, too."""
    sent = records(seed, 0, 90)
    body = b"".join(framed("counted", one) for one in sent[:6])
    files = {b"journal.3": open_batch(body + seal_of(body)) + b"\xfe", b"refused": b"x"}
    for part in sent[6:30], sent[20:60]:
        for day in {day_of(one) for one in part}:
            text = archive_text({one for one in part if day_of(one) == day})
            files[segment_name(day, text)] = text
    for part in sent[60:80], sent[75:]:
        text = archive_text(part)
        files[segment_name(b"mixed", text)] = text
    return files


class Expiries:
    """Runs on a folder each."""

    def __init__(self, program, results, path, files):
        self.program, self.results, self.path, self.files = program, results, Path(path), files
        self.keeper, self.store, self.log = Keeper(program), self.path / "store", self.path / "log"
        self.ledger = ledger_of(program, files)
        self.journals = held({name: octets for name, octets in files.items() if JOURNAL.fullmatch(name)})

    def words(self, undated):
        return ["expire", str(self.store), "--before", BEFORE.decode(), *(["--undated"] if undated else [])]

    def run(self, undated=False, **chosen):
        """The answer of a run on a new folder, whose calls are written down."""
        shutil.rmtree(self.store, ignore_errors=True)
        self.log.unlink(missing_ok=True)
        put_folder(self.store, {**self.files, b"ledger": self.ledger})
        return self.program.run(self.words(undated), b"", self.keeper.tracing(self.store, self.log, **chosen))

    def calls(self):
        return [call for call in calls_of(self.log.read_bytes()) if call.name not in (b"lock.compact", b"lock.ledger")]

    def is_between(self, found, undated=False):
        """All that is not expired is held, and nothing that was not."""
        before = held(self.files)
        return found is not None and self.journals | {one for one in before if not is_old(one, undated)} <= found <= before

    def is_done(self, name, answer, undated=False, lines=None):
        """The lines are told, and the files are those that are to be left."""
        told, left = expired(self.files, undated)
        self.results.same(name, answer, (0, told if lines is None else lines, b""))
        found = {one: octets for one, octets in files_of(self.store).items() if one != b"lock.compact"}
        self.results.check(f"{name}: files", found == left, f"{sorted(found)} {sorted(left)}")
        self.results.check(f"{name}: names", all(is_named_right(one, found[one]) for one in segments_of(found)))
        self.results.same(f"{name}: read", self.program.run(["read", str(self.store)]), (0, archive_text(held(left)), b""))
        self.results.same(f"{name}: verify", self.program.run(["verify", str(self.store)]), (0, b"", b""))

    def goes_on(self, name, output):
        """What is gone was told, what is not expired is held, and the next run ends what was begun."""
        files = files_of(self.store)
        self.results.check(f"{name}: what is held", self.is_between(held(files)))
        gone = [one for one in segments_of(self.files) if one not in files]
        told = all(line_of(one, self.files[one]) in output for one in gone)
        self.results.check(f"{name}: what is gone was told", told, f"{gone} {output}")
        lines, _ = expired({one: octets for one, octets in files.items() if one != b"expire.archive"}, False)
        self.is_done(f"{name}: the next one", self.program.run(self.words(False)), lines=lines)

    def fails(self, counts):
        """Each call fails in turn, and each is the last of the process."""
        for kind in KINDS:
            for n in range(1, counts[kind] + 1):
                name = f"expiry: {kind} {n} of {counts[kind]} fails"
                answer = self.run(fail=f"{kind} {n} {errno.EIO}")
                self.results.check(name, answer[0] == 2 and answer[2].endswith(b"\n"), str(answer))
                left = (self.store / "expire.archive").exists()
                self.results.check(f"{name}: no draft is left", kind == "remove" or not left)
                self.goes_on(name, answer[1])
        for n in range(1, sum(counts.values()) + 1):
            answer = self.run(kill=n)
            self.results.check(f"expiry killed at call {n}", answer[0] == -9)
            self.goes_on(f"expiry killed at call {n}", answer[1])

    def is_full(self):
        """The disk is full."""
        answer = self.run(full="100 1000000")
        self.results.check("expiry on a full disk", answer[0] == 2 and b"No space left" in answer[2], str(answer))
        self.results.check("no draft is left on a full disk", not (self.store / "expire.archive").exists())
        self.goes_on("expiry on a full disk", answer[1])

    def cannot_tell(self):
        """Where a line cannot be written, nothing is removed."""
        shutil.rmtree(self.store, ignore_errors=True)
        put_folder(self.store, self.files)
        with open("/dev/full", "wb") as full:
            answer = self.program.run(self.words(False), b"", stdout=full)
        self.results.check("no line can be written", answer[0] == 2 and answer[2] == b"write fault\n", str(answer))
        files = files_of(self.store)
        self.results.check("and nothing is gone", all(files.get(name) == octets for name, octets in self.files.items()))

    def losses(self, calls, seed, each):
        """How many of the disks that cuts at each of these calls may leave hold anything else."""
        disk, cut, wrong = Disk({**self.files, b"ledger": self.ledger}), Cut(seed, FORGED), 0
        for call in calls:
            disk.do(call)
            wrong += sum(not self.is_between(held(cut.left(disk))) for _ in range(each))
        return wrong

    def is_cut(self, seed, each):
        """The power is cut at each call; without a sync, records are lost."""
        self.run()
        calls = self.calls()
        self.results.same("power cuts of an expiry", self.losses(calls, seed, each), 0)
        for kind in "sync", "names":
            left = without(calls, lambda _, call: call.kind == kind)
            self.results.check(f"an expiry without {kind} is found", self.losses(left, seed, 4 * each) > 0)

    def changes_nothing(self):
        """A dry run tells what would go."""
        shutil.rmtree(self.store, ignore_errors=True)
        put_folder(self.store, self.files)
        for undated in False, True:
            answer = self.program.run([*self.words(undated), "--dry-run"])
            self.results.same(f"a dry run, undated {undated}", answer, (0, expired(self.files, undated)[0], b""))
            self.results.check("it changes nothing", {**self.files, b"lock.compact": b""} == files_of(self.store))

    def is_damaged(self):
        """A damaged segment that may have old records is told and stays as it is; a dry run tells it, too."""
        name = next(one for one in segments_of(self.files) if one.startswith(b"2026-11-24"))
        for kind, octets, what in ("no archive", self.files[name] + b"4", b" bad-frame "), ("empty", b"", b" digest"):
            store = put_folder(self.path / f"damaged, {kind}", {**self.files, name: octets})
            for more in ["--dry-run"], []:
                answer = self.program.run(["expire", str(store), "--before", BEFORE.decode(), *more])
                right = answer[0] == 1 and answer[2].startswith(name + what)
                self.results.check(f"a damaged segment, {kind}, {more}", right, str(answer))
                self.results.same(f"it stays, {kind}, {more}", (store / name.decode()).read_bytes(), octets)

    def is_synced(self):
        """The removals are brought to the disk: the folder is synced behind the last of them."""
        self.run()
        kinds = [call.kind for call in self.calls() if call.kind in KINDS]
        self.results.check("removals are synced", "remove" in kinds and kinds[-1] == "names", str(kinds[-3:]))

    def has_a_damaged_rest(self):
        """A damaged file under the name of what is left of a segment is told, and both stay."""
        name = next(one for one in segments_of(self.files) if line_of(one, self.files[one]) in expired(self.files, False)[0]
                    and any(not is_old(record, False) for record in archive_read(self.files[one])[0]))
        kept = [record for record in archive_read(self.files[name])[0] if not is_old(record, False)]
        rest = segment_name(SEGMENT.fullmatch(name).group(1), archive_text(kept))
        for octets in b"", b"x":
            store = put_folder(self.path / f"damaged rest {len(octets)}", {name: self.files[name], rest: octets})
            answer = self.program.run(["expire", str(store), "--before", BEFORE.decode()])
            self.results.check("a damaged rest", answer[0] == 1 and answer[2].startswith(rest + b" "), str(answer))
            left = {one: text for one, text in files_of(store).items() if one != b"lock.compact"}
            self.results.same("both stay", left, {name: self.files[name], rest: octets})

    def is_locked(self):
        """One process joins or removes segments at a time."""
        store = put_folder(self.path / "locked", self.files)
        with open(store / "lock.compact", "wb") as lock:
            fcntl.flock(lock, fcntl.LOCK_EX)
            answer = self.program.run(["expire", str(store), "--keep", "30"])
            self.results.same("expiry beside a compaction", answer, (2, b"", b"lock.compact: another process compacts or expires the store\n"))
            self.results.check("it changes nothing", {**self.files, b"lock.compact": b""} == files_of(store))


def rounds_down(program, results, path):
    """A time is rounded down to its hour; days are counted back from now."""
    sent = [b"<13>1 2026-11-25T09:59:59.999999Z h a - - - old", b"<13>1 2026-11-25T10:00:00.000000Z h a - - - new",
            b"<13>1 2026-11-25T10:59:59.999999Z h a - - - newer"]
    for time in "2026-11-25T10:00:00Z", "2026-11-25T10:59:59.999999Z", "2026-11-25T12:30:00+02:00":
        store = put_folder(Path(path) / "rounded", {segment_name(b"2026-11-25", archive_text(sent)): archive_text(sent)})
        answer = program.run(["expire", str(store), "--before", time])
        results.check(f"before {time}", answer[0] == 0 and answer[1].startswith(b"2026-11-25 3 "), str(answer))
        results.same(f"before {time}: read", program.run(["read", str(store)]), (0, archive_text(sent[1:]), b""))
        shutil.rmtree(store)
    now = datetime.now(timezone.utc)
    ago = [(now - timedelta(days=days)).strftime("<13>1 %Y-%m-%dT%H:%M:%S.000000Z h a - - - x").encode() for days in (29, 31)]
    store = Path(path) / "ago"
    program.run(["add", str(store)], archive_text(ago))
    answer = program.run(["expire", str(store), "--keep", "30"])
    results.check("thirty days are kept", answer[0] == 0 and answer[1].count(b"\n") == 1, str(answer))
    results.same("thirty days are kept: read", program.run(["read", str(store)]), (0, archive_text(ago[:1]), b""))
    results.same("what is thirty days old", program.run(["expire", str(store), "--before", "-28d", "--dry-run"])[1].count(b"\n"), 1)


def read(program, store):
    """The records that a store holds; none where it is not read."""
    status, output, _ = program.run(["read", str(store)])
    return set(archive_read(output)[0]) if status == 0 else set()


def is_beside(program, results, path, seed):
    """A server goes on beside expiries: what is not old is there."""
    store, sent = Path(path) / "beside", records(("beside", seed), 0, 2_000, 400)
    with Server(program, store, *any_port("counted"), *SOON, "--checkpoint", 1) as server:
        for part in range(4):
            server.send("counted", *(framed("counted", one) for one in sent[500 * part:500 * part + 500]))
            answer = program.run(["expire", str(store), "--before", BEFORE.decode()])
            results.check(f"expiry {part} beside a server", answer[0] == 0 and not answer[2], str(answer))
        new = {one for one in sent if not is_old(one, False)}
        until(lambda: new <= read(program, store))
        results.check("the server goes on", server.process.poll() is None, str(server.told()))
    results.check("beside a server: what is read", new <= read(program, store) <= set(sent))


def expiries(program, results, seed, each=20):
    """Removes old records from a store of segments of all kinds."""
    with tempfile.TemporaryDirectory(dir=room()) as path:
        tried = Expiries(program, results, path, old_store(("expiry", seed)))
        for undated in False, True:
            tried.is_done(f"expiry, undated {undated}", tried.run(undated), undated)
        tried.run()
        tried.fails(Counter(call.kind for call in tried.calls() if call.kind in KINDS))
        tried.is_full()
        tried.cannot_tell()
        tried.is_cut(seed, each)
        tried.changes_nothing()
        tried.is_damaged()
        tried.has_a_damaged_rest()
        tried.is_synced()
        tried.is_locked()
        rounds_down(program, results, path)
        is_beside(program, results, path, seed)

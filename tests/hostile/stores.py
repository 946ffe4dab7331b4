"""Ends a program that keeps a store at moments by chance, and cuts the power of its disk.

Kills: the program is given records as fast as it takes them, and is killed at some moment; the same folder is opened
again by the next round. After each, the folder holds all that was told as committed and nothing that was not sent, `read`
gives it, and its octets are those that `archive` makes of the same records.

Power cuts: the calls of real runs on the disk are written down (tests/lib/trace.c), of runs that are killed and opened again
too. From the log disks are built that a cut at any of these calls may leave (tests/lib/power_cut.py), and each is read,
opened, given one record more, and read again after a checkpoint. From some of them the power is cut a second time, while
they are opened. The same of runs in which some syncs find no room, and lose what they were to bring to the disk.
"""
import argparse
import bisect
import errno
import os
import select
import shutil
import sys
import tempfile
import time
from itertools import accumulate
from pathlib import Path
from random import Random

from lib.power_cut import BEGIN, Cut, Disk, calls_of
from lib.program import Folder, Program
from lib.reference import archive_read, archive_text, counted, framed
from lib.results import Results
from lib.store_format import files_of, held
from lib.stores import AFTER, FORGED, Keeper, put_folder, records, told_committed

MEMORY = "/dev/shm"  # where disks are built, if it is there
TOGETHER = 200  # disks that one process opens


def room():
    return MEMORY if os.access(MEMORY, os.W_OK) else None


# ---------------------------------------------------------------- kills

SENT = 600  # records of a round at most
ROUNDS = 40  # of one folder


def feed(process, octets, seconds, once_open=False):
    """Gives a process octets for so long, from its start or from when it has opened its store, and kills it then; gives what
    it has written."""
    stdin, stdout = process.stdin.fileno(), process.stdout.fileno()
    output, at = process.stdout.readline() if once_open else b"", 0
    end = time.monotonic() + seconds
    os.set_blocking(stdin, False)
    os.set_blocking(stdout, False)
    while (left := end - time.monotonic()) > 0 and process.poll() is None:
        readable, writable, _ = select.select([stdout], [stdin] if at < len(octets) else [], [], left)
        if readable:
            piece = os.read(stdout, 65_536)
            if not piece:
                break
            output += piece
        if writable:
            try:
                at += os.write(stdin, octets[at:at + 4_096])
            except BrokenPipeError:
                break
    process.kill()
    os.set_blocking(stdout, True)
    rest, notes = process.stdout.read(), process.stderr.read()
    for stream in process.stdin, process.stdout, process.stderr:
        try:
            stream.close()
        except BrokenPipeError:
            pass
    process.wait()
    return output + rest, notes


def kills(keeper, program, results, seed, rounds):
    """Kills the program so many times."""
    random = Random(repr(("kills", seed)))
    committed_in_all = 0
    with tempfile.TemporaryDirectory(dir=room()) as path:
        for n in range(rounds):
            folder = Path(path) / str(n // ROUNDS)
            if n % ROUNDS == 0:
                sent, committed = set(), set()
            batch = records((seed, n), n * SENT, 1 + random.randrange(SENT))
            batch += random.sample(sorted(sent), min(len(sent), random.randrange(40)))
            process = keeper.start(folder, random.choice([1, 3, 20, 100]), random.choice([0, 2_000, 20_000, 10 ** 9]))
            seconds = random.choice([0.004, 0.02, 0.1]) * random.random()
            output, notes = feed(process, counted(batch), seconds, n % 2 == 1)
            told = told_committed(output)
            sent |= set(batch)
            committed |= set(batch[:told])
            committed_in_all += told
            name = f"kill {n} of seed {seed}"
            if not folder.exists():
                results.check(name, not committed, "no folder")
                continue
            found = held(files_of(folder))
            results.check(f"{name}: what is held", found is not None and committed <= found <= sent and not notes, str(notes))
            if found is None:
                return
            text = archive_text(found)
            answer = program.run(["archive", "--framing", "counted"], counted(sorted(found)))
            results.same(f"{name}: read", keeper.read(folder), (0, text, b""))
            results.same(f"{name}: archive", answer, (0, text, b""))
    results.check("some records were committed", committed_in_all > rounds, str(committed_in_all))


# ---------------------------------------------------------------- reading beside a store that is kept

CHANGES = b"files came and went while they were listed\n"  # what `read` tells of a folder that changes too fast
READINGS = 10  # of one folder
EACH = 200  # records that are given before each of them


def given(process, octets):
    """Whether a process still takes octets."""
    try:
        process.stdin.write(octets)
        process.stdin.flush()
    except BrokenPipeError:
        return False
    return True


def read_beside(keeper, folder):
    """The answer of `read`, which is asked again as long as the folder changes too fast for it, a hundred times at most."""
    for _ in range(100):
        answer = keeper.read(folder)
        if (answer[0], answer[2]) != (2, CHANGES):
            break
    return answer


def readings(keeper, results, seed, count):
    """Stores are read so many times while they are kept."""
    for n in range(0, count, READINGS):
        readings_of_one(keeper, results, (seed, n), min(READINGS, count - n))


def readings_of_one(keeper, results, seed, count):
    """A store is read while it is kept, with a checkpoint after almost each batch: what was committed before is there.
    Before each reading it is given records, so that it may be at work then; it comes to rest after them."""
    sent = records(("readings", seed), 0, count * EACH)
    with tempfile.TemporaryDirectory(dir=room()) as path:
        folder = Path(path) / "store"
        process = keeper.start(folder, 20, 1_000)
        told = process.stdout.readline()
        for end in range(EACH, len(sent) + 1, EACH):
            if not given(process, counted(sent[end - EACH:end])):
                break
            if select.select([process.stdout], [], [], 0)[0]:
                told += os.read(process.stdout.fileno(), 65_536)
            committed = set(sent[:told_committed(told)])
            status, text, notes = read_beside(keeper, folder)
            found, fault = archive_read(text)
            right = status == 0 and not notes and fault is None and committed <= set(found) <= set(sent[:end])
            results.check(f"reading {end // EACH} beside a store of seed {seed}", right,
                          f"status {status}, {notes}, {fault}, {len(committed - set(found))} missing")
        _, notes = process.communicate()
        results.check("the store that was read is kept", process.returncode == 0 and not notes, f"{process.returncode} {notes}")
        results.same("and holds all", keeper.read(folder), (0, archive_text(sent), b""))


# ---------------------------------------------------------------- power cuts

class Told:
    """What was received and what was told as committed, as the calls of a log come."""

    def __init__(self, sessions):
        self.sessions = iter(sessions)
        self.committed, self.received = set(), set()
        self.session, self.ends, self.given = [], [], 0

    def do(self, call):
        if call.kind == "begin":
            self.session, self.given = next(self.sessions), 0
            self.ends = list(accumulate(len(framed("counted", one)) for one in self.session))
        elif call.kind == "given":
            self.given += call.at
            self.received.update(self.session[:bisect.bisect_right(self.ends, self.given)])
        elif call.kind == "told" and call.octets.startswith(b"committed "):
            self.committed.update(self.session[:int(call.octets.split()[1])])


class Traced:
    """Runs on one folder, whose calls are written down, and what each was given."""

    def __init__(self, keeper, folder):
        self.keeper, self.path, self.log, self.sessions = keeper, folder / "store", folder / "log", []

    def run(self, sent, batch, checkpoint, **chosen):
        self.sessions.append(sent)
        with open(self.log, "ab") as log:
            log.write(BEGIN)
        environment = self.keeper.tracing(self.path, self.log, **chosen)
        status, output, notes = self.keeper.keep(self.path, sent, batch, checkpoint, environment)
        # nothing is tried again while a store is opened
        if "fail" in chosen and (status, output) == (2, b"") and b"No space left" in notes:
            return
        if notes or status not in ([0, -9] if "kill" in chosen else [0]):
            raise RuntimeError(f"status {status}, {notes}, {chosen}")

    def calls(self):
        return calls_of(self.log.read_bytes())


def short_syncs(random):
    """Some syncs that find no room, never as many at once as a run tries a call, and the octet that is then in the place of
    those that are lost."""
    faults = []
    for kind, most in ("sync", 60), ("sync", 20), ("names", 20):
        first = random.randint(2, most)
        faults.append(f"{kind} {first} {errno.ENOSPC} {first + random.randrange(2)}")
    return {"fail": ",".join(faults), "spoil": random.choice([0, 1, 32, 255])}


def traced(keeper, folder, seed, is_short=False):
    """Some runs on one folder, most of which are killed at a call; with syncs that find no room, if so wanted."""
    random = Random(repr(("traced", seed)))
    made = Traced(keeper, folder)
    for n in range(random.randint(1, 3)):
        sent = records(("cut", seed), n * 100, random.randint(2, 30), random.choice([10, 60, 600]))
        chosen = {"kill": random.randint(1, 60)} if random.random() < 0.6 else {}
        if is_short:
            chosen |= short_syncs(random)
        batch, checkpoint = random.choice([1, 2, 5, 50]), random.choice([0, 200, 800, 10 ** 9])
        made.run(sent, batch, checkpoint, read=random.choice([50, 300, 4_096]), **chosen)
    return made


def disks_of(calls, sessions, cut, each):
    """Disks that cuts at each call may leave, so many of each, with what was committed and what was received."""
    disk, told = Disk(), Told(sessions)
    for n, call in enumerate(calls):
        disk.do(call)
        told.do(call)
        committed, received = frozenset(told.committed), frozenset(told.received)
        for _ in range(1 if disk.is_sure() else each):
            yield n, cut.left(disk), committed, received


def wrong(files, block, least, most):
    """How what the program says of a disk is wrong, or None: it holds at least and at most these records."""
    found = held(files)
    if found is None:
        return "a file is damaged"
    if not least <= found:
        return f"{len(least - found)} records are lost, as {sorted(least - found)[0]}"
    if not found <= most:
        return f"{len(found - most)} records are forged, as {sorted(found - most)[0]}"
    text, after = archive_text(found), archive_text(found | {AFTER})
    for what, right in {"crashed": text, "opened": text, "committed": after, "checkpoint": after}.items():
        if block.get(what) != right:
            return f"{what}: another archive; {block.get('fault')}"
    return None


class Cuts:
    """Disks after power cuts are opened, many by one process."""

    def __init__(self, keeper, results, path, seed, second=0.0):
        self.keeper, self.results, self.path, self.seed, self.second = keeper, results, Path(path), seed, second
        self.random = Random(repr(("second", seed)))
        self.cut = Cut(seed, FORGED)
        self.waiting, self.opened, self.seen, self.faults = [], 0, set(), []

    def add(self, name, files, least, most):
        key = hash((frozenset(files.items()), len(least), len(most)))
        if key in self.seen:
            return
        self.seen.add(key)
        self.waiting.append((name, files, least, most))
        if len(self.waiting) >= TOGETHER:
            self.open()

    def open(self):
        """Opens the disks that wait."""
        if not self.waiting:
            return
        waiting, self.waiting = self.waiting, []
        log = self.path / "opened.log"
        paths = [put_folder(self.path / f"d{n}", files) for n, (_, files, _, _) in enumerate(waiting)]
        environment = self.keeper.tracing(self.path, log) if self.second else None
        status, notes, blocks = self.keeper.crashed(paths, environment)
        if status != 0 or len(blocks) != len(waiting):
            self.faults.append(f"status {status}, {notes}")
            blocks += [{}] * (len(waiting) - len(blocks))
        for (name, files, least, most), block in zip(waiting, blocks):
            fault = wrong(files, block, least, most)
            self.opened += 1
            if fault:
                self.faults.append(f"{name}: {fault}")
        for path in paths:
            shutil.rmtree(path)
        if self.second and status == 0:
            second, self.second = self.second, 0.0
            self.cut_again(waiting, calls_of(log.read_bytes()), second)
            self.open()
            self.second = second
            log.unlink()

    def cut_again(self, waiting, calls, second):
        """Cuts the power of some of the disks while they are opened."""
        at = 0
        for n, (name, files, _, _) in enumerate(waiting):
            end = next(i for i in range(at, len(calls)) if calls[i].octets == b"done\n") + 1
            mine, at = calls[at:end], end
            found = held(files)
            if found is None or self.random.random() >= second:
                continue
            disk, front = Disk(files), f"d{n}/".encode()
            after = frozenset()
            where = set(self.random.sample(range(len(mine)), min(3, len(mine))))
            for i, call in enumerate(mine):
                if call.kind == "told" and call.octets.startswith(b"committed"):
                    after = {AFTER}
                if call.name.startswith(front):
                    disk.do(call._replace(name=call.name[len(front):], octets=call.octets.removeprefix(front)))
                if i in where:
                    self.add(f"{name}, and again at call {i}", self.cut.left(disk), found | after, found | {AFTER})


def cuts(keeper, results, seed, disks, each=12, is_short=False):
    """Cuts the power until so many disks were opened; gives how many were. The runs have syncs that find no room, if so
    wanted."""
    opened = number = 0
    while opened < disks:
        with tempfile.TemporaryDirectory(dir=room()) as path:
            try:
                made = traced(keeper, Path(path), (seed, number), is_short)
            except RuntimeError as error:
                results.check("a traced run", False, error)
                return opened
            tried = Cuts(keeper, results, path, (seed, number), 0.25)
            for n, files, committed, received in disks_of(made.calls(), made.sessions, tried.cut, each):
                tried.add(f"power cut of seed {seed}, run {number}{' with short syncs' * is_short}, call {n}", files, committed,
                          received)
                if opened + tried.opened >= disks:
                    break
            tried.open()
            opened += tried.opened
            results.passed += tried.opened - len(tried.faults)
            for fault in tried.faults:
                results.check("a disk after a power cut", False, fault)
            number += 1
    return opened


# ---------------------------------------------------------------- wrong stores

def without(calls, leave):
    """The log without some of its calls."""
    return [call for n, call in enumerate(calls) if not leave(n, call)]


def is_journal_sync(call):
    return call.kind == "sync" and call.name.startswith(b"journal.")


def of_commits(calls, which):
    """The numbers of the first or second sync of each commit."""
    found = [n for n, call in enumerate(calls) if is_journal_sync(call)]
    opening = {n for n in found if calls[n - 1].kind == "write" and calls[n - 1].octets == b"\x01"}
    return opening if which else {before for before, n in zip(found, found[1:]) if n in opening}


def opening_last(calls):
    """The opening octet is written with the batch, before its sync."""
    found = list(calls)
    for n in of_commits(calls, 1):
        first = max(m for m in of_commits(calls, 0) if m < n)
        found[first], found[n - 1] = found[n - 1], found[first]
    return found


def removed_early(calls):
    """The journal before is removed before the folder was synced behind the last segment's name."""
    found = list(calls)
    for n, call in enumerate(calls):
        if call.kind == "remove" and call.name.startswith(b"journal."):
            renamed = max(m for m in range(n) if calls[m].kind == "rename")
            found.insert(renamed + 1, found.pop(n))
    return found


def named_late(calls):
    """The folder is not synced once a journal was made."""
    return without(calls, lambda n, call: call.kind == "names" and calls[n - 1].kind == "sync" and is_journal_sync(calls[n - 1]))


def unsettled(calls):
    """A journal is not synced when it is opened."""
    found, opens, runs = [], False, 0
    for call in calls:
        runs += call.kind == "begin"
        opens = runs > 1 if call.kind == "begin" else opens and call.kind != "told"
        if not (opens and is_journal_sync(call)):
            found.append(call)
    return found


# logs of stores that are wrong, as changes of the log of the right one
WRONG = {
    "a batch is not synced before it is opened": lambda calls: without(calls, lambda n, _: n in of_commits(calls, 0)),
    "a commit is told before its opening octet is synced": lambda calls: without(calls, lambda n, _: n in of_commits(calls, 1)),
    "the opening octet is synced with the batch": opening_last,
    "a commit syncs nothing": lambda calls: without(calls, lambda _, call: is_journal_sync(call)),
    "the folder is never synced": lambda calls: without(calls, lambda _, call: call.kind == "names"),
    "the folder is not synced once a journal was made": named_late,
    "a segment is not synced before it has its name": lambda calls: without(
        calls, lambda _, call: call.kind == "sync" and call.name == b"new.archive"),
    "the journal before is removed before a segment's name is on the disk": removed_early,
}
# the same by the shim, which leaves out calls of the real run
DROPPED = {"every second fdatasync, from the second on": "sync 1 2", "every second fdatasync": "sync 0 2",
           "each fsync of the folder": "names 0 1"}


def is_found(keeper, results, calls, sessions, seed, most):
    """Whether disks of this log show that the store is wrong; how many it took, or None."""
    with tempfile.TemporaryDirectory(dir=room()) as path:
        tried = Cuts(keeper, results, path, seed)
        for n, files, committed, received in disks_of(calls, sessions, tried.cut, 12):
            tried.add(f"call {n}", files, committed, received)
            if tried.faults or tried.opened > most:
                break
        tried.open()
        return (tried.opened, tried.faults[0]) if tried.faults else None


def wrong_stores(keeper, results, seed, most=4_000):
    """Stores that are wrong are found by power cuts, and the right one is not. Gives how each was found."""
    random = Random(repr(("wrong", seed)))

    def found(name, changes, count=1, **chosen):
        """Whether one of so many runs, or of pairs of them, shows it."""
        for n in range(count):
            with tempfile.TemporaryDirectory(dir=room()) as path:
                made = Traced(keeper, Path(path))
                checkpoint = 10 ** 9 if chosen else 300
                if count > 1:
                    made.run(records((name, seed, n), 0, 24), 2, checkpoint, kill=random.randint(4, 40), read=100)
                made.run(records((name, seed, n), 100, 24), 2, checkpoint, read=100, **chosen)
                seen = is_found(keeper, results, changes(made.calls()), made.sessions, (name, seed), most)
            if seen:
                return seen
        return None

    seen = found("right", list)
    results.check("the right store is not found wrong", seen is None, str(seen))
    tries = [(name, change, 1, {}) for name, change in WRONG.items()]
    tries.append(("a journal is not synced when it is opened", unsettled, 40, {}))
    tries += [(f"{name} is left out", list, 1, {"drop": drop}) for name, drop in DROPPED.items()]
    for name, change, count, chosen in tries:
        seen = found(name, change, count, **chosen)
        results.check(f"{name}: found", seen, str(seen))
        yield name, seen


def written_once(calls):
    """What a sync that found no room was to bring to the disk is not written again."""
    found, waiting, lost = [], {}, {}
    for call in calls:
        key = call.at, call.octets
        if call.kind == "write" and key in lost.get(call.file, ()):
            continue
        if call.kind == "write":
            waiting.setdefault(call.file, set()).add(key)
        elif call.kind == "lost":
            lost.setdefault(call.file, set()).update(waiting.pop(call.file, ()))
        elif call.kind == "sync":
            waiting.pop(call.file, None)
            lost.pop(call.file, None)
        found.append(call)
    return found


def not_written_again(keeper, results, seed):
    """A store that does not write again what a sync had no room for is found wrong, and the right one is not. What is lost of a
    batch that is not open yet is cut off, and the batch written again in any case."""
    for sync in 4, 5:  # of the second batch: before its opening octet is written, and behind it
        with tempfile.TemporaryDirectory(dir=room()) as path:
            made = Traced(keeper, Path(path))
            try:
                made.run(records(("again", seed), 0, 12), 3, 10 ** 9, read=100, fail=f"sync {sync} {errno.ENOSPC}", spoil=32)
            except RuntimeError as error:
                results.check(f"a run whose sync {sync} finds no room", False, error)
                continue
            calls = made.calls()
            seen = is_found(keeper, results, calls, made.sessions, ("again", seed), 4_000)
            results.check(f"sync {sync} finds no room, and what is lost is written again: not found wrong", seen is None, str(seen))
            if sync == 5:
                seen = is_found(keeper, results, written_once(calls), made.sessions, ("again", seed), 4_000)
                results.check(f"sync {sync} finds no room, and what is lost is not written again: found", seen, str(seen))


def main(words):
    parser = argparse.ArgumentParser(prog="tests/run.py stores", description=__doc__,
                                     formatter_class=argparse.RawDescriptionHelpFormatter)
    parser.add_argument("program", help="syslogbox")
    parser.add_argument("trial", help="store_trial")
    parser.add_argument("--rounds", type=int, default=1_000, help="kills")
    parser.add_argument("--disks", type=int, default=20_000, help="disks after power cuts")
    parser.add_argument("--seed", type=int, default=int(time.time()))
    chosen = parser.parse_args(words)
    results = Results()
    print(f"seed {chosen.seed}", flush=True)
    with tempfile.TemporaryDirectory() as path:
        program, keeper = Program(chosen.program, Folder(path)), Keeper(Program(chosen.trial, Folder(path)))
        for name, seen in wrong_stores(keeper, results, chosen.seed):
            print(f"wrong store: {name}: {seen}", flush=True)
        start = time.monotonic()
        opened = cuts(keeper, results, chosen.seed, chosen.disks)
        print(f"{opened} disks after power cuts in {time.monotonic() - start:.0f} s", flush=True)
        not_written_again(keeper, results, chosen.seed)
        start = time.monotonic()
        opened = cuts(keeper, results, chosen.seed, chosen.disks, is_short=True)
        print(f"{opened} disks after power cuts of runs with syncs that find no room in {time.monotonic() - start:.0f} s", flush=True)
        readings(keeper, results, chosen.seed, chosen.rounds)
        start = time.monotonic()
        kills(keeper, program, results, chosen.seed, chosen.rounds)
        print(f"{chosen.rounds} kills in {time.monotonic() - start:.0f} s", flush=True)
    return results.end()


if __name__ == "__main__":
    sys.exit(main(sys.argv[1:]))

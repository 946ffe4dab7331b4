"""`follow`: journals that grow step by step, that come and go, that are damaged; conditions; a real server beside it under load, with
checkpoints and kills; readers that go; and folders that are not there."""
import os
import signal
import subprocess
import tempfile
import threading
from pathlib import Path
from random import Random

from lib.reference import counted, counted_frames
from lib.server import Server, until
from lib.store_format import CLOSED, OPEN, seal_of
from lib.stores import record

NONE = bytes([CLOSED])
QUIET = 0.35  # seconds in which it looks three times


class Journal:
    """A journal that is written as a server does, each step by itself."""

    def __init__(self, store, number):
        self.path = Path(store) / f"journal.{number}"
        self.path.write_bytes(NONE)

    def write(self, records, seal=seal_of):
        """Writes a batch behind the others, and leaves it closed; gives what opens it."""
        text = counted(records)
        body = text + seal(text)
        at = self.path.stat().st_size - 1
        with open(self.path, "ab") as stream:
            stream.write(len(body).to_bytes(4, "little") + body + NONE)
        return at

    def open(self, at):
        with open(self.path, "r+b") as stream:
            stream.seek(at)
            stream.write(bytes([OPEN]))

    def commit(self, records):
        self.open(self.write(records))
        return counted(records)


class Follow:
    """A run of `follow`, and what it has written so far."""

    def __init__(self, program, store, *words):
        self.process = subprocess.Popen([program.path, "follow", str(store), *words], stdin=subprocess.PIPE,
                                        stdout=subprocess.PIPE, stderr=subprocess.PIPE)
        self.octets = b""
        self.reader = threading.Thread(target=self.read, daemon=True)
        self.reader.start()

    def read(self):
        while piece := os.read(self.process.stdout.fileno(), 65_536):
            self.octets += piece

    def writes(self, text):
        """Whether it comes to have written these octets, and no others."""
        until(lambda: len(self.octets) >= len(text) or self.process.poll() is not None)
        return self.octets == text

    def stays(self, text):
        """Whether it has written these octets, and writes none for a while."""
        until(lambda: self.octets != text, QUIET)
        return self.octets == text

    def eof(self):
        """Ends its input; gives its status and what it told."""
        self.process.stdin.close()
        return self.end()

    def end(self):
        try:
            status = self.process.wait(20)
        except subprocess.TimeoutExpired:
            self.process.kill()
            status = "not ended"
        self.reader.join(5)
        with self.process.stdout, self.process.stderr:
            return status, self.process.stderr.read()

    def kill(self):
        self.process.kill()
        return self.end()


def some(seed, count):
    random = Random(repr(seed))
    return [record(number, random) for number in range(count)]


def step_by_step(program, results, path):
    """What is committed is written once it is open, in its order, from journal to journal; and nothing else is."""
    store = Path(path) / "steps"
    store.mkdir(mode=0o700)
    sent, journal = [some(("steps", n), 5) for n in range(8)], Journal(store, 3)
    held = journal.commit(sent[0])
    now, start = Follow(program, store), Follow(program, store, "--from-start", "--until-eof")
    results.check("--from-start writes what the journal holds", start.writes(held), repr(start.octets)[:300])
    results.check("what it holds is not written without it", now.stays(b""), repr(now.octets)[:300])
    written = b""
    for n in (1, 2):
        at = journal.write(sent[n])
        results.check(f"batch {n} is not open yet", now.stays(written) and start.stays(held + written), repr(now.octets)[:300])
        journal.open(at)
        written += counted(sent[n])
        results.check(f"batch {n} is committed", now.writes(written) and start.writes(held + written), repr(now.octets)[:300])
    written += journal.commit(sent[3])
    following = Journal(store, 4)  # the last batch of the one before, and the first of this one
    written += following.commit(sent[4])
    journal.path.unlink()
    results.check("it goes on with the next journal", now.writes(written) and start.writes(held + written), repr(now.octets)[:300])
    following.write(sent[5])
    before, after = store.stat().st_mtime_ns, sorted(os.listdir(store))
    written_at_end = held + written
    results.check("at the end of input: status 0", start.eof() == (0, b""))
    results.check("the last batch, which is not open, is not written", start.octets == written_at_end, repr(start.octets)[-300:])
    results.check("nothing of the folder is changed", (store.stat().st_mtime_ns, sorted(os.listdir(store))) == (before, after))
    now.kill()
    gone = subprocess.Popen([program.path, "follow", str(store)], stdout=subprocess.PIPE, stderr=subprocess.PIPE)
    gone.stdout.close()
    try:
        status = gone.wait(20)
    except subprocess.TimeoutExpired:
        gone.kill()
        status = "not ended"
    with gone.stderr:
        notes = gone.stderr.read()
    results.check("its reader has gone: status 2", (status, notes) == (2, b"write fault\n"), f"{status} {notes}")


def under_conditions(program, results, path):
    """Of what is committed, those records are written that meet the conditions of `select`."""
    store = Path(path) / "conditions"
    store.mkdir(mode=0o700)
    sent = [b"<%d>1 2026-11-25T10:00:0%d.000000Z h%d a - - - m%d" % (8 * (n % 5) + n % 8, n % 10, n % 3, n) for n in range(60)]
    journal = Journal(store, 0)
    journal.commit([])
    for words, holds in [(["--host", "h1"], lambda one: b" h1 " in one), (["--severity", "err"], lambda one: int(one[1:one.index(b">")]) % 8 <= 3),
                         (["--not-host", "h1", "--host-like", "h*"], lambda one: b" h1 " not in one),
                         (["--from", "-3650d"], lambda one: True), (["--from=-1h"], lambda one: False),
                         (["--from", "2026-11-25T10:00:05Z"], lambda one: one.split(b" ", 2)[1] >= b"2026-11-25T10:00:05")]:
        seen = Follow(program, store, "--until-eof", *words)
        results.check(f"{words}: nothing yet", seen.stays(b""))
        for first in range(0, 60, 20):
            journal.commit(sent[first:first + 20])
        wanted = counted([one for one in sent if holds(one)])
        results.check(f"{words}: status 0", seen.eof() == (0, b""))
        results.check(f"{words}: written", seen.octets == wanted, f"{len(seen.octets)} octets, and not {len(wanted)}")


def damaged(program, results, path):
    """A damaged batch is told with its journal; what stands before it is written. A journal that was missed is told."""
    store = Path(path) / "damaged"
    store.mkdir(mode=0o700)
    first, second = some("damaged", 4), some("behind", 4)
    journal = Journal(store, 7)
    seen = Follow(program, store, "--from-start")
    text = journal.commit(first)
    results.check("before the damage", seen.writes(text))
    journal.open(journal.write(second, lambda text: seal_of(text + b"x")))
    status, notes = seen.end()
    results.check("another checksum: status 1", status == 1, f"{status} {notes}")
    results.check("the journal is named", notes.startswith(b"journal.7 ") and seen.octets == text, repr(notes))
    store = Path(path) / "missed"
    store.mkdir(mode=0o700)
    journal = Journal(store, 7)
    seen = Follow(program, store, "--from-start")
    results.check("before the next journals", seen.writes(journal.commit(first)))
    seen.process.send_signal(signal.SIGSTOP)
    Journal(store, 9).commit(second)  # `journal.8` came and went meanwhile
    journal.path.unlink()
    seen.process.send_signal(signal.SIGCONT)
    status, notes = seen.end()
    results.check("a journal that was missed: status 2", status == 2, f"{status} {notes}")
    results.check("it is named", b"journal.8 was removed before it was read" in notes, repr(notes))


def replaced(program, results, path):
    """Where a journal is set aside or another one comes in its place, that is told, and all that is there then is written."""
    first, second, third = some("first", 4), some("second", 3), some("third", 6)

    def trial(name, replace):
        store = Path(path) / name.replace(" ", "-")
        store.mkdir(mode=0o700)
        journal = Journal(store, 7)
        seen = Follow(program, store, "--from-start", "--until-eof")
        text = journal.commit(first)
        results.check(f"{name}: before it", seen.writes(text))
        text += replace(store, journal)
        results.check(f"{name}: what is there then", seen.writes(text), repr(seen.octets)[:300])
        status, notes = seen.eof()
        results.check(f"{name}: nothing else", seen.octets == text, repr(seen.octets)[:300])
        results.check(f"{name}: status 0", status == 0, f"{status} {notes}")
        told = b"journal.7 was replaced: all journals are read from their start\n"
        results.check(f"{name}: told once", notes == told, repr(notes))

    def aside(store, journal):
        journal.path.rename(store / "damaged.whole.journal.7")
        return Journal(store, 1).commit(second) + Journal(store, 2).commit(third)

    def aside_with_a_batch(store, journal):
        text = journal.commit(third)
        journal.path.rename(store / "damaged.whole.journal.7")
        return text + Journal(store, 1).commit(second)

    def another(records):
        def replace(store, journal):
            os.rename(store, f"{store}.old")
            store.mkdir(mode=0o700)
            return Journal(store, 7).commit(records)
        return replace

    def cut(store, journal):
        os.truncate(journal.path, 1)
        until(lambda: False, QUIET)  # it is seen before it grows again
        return journal.commit(second)

    trial("set aside", aside)
    trial("set aside behind a batch", aside_with_a_batch)
    trial("another that is shorter", another(second))
    trial("another that is as long", another(first))
    trial("another that is longer", another(third))
    trial("cut", cut)


def restored(program, results, path):
    """Beside a server: a journal is set aside, and a copy of the store is put in its place, as `docs/OPERATING.md` says."""
    words = ["--lf", "127.0.0.1:0", "--commit", "20"]

    def serve(store, name, count):
        with Server(program, store, *words) as server:
            before = len(server.held())
            server.send("lf", b"".join(b"<14>1 2026-11-25T10:00:00Z %b a - - - %d\n" % (name, n) for n in range(count)))
            until(lambda: len(server.held()) >= before + count, 20)
            return server.held()

    def trial(name, repair):
        store = Path(path) / name
        held = serve(store, b"before", 20)
        copy = Path(path) / f"copy-of-{name}"
        status = subprocess.run([program.path, "backup", str(store), str(copy)], capture_output=True).returncode
        results.check(f"{name}: a copy", status == 0, str(status))
        seen = Follow(program, store, "--until-eof")
        results.check(f"{name}: what it holds is not written", seen.stays(b""))
        serve(store, b"between", 40)
        until(lambda: len(counted_frames(seen.octets)[0]) >= 40, 20)
        repair(store, copy)
        held = {one for one in serve(store, b"after", 30) if b" after " in one}
        until(lambda: held <= set(counted_frames(seen.octets)[0]), 20)
        status, notes = seen.eof()
        results.check(f"{name}: status 0", status == 0, f"{status} {notes}")
        results.check(f"{name}: told", b" was replaced: " in notes, repr(notes))
        frames = set(counted_frames(seen.octets)[0])
        results.check(f"{name}: all that is committed behind it is written", len(held) == 30 and held <= frames,
                      f"{len(held - frames)} of {len(held)} lack")

    def aside(store, copy):
        for journal in list(store.glob("journal.*")):
            journal.rename(store / f"damaged.whole.{journal.name}")

    def restore(store, copy):
        store.rename(f"{store}.old")
        copy.rename(store)

    trial("aside", aside)
    trial("restored", restore)


def without_store(program, results, path):
    """It waits for a folder and for a journal; of a folder that cannot be read it tells why."""
    store = Path(path) / "later"
    seen = Follow(program, store, "--until-eof")
    results.check("a folder that is not there is waited for", seen.stays(b"") and seen.process.poll() is None)
    store.mkdir(mode=0o700)
    results.check("so is a journal", seen.stays(b"") and seen.process.poll() is None)
    sent = some("later", 3)
    text = Journal(store, 0).commit(sent)
    results.check("a journal that comes later is written from its start", seen.writes(text), repr(seen.octets)[:300])
    results.check("and it ends well", seen.eof() == (0, b""))
    (Path(path) / "file").write_bytes(b"")
    status, notes = Follow(program, Path(path) / "file").end()
    results.check("a file in the place of a folder", status == 2 and notes, f"{status} {notes}")


def beside_a_server(program, results, path):
    """Beside a server that is killed and makes checkpoints: all that it commits is written, and nothing else."""
    store = Path(path) / "served"
    words = ["--lf", "127.0.0.1:0", "--commit", "20", "--checkpoint", "1"]
    seen = Follow(program, store, "--until-eof")
    held = set()
    for turn in range(4):
        with Server(program, store, *words) as server:
            for part in range(3):
                sent = [b"<14>1 2026-11-25T10:00:00Z h a - - - %d %d %d %b" % (turn, part, n, b"x" * 150) for n in range(4_000)]
                server.send("lf", b"".join(one + b"\n" for one in sent))
                until(lambda: len(server.held()) >= 4_000 * (3 * turn + part + 1), 20)
                # the first journal is seen before the first checkpoint removes it; of later ones it is told
                until(lambda: seen.octets, 20)
            held = server.held()
        results.check(f"turn {turn}: all is held", len(held) == 12_000 * (turn + 1), str(len(held)))
    until(lambda: len(set(counted_frames(seen.octets)[0])) >= len(held), 20)
    status, notes = seen.eof()
    frames, fault = counted_frames(seen.octets)
    results.check("it ends well", (status, notes, fault) == (0, b"", None), f"{status} {notes} {fault}")
    results.check("all that was committed is written", held <= set(frames), f"{len(held - set(frames))} of {len(held)} lack")
    results.check("nothing else is", set(frames) <= held, f"{len(set(frames) - held)} more")
    results.check("each once, but for what a start writes anew", len(frames) <= 2 * len(held), f"{len(frames)} of {len(held)}")


def following(program, results):
    for part in (step_by_step, under_conditions, damaged, replaced, restored, without_store, beside_a_server):
        with tempfile.TemporaryDirectory() as path:
            part(program, results, path)

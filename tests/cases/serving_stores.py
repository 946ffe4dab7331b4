"""The stores of `serve`: kills, checkpoints, disks that are full or fail; and servers that do not begin."""
import errno
import os
import re
import shutil
import socket
import subprocess
import threading

from cases.rows import A, REFUSED_OF_SERVE, Y, entries, invalid
from lib.loopback import HERE, kind_of
from lib.reference import counted, framed
from lib.server import SOON, any_port, numbered, spelled, until
from lib.store_format import CLOSED, HEAD, JOURNAL, OLDER_CLOSED, SEAL, SEGMENT, files_of, held, is_named_right
from lib.store_format import open_batch, seal_of
from lib.stores import Keeper, records

ALL = [*any_port("udp"), *any_port("counted"), *any_port("lf")]


# what a start may tell after a kill
SET_ASIDE = re.compile(rb"(journal\.\d+): \d+ octets behind the last batch set aside in damaged\.\1")

# ---------------------------------------------------------------- kills

class Sender(threading.Thread):
    """Sends the same frames again and again, until its connection breaks."""

    def __init__(self, server, kind, frames):
        super().__init__()
        self.connection, self.octets = server.open(kind), b"".join(framed(kind, one) for one in frames)
        self.start()

    def run(self):
        try:
            with self.connection as one:
                while True:
                    one.sendall(self.octets)
        except OSError:
            pass


def segments_of(store):
    return {name for name in os.listdir(os.fsencode(store)) if SEGMENT.fullmatch(name)}


def journal_names(store):
    return {name for name in os.listdir(os.fsencode(store)) if JOURNAL.fullmatch(name)}


def killed(runs, store, words, shares, before, sent):
    """A server that is killed while all send; what was read before has to be there, and what is read before the kill is
    given. The shares have more than the octets of a checkpoint that no server was sent before."""
    with runs.server(*words, store=store) as server:
        found = server.held()
        runs.results.check("what was read before a kill is there", before <= found <= set(sent), str(server.told()))
        begun = journal_names(store)
        senders = [Sender(server, *share) for share in shares]
        # segments of the same records have the names that are there, but each checkpoint begins another journal
        seen = until(lambda: journal_names(store) - begun)
        before = server.held()
        runs.results.check("a kill comes after a checkpoint", seen and before, str(server.told()))
        server.kill()
        for one in senders:
            one.join()
    return before


def shares_of(sent):
    """What four senders send of these records; some of them come from two or three."""
    count = len(sent)
    return [("counted", sent[:count * 2 // 5]), ("counted", sent[count * 3 // 10:count * 7 // 10]), ("counted", sent[count * 3 // 5:]),
            ("lf", [one for one in sent if b"\n" not in one])]


def kills(runs):
    """A server is killed three times while four send; started again and sent everything, its store is the same as that
    of a server that was not."""
    rounds = [records("serving", first, 3_000, 2_200) for first in range(0, 9_000, 3_000)]
    sent = sum(rounds, [])
    words = [*any_port("counted"), *any_port("lf"), *SOON, "--checkpoint", 1]
    store, other, before = runs.store(), runs.store(), set()
    for fresh in rounds:
        before = killed(runs, store, words, shares_of(fresh), before, sent)
    shares = shares_of(sent)
    answers = []
    for one in store, other:
        with runs.until_eof(*words, store=one) as server:
            for kind, frames in shares:
                server.send(kind, *(framed(kind, frame) for frame in frames))
            status, lines = server.end()
            is_right = status == 0 and all(SET_ASIDE.fullmatch(line) for line in lines) and len(lines) < 2
            runs.results.check("a server that was sent everything: its end", is_right, f"{status} {lines}")
            answers.append(server.read())
            runs.results.same("its store is whole", runs.verify(one), (0, b"", b""))
    right = runs.archive(counted(sent), "--framing", "counted")
    runs.results.same("killed and sent again: what is read", answers[0], right)
    runs.results.same("never killed: what is read", answers[1], right)


# ---------------------------------------------------------------- checkpoints

def checkpoints(runs):
    """A journal of a MiB goes into segments, a file for each day, and a new one begins."""
    sent = records("checkpoints", 0, 4_000, 2_200)
    octets = counted(sent)
    right = runs.archive(octets, "--framing", "counted")
    with runs.until_eof(*any_port("counted"), *SOON, "--checkpoint", 1) as server:
        server.send("counted", octets[:900_000], octets[900_000:])
        runs.results.same("beside checkpoints: what is read", server.until_held(right[1]), right)
        runs.ends("checkpoints", server, 0)
        files = files_of(server.store)
    segments, journals = ([name for name in files if kind.fullmatch(name)] for kind in (SEGMENT, JOURNAL))
    runs.results.check("segments of some days", len({name[:10] for name in segments}) > 3, str(segments))
    right_names = all(is_named_right(name, files[name]) for name in segments)
    runs.results.check("their names are right", right_names, str(segments))
    right_one = len(journals) == 1 and int(journals[0][8:]) > 1 and len(files[journals[0]]) < 2 << 20
    runs.results.check("one journal, and not the first", right_one, str(journals))
    runs.results.check("what the files hold", held(files) == set(sent))
    modes = {os.stat(server.store / name.decode()).st_mode & 0o777 for name in files}
    runs.results.check("files are for their owner alone", modes == {0o600}, str(modes))
    ranges(runs, server.store, right[1])
    damage(runs, server.store, right[1], segments)


def ranges(runs, store, text):
    """`read` has of a range what `select` has."""
    for words in [["--from", "2026-11-25T00:00:00Z"], ["--to", "2026-11-25T00:00:00Z"],
                  ["--from", "2030-01-01T00:00:00Z"], ["--from", "2026-11-25T10:00:00Z", "--undated"],
                  ["--from", "2026-11-24T00:00:00+01:00", "--to", "2026-11-26T08:30:00.25Z"]]:
        right = runs.program.run(["select", *words], text)
        runs.results.same(f"read {words}", runs.program.run(["read", str(store), *words]), right)


def damage(runs, store, text, segments):
    """A file that is damaged is told by `verify` and by `read`; once it is as it was, nothing is."""
    name = max(name for name in segments if not name.startswith(b"u")).decode()
    whole = (store / name).read_bytes()
    end = len(whole)
    for what, octets, at in [("an octet more", whole + b"x", end), ("an octet less", whole[:-1], end - 1)]:
        line = f"{name} bad-frame {at}\n".encode()
        (store / name).write_bytes(octets)
        runs.results.same(f"{what}: verify", runs.verify(store), (1, line, b""))
        status, output, notes = runs.program.run(["read", str(store)])
        right = (status, notes) == (1, line) and text.startswith(output) and output != text
        runs.results.check(f"{what}: read", right, f"{status} {notes}")
    (store / name).write_bytes(whole)
    other = re.sub(r"[0-9a-f]{64}", "0" * 64, name)
    os.rename(store / name, store / other)
    runs.results.same("another name: verify", runs.verify(store), (1, f"{other} digest\n{name} missing\n".encode(), b""))
    os.rename(store / other, store / name)
    runs.results.same("as it was: verify", runs.verify(store), (0, b"", b""))
    runs.results.same("as it was: read", runs.program.run(["read", str(store)]), (0, text, b""))


def begins_on_none(runs, store, journal, whole):
    """No server begins on a journal of which one bit has changed, and it changes nothing: it tells the file and the octet."""
    text = len(whole) - 1 - SEAL
    for at, bit, words in [(0, 1, "a batch that is not open at 0"), (0, 7, "a batch that is not open at 0"),
                           (text - 1, 0, f"another checksum at {text}"), (text + 1, 3, f"another checksum at {text}"),
                           (text + SEAL - 1, 7, f"another checksum at {text}")]:
        octets = bytearray(whole)
        octets[at] ^= 1 << bit
        (store / journal.decode()).write_bytes(octets)
        before = files_of(store)
        name = f"bit {bit} of octet {at} of a journal"
        runs.refused(name, any_port("lf"), store, f"{journal.decode()}: {words}", store=store)
        runs.results.check(f"{name}: nothing is changed", files_of(store) == before)


def older_journal(runs):
    """A journal of an older program, which has no checksums, is read, and goes on with batches that have them."""
    older = open_batch(entries(A)) + bytes([OLDER_CLOSED])
    store = runs.store()
    store.mkdir(mode=0o700)
    (store / "journal.1").write_bytes(older)
    runs.results.same("an older journal: read", runs.program.run(["read", str(store)]), (0, entries(A), b""))
    with runs.until_eof(*any_port("lf"), *SOON, store=store) as server:
        server.send("lf", Y + b"\n")
        runs.holds("an older journal goes on", server, A, Y)
        runs.ends("an older journal", server, 0)
    text = framed("counted", Y)
    right = open_batch(entries(A)) + open_batch(text + seal_of(text)) + bytes([CLOSED])
    runs.results.same("an older journal, and a batch with its checksum", (store / "journal.1").read_bytes(), right)


def damaged_journal(runs):
    """A journal that is damaged is told by `verify` and by `read`, and no server begins on it."""
    with runs.until_eof(*any_port("lf"), *SOON) as server:
        server.send("lf", A + b"\n")
        runs.holds("a journal", server, A)
        runs.ends("a journal", server, 0)
    journal = next(name for name in files_of(server.store) if JOURNAL.fullmatch(name))
    path = server.store / journal.decode()
    whole = path.read_bytes()
    for octet, at in (b"x", HEAD), (b"2", len(whole) - 1):  # no count, and one that is too great
        line = b"%b bad-frame %d\n" % (journal, at)
        path.write_bytes(whole[:HEAD] + octet + whole[HEAD + 1:])
        runs.results.same(f"a damaged journal, {octet}: verify", runs.verify(server.store), (1, line, b""))
        answer = runs.program.run(["read", str(server.store)])
        runs.results.same(f"a damaged journal, {octet}: read", answer, (1, b"", line))
        runs.refused(f"a damaged journal, {octet}", any_port("lf"), server.store, journal.decode(), store=server.store)
    begins_on_none(runs, server.store, journal, whole)
    path.write_bytes(whole)
    runs.results.same("a journal as it was", runs.verify(server.store), (0, b"", b""))


def sealed_journal(record, behind=b""):
    """A journal of one record, and octets behind the one that the next batch is opened by."""
    text = framed("counted", record)
    return open_batch(text + seal_of(text)) + bytes([CLOSED]) + behind


def with_journals(runs, files):
    """A store's folder that has these files."""
    store = runs.store()
    store.mkdir(mode=0o700)
    for name, octets in files.items():
        (store / name).write_bytes(octets)
    return store


def left_journals(runs):
    """Journals that a stopped checkpoint left are read at a start, and the next checkpoint removes them."""
    left = [numbered(n) for n in range(3)]
    store = with_journals(runs, {"journal.3": sealed_journal(left[0]), "journal.4": sealed_journal(left[1], b"torn"),
                                 "journal.9": sealed_journal(left[2])})
    sent = records("left", 0, 3_000, 2_200)
    right = runs.archive(counted([*left, *sent]), "--framing", "counted")
    with runs.until_eof(*any_port("counted"), *SOON, "--checkpoint", 1, store=store) as server:
        runs.holds("journals that were left", server, *left)
        server.send("counted", counted(sent))
        runs.results.same("beside journals that were left: what is read", server.until_held(right[1]), right)
        status, lines = server.end()
        line = b"journal.4: 5 octets behind the last batch set aside in damaged.journal.4"
        runs.results.check("journals that were left: its end", status == 0 and lines == [line], f"{status} {lines}")
    files = files_of(store)
    journals = [name for name in files if JOURNAL.fullmatch(name)]
    is_one = len(journals) == 1 and int(journals[0][8:]) > 9
    runs.results.check("journals that were left: one is there", is_one, str(journals))
    runs.results.check("journals that were left: what the files hold", held(files) == {*left, *sent})
    aside = (store / "damaged.journal.4").read_bytes()
    runs.results.same("journals that were left: what is set aside", aside, bytes([CLOSED]) + b"torn")


def damaged_left_journal(runs):
    """A damaged journal is told whichever it is, and nothing is changed."""
    whole = {f"journal.{n}": sealed_journal(numbered(n), b"torn") for n in range(1, 4)}
    for name in whole:
        octets = bytearray(whole[name])
        octets[HEAD + 20] ^= 1
        store = with_journals(runs, {**whole, name: bytes(octets)})
        before = files_of(store)
        runs.refused(f"{name} is damaged", any_port("lf"), store, f"{name}: ", store=store)
        after = {of: held for of, held in files_of(store).items() if JOURNAL.fullmatch(of) or of.startswith(b"damaged")}
        runs.results.check(f"{name} is damaged: nothing is changed", after == before, str(sorted(after)))


# ---------------------------------------------------------------- disks

def full(runs):
    """A disk that is full is told once and tried again; what was read meanwhile, and what is sent, is held once it has
    room."""
    sent = [b"%b %b" % (numbered(n), b"x" * 2_000) for n in range(200)]
    store = runs.store()
    environment = Keeper(runs.program).tracing(store, runs.path / "log", full="100000 3")
    with runs.until_eof(*any_port("counted"), *SOON, store=store, environment=environment) as server:
        server.send("counted", counted(sent[:100]))
        runs.results.check("a full disk is told", server.until_told(b"store full"), str(server.lines()))
        server.send("counted", counted(sent[100:]))
        runs.holds("a disk with room again", server, *sent)
        runs.ends("a full disk", server, 0, b"store full", b"store has room")


def full_mount(runs):
    """The same of a real disk, where one may be mounted, over checkpoints."""
    disk = runs.path / "disk"
    disk.mkdir()
    words = ["mount", "-t", "tmpfs", "-o", "size=256k", "none", str(disk)]
    if subprocess.run(words, capture_output=True).returncode != 0:
        return
    try:
        sent = [b"%b %b" % (numbered(n), b"x" * 2_000) for n in range(800)]
        with runs.until_eof(*any_port("counted"), *SOON, "--checkpoint", 1, store=disk / "store") as server:
            sender = threading.Thread(target=server.send, args=("counted", counted(sent)))
            sender.start()
            runs.results.check("a disk without room is told", server.until_told(b"store full"), str(server.lines()))
            runs.results.check("what is held then", server.held() < set(sent))
            subprocess.run(["mount", "-o", "remount,size=16m", str(disk)], check=True)
            runs.holds("a disk that was given room", server, *sent)
            sender.join()
            runs.ends("a disk without room", server, 0, b"store full", b"store has room")
    finally:
        subprocess.run(["umount", str(disk)], check=True)


def failing(runs):
    """Any other failure of the disk ends it, with a line that names the file and the cause; what was committed is there."""
    for kind, count in [("create", 1), ("write", 2), ("write", 3), ("write", 4), ("sync", 1), ("sync", 3), ("names", 1)]:
        store = runs.store()
        chosen = {"fail": f"{kind} {count} {errno.EIO}"}
        environment = Keeper(runs.program).tracing(store, runs.path / "log", **chosen)
        sent = [numbered(n) for n in range(40)]
        with runs.until_eof(*any_port("udp"), *SOON, store=store, environment=environment) as server:
            committed = set()
            for one in sent:
                if server.process.poll() is None and server.places():
                    committed = server.held()
                    fling(server, one)
            status, lines = server.status(), server.lines()
            said = lines and lines[-1].startswith(bytes(store)) and os.strerror(errno.EIO).encode() in lines[-1]
            runs.results.check(f"{kind} {count} fails: its end", status == 2 and said, f"{status} {lines}")
            runs.results.check(f"{kind} {count} fails: what is told", b"store full" not in lines, str(lines))
        with runs.until_eof(*any_port("lf"), *SOON, store=store) as server:
            found = server.held()
            runs.results.check(f"{kind} {count} fails: what is held", committed <= found <= set(sent))
            server.send("lf", A + b"\n")
            runs.holds(f"{kind} {count} fails: the next run", server, A, *found)


# ---------------------------------------------------------------- after a sync that failed

ANEW = b"a sync had failed: the newest journal is written anew"


def boot_id():
    """What Linux calls its run since the machine was started; none where it does not tell."""
    try:
        with open("/proc/sys/kernel/random/boot_id", "rb") as file:
            return file.read().strip()
    except OSError:
        return b""


def equal(runs, name, seen, right):
    runs.results.check(name, seen == right, f"{seen} for {right}")


def journals_of(store):
    return {name: octets for name, octets in files_of(store).items() if JOURNAL.fullmatch(name)}


def next_name(journal):
    return b"journal.%d" % (int(journal[8:]) + 1)


def started(runs, what, store, is_anew, right, environment=None):
    """A server starts on a store with one journal: that is written anew, or stays; what is held is as it was."""
    (name, octets), *others = journals_of(store).items()
    with runs.until_eof(*any_port("lf"), *SOON, store=store, environment=environment) as server:
        runs.holds(what, server, *right)
        runs.ends(what, server, 0, *([ANEW] if is_anew else []))
    (now, found), *more = journals_of(store).items()
    equal(runs, f"{what}: one journal", (others, more), ([], []))
    equal(runs, f"{what}: its name", now, next_name(name) if is_anew else name)
    runs.results.check(f"{what}: its batches", octets.startswith(found[:-1]), str((octets, found)))
    equal(runs, f"{what}: its note", (store / "lock").read_bytes(), b"synced %b\n" % boot_id())


def fails_at_sync(runs, store):
    """A server whose second sync of a batch fails; what was committed."""
    environment = Keeper(runs.program).tracing(store, runs.path / "log", fail=f"sync 5 {errno.EIO}")
    with runs.until_eof(*any_port("udp"), *SOON, store=store, environment=environment) as server:
        committed = set()
        for one in map(numbered, range(100)):
            if server.process.poll() is None and server.places():
                committed = server.held()
                fling(server, one)
                until(lambda: server.process.poll() is not None or server.held())
        equal(runs, "a sync fails: status", server.status(), 2)
    return committed


def written_anew(runs):
    """After a sync that failed, the next start writes the newest journal anew, unless the machine was started since."""
    store = runs.store()
    committed = fails_at_sync(runs, store)
    note = b"failed %b\n" % boot_id()
    equal(runs, "a sync fails: its note", (store / "lock").read_bytes(), note)
    right = held(files_of(store))
    runs.results.check("a sync fails: what is held", committed and committed <= right, str((committed, right)))
    started(runs, "after a sync that failed", store, True, right)
    started(runs, "and once more", store, False, right)
    other = b"failed 00000000-0000-0000-0000-000000000000\n"
    for what, octets, is_anew in [("another run of the system", other, not boot_id()), ("no note", b"", False),
                                  ("this run of the system", note, True), ("a torn note", b"fail", True),
                                  ("an unknown run", b"failed \n", True), ("a space behind", note[:-1] + b" \n", True),
                                  ("upper case", note.upper(), True), ("no line feed", note[:-1], True),
                                  ("a word behind", b"synced %b so\n" % boot_id(), True),
                                  ("no run", b"synced today\n", True)]:
        (store / "lock").write_bytes(octets)
        started(runs, what, store, is_anew, right)
    for kind in "create", "write", "sync", "rename", "names", "remove":
        (store / "lock").write_bytes(note)
        not_written_anew(runs, store, kind, note, right)


def damaged_and_noted(runs):
    """With the note of a sync that failed a damaged journal is told first, and stays; that of the greatest number is not
    told as a full disk."""
    with runs.until_eof(*any_port("lf"), *SOON) as server:
        server.send("lf", A + b"\n")
        runs.holds("a journal", server, A)
        runs.ends("a journal", server, 0)
    store, note = server.store, b"failed %b\n" % boot_id()
    (name, whole), *_ = journals_of(store).items()
    path = store / name.decode()
    (store / "lock").write_bytes(note)
    path.write_bytes(whole[:HEAD] + b"x" + whole[HEAD + 1:])
    before = files_of(store)
    runs.refused("a damaged journal, and a note", any_port("lf"), store, f"{path.name}: ", store=store)
    equal(runs, "a damaged journal, and a note: what is there", files_of(store), before)
    last = store / f"journal.{2 ** 64 - 1}"
    os.rename(path, last)
    last.write_bytes(whole)
    with runs.server(*any_port("lf"), store=store) as server:
        status, told = server.status(), server.told()
    right = [ANEW, b"%b: %b: no journal has a greater number" % (bytes(store), last.name.encode())]
    equal(runs, "the last journal, and a note", (status, told), (2, right))


def full_anew(runs):
    """On a disk without room for a copy of the journal no draft of it is left."""
    disk = runs.path / "small"
    disk.mkdir()
    if subprocess.run(["mount", "-t", "tmpfs", "-o", "size=256k", "none", str(disk)], capture_output=True).returncode != 0:
        return
    try:
        store = disk / "store"
        with runs.until_eof(*any_port("counted"), *SOON, store=store) as server:
            server.send("counted", counted([b"%b %b" % (numbered(n), b"x" * 2_000) for n in range(70)]))
            until(lambda: len(server.held()) == 70)
            runs.ends("most of a disk", server, 0)
        (store / "lock").write_bytes(b"failed %b\n" % boot_id())
        names = set(files_of(store))
        with runs.server(*any_port("lf"), store=store) as server:
            status, told = server.status(), server.told()
        right = status == 2 and told[0] == ANEW and told[1:] and told[1].endswith(b"No space left on device (os error 28)")
        runs.results.check("no room for a copy: its end", right, f"{status} {told}")
        equal(runs, "no room for a copy: what is there", set(files_of(store)), names)
        (store / "lock").write_bytes(b"")
        (disk / "rest").write_bytes(b"")
        try:
            with open(disk / "rest", "ab", buffering=0) as rest:
                while True:
                    rest.write(bytes(512))
        except OSError:
            pass  # no room is left
        runs.refused("no room for a note", any_port("lf"), f"{store}/lock: ", "No space left on device", store=store)
    finally:
        subprocess.run(["umount", str(disk)], check=True)


def not_written_anew(runs, store, kind, note, right):
    """A call fails while a journal is written anew: nothing is lost, and the next start does it again."""
    environment = Keeper(runs.program).tracing(store, runs.path / "log", fail=f"{kind} 1 {errno.EIO}")
    with runs.server(*any_port("lf"), store=store, environment=environment) as server:
        status, told = server.status(), server.told()
    is_told = len(told) == 2 and told[0] == ANEW and told[1].endswith(b"Input/output error (os error 5)")
    runs.results.check(f"{kind} fails: its end", status == 2 and is_told, f"{status} {told}")
    equal(runs, f"{kind} fails: what is held", held(files_of(store)), right)
    equal(runs, f"{kind} fails: its note", (store / "lock").read_bytes(), note)
    with runs.until_eof(*any_port("lf"), *SOON, store=store) as server:
        runs.holds(f"{kind} has failed", server, *right)
        runs.ends(f"{kind} has failed", server, 0, ANEW)
    for name in sorted(journals_of(store), key=lambda name: int(name[8:]))[:-1]:
        os.remove(store / name.decode())


def gone_reader(runs):
    """`read` says nothing if its reader has gone, and else that its output cannot be written."""
    store = runs.store()
    with runs.until_eof(*any_port("lf"), store=store) as server:
        server.send("lf", A + b"\n")
        runs.ends("a store to be read", server, 0)
    read_end, write_end = os.pipe()
    os.close(read_end)
    seen = runs.program.run(["read", str(store)], stdout=write_end)
    equal(runs, "read, a pipe without a reader", (seen[0], seen[2]), (2, b""))
    seen = runs.program.run(["read", str(store / "none")], stdout=write_end)
    said = seen[0] == 2 and seen[2].startswith(f"{store}/none: No such file".encode())
    runs.results.check("read of no store, a pipe without a reader", said, str(seen))
    os.close(write_end)
    with open("/dev/full", "wb") as full:
        seen = runs.program.run(["read", str(store)], stdout=full)
        runs.results.same("read, a full device", (seen[0], seen[2]), (2, b"write fault\n"))


def fling(server, octets):
    """Sends a datagram to a server that may end."""
    try:
        with server.open("udp") as one:
            one.send(octets)
    except OSError:
        pass


# ---------------------------------------------------------------- servers that do not begin

MOVED = b"it was moved or removed"


LOOPED = b"Too many levels of symbolic links (os error 40)"


def ends_moved(runs, name, server, what, why=MOVED):
    """A server whose store was moved ends by itself at the next commit, and tells so, or why it cannot look."""
    try:
        server.send("lf", numbered(99) + b"\n")
    except OSError:
        pass  # it has ended already
    status, lines = server.status(), server.lines()
    right = status == 2 and lines[-2:] == [b"store fault", f"{what}: ".encode() + why]
    runs.results.check(f"{name}: the end", right, f"{status} {lines}")


def moved(runs):
    """Where another folder has the store's name, its server leaves that one alone."""
    store = runs.store()
    words = [*any_port("lf"), *SOON, "--checkpoint", 1]
    with runs.server(*words, store=store) as one:
        one.send("lf", A + b"\n")
        runs.holds("before a store is moved", one, A)
        moved = store.rename(store.with_name("moved"))
        with runs.server(*words, store=store) as other:
            sent = [numbered(n) for n in range(5)]
            other.send("lf", *(record + b"\n" for record in sent))
            runs.holds("in its place", other, *sent)
            before = files_of(store)
            ends_moved(runs, "a store that was moved", one, store)
            runs.results.check("the store in its place stays", files_of(store) == before)
            other.send("lf", Y + b"\n")
            runs.holds("in its place, afterwards", other, *sent, Y)
    runs.results.same("the store that was moved", runs.program.run(["read", str(moved)])[:2], (0, entries(A)))


def removed(runs):
    """A server whose store, lock or journal was removed, or has got another in its place, ends and tells it."""
    for name, what in ("the folder", ""), ("the lock", ""), ("the journal", "/journal.1"):
        with runs.server(*any_port("lf"), *SOON) as server:
            server.send("lf", A + b"\n")
            runs.holds(f"before {name} is removed", server, A)
            if what:
                (server.store / what[1:]).unlink()
            elif name == "the lock":
                (server.store / "lock").unlink()
            else:
                shutil.rmtree(server.store)
            ends_moved(runs, f"{name} is removed", server, f"{server.store}{what}")
    with runs.server(*any_port("lf"), *SOON) as server:
        server.send("lf", A + b"\n")
        runs.holds("before a link takes the name of the folder", server, A)
        server.store.rename(server.store.with_name("elsewhere"))
        server.store.symlink_to(server.store.name)
        ends_moved(runs, "a link that leads to itself", server, server.store, LOOPED)


def usurped(runs):
    """A server whose lock was removed writes nothing once another server has the folder, whose commits all stay."""
    for ending in b"", b" and more":
        store = runs.store()
        with runs.server(*any_port("lf"), *SOON, store=store) as one:
            one.send("lf", A + b"\n")
            runs.holds("before the lock is removed", one, A)
            (store / "lock").unlink()
            with runs.server(*any_port("lf"), *SOON, store=store) as other:
                ends_moved(runs, "another server has the folder", one, store)
                sent = [numbered(n) + ending for n in range(3)]
                for n, record in enumerate(sent):
                    other.send("lf", record + b"\n")
                    runs.holds(f"another server has the folder: commit {n}", other, A, *sent[:n + 1])
                other.kill()
            seen = runs.program.run(["read", str(store)])
            runs.results.same("what two servers left", seen[:2], (0, entries(A, *sent)))


def second(runs):
    """A second server on a store does not begin, and the first goes on."""
    with runs.until_eof(*any_port("lf"), *SOON) as server:
        for n in range(2):
            said = f"{server.store}: another server has the store"
            runs.refused("a second server", any_port("lf"), said, store=server.store)
            server.send("lf", framed("lf", numbered(n)))
            runs.holds("beside a second server", server, *map(numbered, range(n + 1)))
        runs.ends("beside a second server", server, 0)
        with runs.until_eof(*any_port("lf"), store=server.store) as other:
            runs.results.check("once it has ended, another begins", len(other.places()) == 1, str(other.told()))


def ports(runs):
    """Ports that cannot be had: the line names the one that it is."""
    for kind in "udp", "counted", "lf":
        with socket.socket(socket.AF_INET, kind_of(kind)) as other:
            other.bind((HERE, 0))
            if kind != "udp":
                other.listen()
            place = spelled(other.getsockname()).decode()
            runs.refused(f"{kind}: a port in use", [*any_port("lf"), f"--{kind}", place], f"{place}: ", "in use")
    runs.refused("an address that is not here", ["--udp", "192.0.2.1:5514"], "192.0.2.1:5514: ")
    if os.getuid() != 0:
        runs.refused("a port that needs a privilege", ["--udp", f"{HERE}:1"], f"{HERE}:1: ", "Permission denied")


def paths(runs):
    """Paths that cannot be had. A socket that nobody has open is removed, and nothing else."""
    place = str(runs.path / "taken")
    with socket.socket(socket.AF_UNIX, socket.SOCK_DGRAM) as other:
        other.bind(place)
        runs.refused("a path in use", ["--unix", place], f"{place}: ", "in use")
    with runs.until_eof("--unix", place, *SOON) as server:
        server.datagrams("unix", A)
        runs.holds("a path that nobody has open", server, A)
    for name, make in [("file", lambda one: one.write_bytes(b"octets")), ("folder", lambda one: one.mkdir()),
                       ("link", lambda one: one.symlink_to("nowhere"))]:
        make(runs.path / name)
        runs.refused(f"a {name} at the path", ["--unix", runs.path / name], f"{runs.path / name}: ")
        runs.results.check(f"the {name} stays", os.path.lexists(runs.path / name))
    for path in runs.path / "none" / "socket", "/" + "p" * 107, "":
        runs.refused(f"the path {path}", ["--unix", path], f"{path}: ")


def folders(runs):
    """Folders that are none, or no store."""
    file, without = runs.path / "file", runs.path / "none" / "store"
    file.write_bytes(b"octets")
    runs.refused("a folder without a parent", any_port("lf"), f"{without}: ", "No such file", store=without)
    runs.refused("a file in the place of the folder", any_port("lf"), f"{file}: ", store=file)
    for name in "lock", "refused", "journal.1":
        store = runs.store()
        (store / name).mkdir(parents=True)
        runs.refused(f"a folder that has the name of {name}", any_port("lf"), store, "Is a directory", store=store)
    for command in "read", "verify":
        for path in without, file:
            status, output, notes = runs.program.run([command, str(path)])
            right = (status, output) == (2, b"") and notes.startswith(f"{path}: ".encode()) and b"(os error" in notes
            runs.results.check(f"{command} of no store", right, str(notes))
        store = runs.store()
        store.mkdir()
        runs.results.same(f"{command} of an empty folder", runs.program.run([command, str(store)]),
                          (2, b"", f"{store}: not a store: it has neither a journal nor a segment\n".encode()))


# other words that are wrong
WORDS = [[], ["--lf"], [*ALL, "--until-eof=1"], [*ALL, "--idle", "1", "--idle", "2"], [*ALL, "other"],
         [*ALL, "--threads", "2"]]


def options(runs):
    """Words that are wrong are told, and nothing is begun."""
    values = [([*ALL, option, value], invalid(option, value)) for option, values in REFUSED_OF_SERVE.items() for value in values]
    for words, line in [*values, *((words, b"error: ") for words in WORDS)]:
        store = runs.store()
        status, output, notes = runs.program.run(["serve", str(store), *words])
        right = (status, output) == (2, b"") and notes.startswith(line) and not store.exists()
        runs.results.check(f"serve {words}", right, f"{status} {output} {notes}")


KEPT = [moved, removed, usurped, kills, checkpoints, damaged_journal, older_journal, left_journals, damaged_left_journal, full,
        full_mount, failing, written_anew, damaged_and_noted, full_anew, gone_reader, second, ports, paths, folders, options]

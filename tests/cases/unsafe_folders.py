"""Stores in whose folder something else has the name of a file, or that are another user's; and want of memory.

No clause says what is under a name of the system. A link, a FIFO, a socket, a device or a folder in place of a file
must neither be followed nor waited for, and is told by its name.
"""
import os
import resource
import shutil
import socket
import subprocess
import tempfile
from pathlib import Path

from lib.faults import each_allocation, wants_memory
from lib.program import Program
from lib.reference import archive_text
from lib.server import any_port, numbered, until
from lib.store_format import files_of, segment_name

SECONDS = 5  # within which each run ends
SENT = [numbered(n) for n in range(12)]
BATCH, SEGMENTS = SENT[:2], [[one] for one in SENT[2:]]
TARGET = b"\x01what nobody may change\n"
OTHER, THIRD = 1_234, 1_235  # users
REFUSED_MAX = 64 << 20  # octets of the file of refused frames, before it is turned
SEGMENT, OLD, JOURNAL = f"undated.{'0' * 64}.archive", f"2020-01-01.{'0' * 64}.archive", "journal.2"
ADDED = numbered(99)
NO_FILE, FOLDER = b"not a regular file", b"Is a directory"
# what the commands are given behind the store's name, and on standard input
WORDS = {"serve": [*any_port("udp"), "--until-eof"], "expire": ["--before", "2025-01-01T00:00:00Z"]}
INPUT = {"add": archive_text([ADDED])}


def limited():
    """In the new process: what reads a device to its end is out of memory soon."""
    resource.setrlimit(resource.RLIMIT_AS, (1 << 30, 1 << 30))


def put_segment(store, period, records):
    """A segment of these records."""
    text = archive_text(records)
    (store / segment_name(period.encode(), text).decode()).write_bytes(text)


class Folders:
    """Stores below a folder, and runs on them."""

    def __init__(self, program, results, path):
        self.program, self.results, self.path, self.count = program, results, Path(path), 0
        self.whole = self.new()
        self.whole.mkdir()
        for records in SEGMENTS:
            put_segment(self.whole, "undated", records)
        self.served(self.whole, BATCH)

    def new(self):
        self.count += 1
        return self.path / f"store{self.count}"

    def copy(self):
        """A store that is whole, of ten segments of a day and a journal."""
        return Path(shutil.copytree(self.whole, self.new()))

    def run(self, command, store, program=None, **streams):
        """The answer of a command on a store; `serve` listens at a socket, and ends at once."""
        streams = {"timeout": SECONDS, "preexec_fn": limited, **streams}
        return (program or self.program).run([command, str(store), *WORDS.get(command, [])], INPUT.get(command, b""), **streams)

    def served(self, store, records, *words, goes_on=lambda server: False, **streams):
        """The answer of a server that was sent these records; its input ends once it need not go on."""
        place = self.path / f"in{self.count}"
        words = ["serve", str(store), "--unix", str(place), "--until-eof", *words]
        streams = {"stdin": subprocess.PIPE, "stderr": subprocess.PIPE, **streams}
        with subprocess.Popen([self.program.path, *words], **streams) as server:
            told = server.stderr.readline()
            with socket.socket(socket.AF_UNIX, socket.SOCK_DGRAM) as one:
                one.settimeout(SECONDS)
                try:
                    one.connect(str(place))
                    for record in records:
                        one.send(record)
                except OSError:
                    pass  # it has ended, which it tells
            until(lambda: not goes_on(server), SECONDS)
            try:
                told += server.communicate(timeout=4 * SECONDS)[1]
            except subprocess.TimeoutExpired:
                server.kill()
                return "not ended", b"", told
        return server.returncode, b"", told

    def told(self, name, answer, *words):
        """A run ended with status 2 and nothing written, after lines of which the last has these words."""
        last = answer[2].rstrip(b"\n").rpartition(b"\n")[2]
        right = answer[0] == 2 and not answer[1] and all(word in last for word in words)
        self.results.check(name, right, str(answer))


# ---------------------------------------------------------------- what is no file

def bound(path):
    """Binds a socket by its folder's descriptor, since a socket's path has few octets."""
    folder = os.open(path.parent, os.O_RDONLY)
    with socket.socket(socket.AF_UNIX) as one:
        one.bind(f"/proc/self/fd/{folder}/s")
    os.rename(path.parent / "s", path)
    os.close(folder)


def intruders(folders):
    """What may stand in place of a file: how it is made, and what is told of it."""
    target, folder = folders.path / "target", folders.path / "folder"
    target.write_bytes(TARGET)
    folder.mkdir()
    rows = {"a link": (lambda path: path.symlink_to(target), NO_FILE),
            "a link to nothing": (lambda path: path.symlink_to(folders.path / "nothing"), NO_FILE),
            "a link to a device": (lambda path: path.symlink_to("/dev/zero"), NO_FILE),
            "a link to a folder": (lambda path: path.symlink_to(folder), NO_FILE),
            "a FIFO": (os.mkfifo, NO_FILE), "a socket": (bound, NO_FILE), "a folder": (os.mkdir, FOLDER)}
    if os.getuid() == 0:
        rows["a device"] = lambda path: os.mknod(path, 0o666 | 0o020000, os.makedev(1, 5)), NO_FILE
    return rows


def seen(path):
    """What stands under a name, if anything does."""
    found = os.lstat(path) if os.path.lexists(path) else None
    return found and (found.st_ino, found.st_mode)


# which commands use which files
COMMANDS = "serve", "read", "verify", "compact", "add", "expire"
USED = {JOURNAL: ["serve", "read", "verify"], SEGMENT: ["read", "verify", "compact"], "lock": ["serve"],
        "new.journal": ["serve"], "new.archive": ["serve"], "lock.compact": ["compact", "expire"], "compact.archive": ["compact"], "lock.add": ["add"], "add.archive": ["add"]}


def with_intruder(folders, command, store, name, kind, make, words):
    """Something else has the name of a file: a command tells so with these words; without words it does without the file.
    It does not wait, and nothing is followed."""
    results, target, nothing = folders.results, folders.path / "target", folders.path / "nothing"
    (store / name).unlink(missing_ok=True)
    make(store / name)
    target.write_bytes(TARGET)
    nothing.unlink(missing_ok=True)
    before, answer = seen(store / name), folders.run(command, store)
    label = f"{command} with {kind} as {name}"
    if answer[0] == 2 and answer[2].startswith(b"ledger: "):
        results.passed += 1  # the ledger could not be caught up with
    elif words:
        folders.told(label, answer, name.encode(), words)
    else:
        results.check(label, answer[0] == 0, str(answer))
    results.check(f"{label}: it stays", seen(store / name) == before)
    results.check(f"{label}: its target", target.read_bytes() == TARGET and not nothing.exists())


def in_place(folders):
    """Each command that uses a file tells that something else has its name, and the others do without it."""
    for kind, (make, words) in intruders(folders).items():
        for name, commands in USED.items():
            for command in COMMANDS:
                with_intruder(folders, command, folders.copy(), name, kind, make, words if command in commands else None)


def torn(store):
    """Octets behind the batches of the journal, which a start sets aside."""
    with open(store / "journal.1", "ab") as journal:
        journal.write(b"torn")


def doubted(store):
    """The note of a sync that failed, after which a start writes the journal anew."""
    (store / "lock").write_bytes(b"failed \n")


def partly_old(store):
    """A segment of which some records are old, and which is written anew without them."""
    put_segment(store, "mixed", [b"<14>1 %d-01-01T00:00:00.000000Z h a - - - x" % year for year in (2020, 2030)])


def as_it_is(store):
    """A store that is whole."""


# names that are used only if there is a cause
CAUSED = [("damaged.journal.1", "serve", torn), ("new.journal", "serve", doubted), ("expire.archive", "expire", partly_old),
          (OLD, "expire", as_it_is)]


def if_caused(folders):
    """The same of names that a command uses only in some stores: nothing is lost."""
    results = folders.results
    for kind, (make, words) in intruders(folders).items():
        for name, command, prepare in CAUSED:
            store = folders.copy()
            prepare(store)
            right = files_of(store)
            with_intruder(folders, command, store, name, kind, make, words)
            here = files_of(store)
            lost = [one for one, octets in right.items() if here.get(one) != octets]
            results.check(f"{command} with {kind} as {name}: the others stay", not lost, str(lost))


def at_a_turn(folders):
    """Something else has a name that is needed for the turn of the file of refused frames: that goes on, or takes the name's
    place, and nothing is followed, waited for or lost."""
    results, target, nothing = folders.results, folders.path / "target", folders.path / "nothing"
    for kind, (make, _) in intruders(folders).items():
        for name in "refused.1", "refused.new":
            store, label = folders.copy(), f"serve with {kind} as {name}"
            with open(store / "refused", "wb") as file:  # as long as it may be, without taking room
                for _ in range(REFUSED_MAX // 262_144):
                    file.write(b"262144 ")
                    file.seek(262_144, os.SEEK_CUR)
                file.truncate()
            before = os.stat(store / "refused")
            make(store / name)
            status, _, told = folders.served(store, [b"no record", *BATCH])
            results.check(f"{label}: it goes on", status == 1, f"{status} {told}")
            old = store / ("refused" if kind == "a folder" else "refused.1")
            results.check(f"{label}: what was refused before", seen(old) == (before.st_ino, before.st_mode), str(seen(old)))
            kept = (store / "refused").read_bytes()[-len(b"no record"):]
            results.check(f"{label}: what is refused", kept == b"no record", str(kept))
            results.check(f"{label}: its target", target.read_bytes() == TARGET and not nothing.exists())


def locks(folders):
    """A lock that has another name, or another owner, is refused, and nothing is written to it."""
    results, target = folders.results, folders.path / "target"
    for command, name in ("serve", "lock"), ("compact", "lock.compact"), ("expire", "lock.compact"), ("add", "lock.add"):
        store = folders.copy()
        (store / name).unlink(missing_ok=True)
        os.link(target, store / name)
        folders.told(f"{command} with a hard link", folders.run(command, store), f"{name}: ".encode(), b"it has another name")
        results.same(f"{command} with a hard link: its target", target.read_bytes(), TARGET)
        if os.getuid() == 0:
            (store / name).unlink()
            (store / name).touch()
            os.chown(store / name, OTHER, OTHER)
            words = f"{name}: ".encode(), b"its owner is another user"
            folders.told(f"{command} with another's lock", folders.run(command, store), *words)


def drafts(folders):
    """The same of a segment that is being written, at a checkpoint."""
    records = [b"%b %b" % (numbered(n), b"x" * 30_000) for n in range(50)]
    for kind, (make, words) in intruders(folders).items():
        store = folders.new()
        store.mkdir()
        make(store / "new.archive")

        def goes_on(server, store=store):
            return server.poll() is None and not any(store.glob("undated.*.archive"))

        answer = folders.served(store, records, "--checkpoint", "1", "--commit", "5", goes_on=goes_on)
        folders.told(f"serve with {kind} as new.archive", answer, f"{store}/new.archive: ".encode(), words)
        results = folders.results
        results.check(f"{kind} as new.archive: its target", (folders.path / "target").read_bytes() == TARGET)


def exchanged(folders):
    """What a name stands for is exchanged just before it is opened: another file is taken in its place, and nothing
    else."""
    for command in "serve", "read", "verify":
        store, other = folders.copy(), folders.path / "other"
        journal = next(name for name in files_of(store) if name.startswith(b"journal.")).decode()
        environment = {"LD_PRELOAD": folders.program.folder.preloaded("exchange"), "EXCHANGE_BY": str(other),
                       "EXCHANGE_PATH": f"{store}/{journal}"}
        shutil.copy(store / journal, other)
        answer = folders.run(command, store, environment=environment)
        folders.results.check(f"{command}: another file takes the name", answer[0] == 0, str(answer))
        other.symlink_to("/dev/zero")
        answer = folders.run(command, store, environment=environment)
        folders.told(f"{command}: a link takes the name", answer, journal.encode(), NO_FILE)


# ---------------------------------------------------------------- whose folder

def listed(store):
    """What is in a folder, and whose it is."""
    return {one.name: (one.stat().st_uid, one.stat().st_mtime_ns, one.read_bytes()) for one in Path(store).iterdir()}


def let_pass(path):
    """Lets every user pass the folders above a path, as far as they are the caller's own."""
    for folder in path.parents:
        mode = folder.stat().st_mode
        if mode & 0o011 != 0o011:
            os.chmod(folder, mode | 0o011)


def others_store(folders, program):
    """Root leaves another user's store as it is, and says how to run it; it may read it."""
    results, store = folders.results, folders.copy()
    let_pass(store / "any")
    for one in [store, *store.iterdir()]:
        os.chown(one, OTHER, OTHER)
    own = {"user": OTHER, "group": OTHER, "extra_groups": [], "preexec_fn": None}
    before = listed(store)
    for command in "serve", "compact", "add", "expire":
        answer = folders.run(command, store)
        line = f"{store}: it is the store of user {OTHER}; run: setpriv --reuid={OTHER} --regid={OTHER} --clear-groups"
        folders.told(f"{command} by root", answer, line.encode())
        results.check(f"{command} by root: nothing is changed", listed(store) == before)
        os.chmod(store, 0o755)
        answer = folders.run(command, store, program, **{**own, "user": THIRD})
        folders.told(f"{command} by another user", answer, f"{store}: its owner is another user".encode())
        os.chmod(store, 0o700)
        results.check(f"{command} by another user: nothing is changed", listed(store) == before)
    text = archive_text(SENT)
    results.same("read by root", folders.run("read", store), (0, text, b""))
    results.same("verify by root", folders.run("verify", store), (0, b"", b""))
    if shutil.which("setpriv"):
        words = ["setpriv", f"--reuid={OTHER}", f"--regid={OTHER}", "--clear-groups", program.path, "compact"]
        results.check("compact as it is told", subprocess.run([*words, str(store)]).returncode == 0)
    answer = folders.run("compact", store, program, **own)
    results.same("compact by its owner", answer, (0, b"", b""))
    results.same("read by its owner", folders.run("read", store, program, **own), (0, text, b""))
    planted(folders)


def planted(folders):
    """In a folder of another user's, root's server writes to no file that a link names."""
    store, target = folders.new(), folders.path / "target"
    store.mkdir()
    (store / "refused").symlink_to(target)
    os.chown(store, OTHER, OTHER)
    status, _, told = folders.served(store, [b"no record"])
    right = status == 2 and b"it is the store of user" in told and target.read_bytes() == TARGET
    folders.results.check("refused as a link", right, f"{status} {told}")


def open_folders(folders):
    """A folder to which everybody may write is refused, one to which a group may is not; a link to a folder is one."""
    for mode, status in (0o777, 2), (0o1777, 2), (0o775, 0), (0o755, 0):
        store = folders.copy()
        os.chmod(store, mode)
        for command in "serve", "compact", "expire", "add":
            answer = folders.run(command, store)
            words = f"{store}: everybody may write to it\n".encode() if status else b""
            right = answer[0] == status and words in answer[2]
            folders.results.check(f"{command} of a folder of mode {mode:o}", right, str(answer))
        text = archive_text(SENT if status else [*SENT, ADDED])
        folders.results.same(f"read of mode {mode:o}", folders.run("read", store), (0, text, b""))
    link, store = folders.new(), folders.copy()
    link.symlink_to(store)
    for command in "serve", "read", "verify", "compact":
        answer = folders.run(command, link)
        folders.results.check(f"{command} of a link to a folder", answer[0] == 0, str(answer))


def parents(folders, program):
    """A parent that may be passed and not read: a store that is there is served, and one that is made is not."""
    own = {"user": OTHER, "group": OTHER, "extra_groups": [], "preexec_fn": None}
    parent, results = folders.path / "parent", folders.results
    parent.mkdir()
    shutil.copytree(folders.whole, parent / "store")
    for one in [parent / "store", *(parent / "store").iterdir()]:
        os.chown(one, OTHER, OTHER)
    os.chmod(parent, 0o711)
    words = ["serve", str(parent / "store"), *any_port("udp"), "--until-eof"]
    answer = program.run(words, b"", timeout=SECONDS, **own)
    results.check("a parent that may not be read", answer[0] == 0, str(answer))
    os.chmod(parent, 0o733)
    words[1] = str(parent / "new")
    for _ in range(2):
        answer = program.run(words, b"", timeout=SECONDS, **own)
        folders.told("a parent that may not be synced", answer, f"its parent {parent}: Permission denied".encode())
        results.check("no store is left there", not (parent / "new").exists())


def owners(folders):
    if os.getuid() != 0:
        folders.results.skip("folders of other users", "only root makes them")
        return
    os.chmod(folders.path, 0o755)
    program = Program(shutil.copy(folders.program.path, folders.path / "program"), folders.program.folder)
    others_store(folders, program)
    parents(folders, program)


# ---------------------------------------------------------------- memory

def memory(folders):
    """Each allocation fails in turn: that is told as want of memory, and never as damage."""
    store = folders.copy()
    damaged = sorted(store.glob("undated.*"))
    damaged[3].write_bytes(damaged[3].read_bytes() + b"x")
    os.rename(damaged[5], store / SEGMENT)
    program, results = folders.program, folders.results
    for name, one in ("a store", folders.whole), ("a damaged store", store):
        for command in "read", "verify":
            each_allocation(program, results, f"{command} of {name}", [command, str(one)])
    compacting(folders, "compact", folders.whole)
    compacting(folders, "compact of a damaged store", store)


def compacting(folders, name, whole):
    """The same of a compaction, each of a copy of a store, whose set stays."""
    program, results, copy = folders.program, folders.results, folders.path / "copy"

    def compacted(environment=None):
        shutil.rmtree(copy, ignore_errors=True)
        shutil.copytree(whole, copy)
        return program.run(["compact", str(copy)], b"", environment)

    ample = compacted()
    environment, made = program.counting()
    compacted(environment)
    allocations, right = made().malloc, folders.run("read", whole)
    for n in range(1, allocations + 3):
        seen = compacted(program.failing(malloc=n))
        told = n <= allocations and wants_memory(seen, ample)
        results.check(f"{name}: allocation {n} of {allocations}", told or seen == ample, str(seen))
        results.same(f"{name}: allocation {n}: what is read", folders.run("read", copy), right)


def unsafe_folders(program, results):
    for part in in_place, if_caused, at_a_turn, locks, drafts, exchanged, open_folders, owners, memory:
        with tempfile.TemporaryDirectory() as path:
            folders = Folders(program, results, path)
            (folders.path / "target").write_bytes(TARGET)
            part(folders)

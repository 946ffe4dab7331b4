"""`backup`: copies of stores of all sorts, and beside a server under load; each call on the disk of the copy fails or is the last
of the process, the power is cut, the disk is full, a file is damaged; and folders that are refused."""
import errno
import re
import shutil
import subprocess
import tempfile
import threading
import time
from collections import Counter
from pathlib import Path
from random import Random

from hostile.compaction import KINDS, many_segments
from hostile.stores import room, without
from lib.power_cut import Cut, Disk, calls_of
from lib.reference import archive_text, counted, counted_frames, framed
from lib.server import SOON, Server, any_port
from lib.site_stores import at_instants, files, in_turn, some
from lib.store_format import CLOSED, JOURNAL, SEGMENT, files_of, held, open_batch, seal_of
from lib.stores import FORGED, Keeper, put_folder, records

SEED = 42
COPIED = re.compile(rb"copied (\d+) files (\d+) octets\n")
LIMITED = ["-c", "trap '' XFSZ; ulimit -f 8; exec \"$@\"", "sh"]  # a disk that takes no file of more than 4 KiB
KILLS = 20
UNFINISHED = b"backup.unfinished"
TOLD = UNFINISHED + b": the copy was not finished, so records may lack\n"
COPIES = 6  # beside a server
MOST = 20_000  # records that are sent to it


def is_counted(name):
    return JOURNAL.fullmatch(name) or SEGMENT.fullmatch(name)


def of_copy(path):
    """The files of a copy that count."""
    return {name: octets for name, octets in files_of(path).items() if is_counted(name)}


class Backups:
    """Runs from one folder to another."""

    def __init__(self, program, results, path, of_files):
        self.program, self.results, self.path, self.files = program, results, Path(path), of_files
        self.store, self.copy, self.log = put_folder(self.path / "store", of_files), self.path / "copy", self.path / "log"
        self.held, self.keeper = held(of_files), Keeper(program)

    def run(self, **chosen):
        """The answer of a run into an empty folder, whose calls are written down."""
        shutil.rmtree(self.copy, ignore_errors=True)
        self.log.unlink(missing_ok=True)
        self.copy.mkdir(mode=0o700)
        return self.program.run(["backup", str(self.store), str(self.copy)], b"", self.keeper.tracing(self.copy, self.log, **chosen))

    def calls(self):
        return [call for call in calls_of(self.log.read_bytes()) if not call.name.startswith(b"lock")]

    def is_whole(self, name, answer, copy=None):
        """A copy holds what the store holds, and the line says how much was copied; the store is as it was."""
        copy = copy or self.copy
        told, found = COPIED.fullmatch(answer[2]), of_copy(copy)
        self.results.check(f"{name}: the answer", answer[:2] == (0, b"") and told, str(answer))
        if told:
            seen, right = tuple(map(int, told.groups())), (len(found), sum(map(len, found.values())))
            self.results.check(f"{name}: what is told", seen == right, f"{seen} for {right}")
        self.results.check(f"{name}: what is held", held(found) == self.held)
        text = archive_text(self.held)
        self.results.same(f"{name}: read", self.program.run(["read", str(copy)]), (0, text, b""))
        self.results.same(f"{name}: verify", self.program.run(["verify", str(copy)]), (0, b"", b""))
        self.results.check(f"{name}: no draft and no mark", not {b"backup.archive", UNFINISHED} & set(files_of(copy)))
        now = {one: octets for one, octets in files_of(self.store).items() if not one.startswith(b"lock")}
        self.results.check(f"{name}: the store is as it was", now == self.files)

    def has_part(self, name):
        """Each file of a copy that was not ended is whole; and another folder takes the whole."""
        found, marked = held(of_copy(self.copy)), UNFINISHED in files_of(self.copy)
        self.results.check(f"{name}: whole copies", found is not None and found <= self.held)
        self.results.check(f"{name}: marked as not finished", marked or found == self.held or not of_copy(self.copy))
        if marked and of_copy(self.copy):
            seen = self.program.run(["verify", str(self.copy)])
            self.results.check(f"{name}: verify tells it", seen[0] == 1 and seen[1].endswith(TOLD), str(seen))
        other = self.path / "other"
        self.is_whole(f"{name}: the next one", self.program.run(["backup", str(self.store), str(other)]), other)
        shutil.rmtree(other)

    def fails(self, counts):
        """Each call fails in turn, and each is the last of the process."""
        for kind in KINDS:
            for n in range(1, counts[kind] + 1):
                answer = self.run(fail=f"{kind} {n} {errno.EIO}")
                name = f"backup: {kind} {n} of {counts[kind]} fails"
                self.results.check(name, answer[0] == 2 and not answer[1] and answer[2].endswith(b"\n"), str(answer))
                self.has_part(name)
        for n in range(1, sum(counts.values()) + 1):
            self.results.check(f"backup killed at call {n}", self.run(kill=n)[0] == -9)
            self.has_part(f"backup killed at call {n}")

    def losses(self, calls, each):
        """How many of the disks that cuts at each of these calls may leave have a copy that is not whole, or, after the last
        one, not all."""
        disk, cut, wrong = Disk({}), Cut(SEED, FORGED), 0
        for n, call in enumerate(calls):
            disk.do(call)
            for _ in range(each):
                left = {name: octets for name, octets in cut.left(disk).items() if is_counted(name)}
                found = held(left)
                wrong += found is None or not found <= self.held or n + 1 == len(calls) and found != self.held
        return wrong

    def is_cut(self, each):
        """The power is cut at each call; without a sync, copies are lost."""
        self.run()
        calls = self.calls()
        self.results.same("power cuts of a backup", self.losses(calls, each), 0)
        for kind in "sync", "names":
            left = without(calls, lambda _, call: call.kind == kind)
            self.results.check(f"a backup without {kind} is found", self.losses(left, 4 * each) > 0)


def traced(program, results):
    with tempfile.TemporaryDirectory(dir=room()) as path:
        tried = Backups(program, results, path, many_segments(("backup", SEED), 3) | {b"journal.2": journal(records(("backup", SEED), 0, 9))})
        tried.files.pop(b"refused", None)
        (tried.store / "refused").unlink(missing_ok=True)
        tried.is_whole("a backup", tried.run())
        tried.fails(Counter(call.kind for call in tried.calls() if call.kind in KINDS))
        tried.is_cut(12)


def journal(sent, tail=bytes([CLOSED])):
    """A journal of two batches."""
    texts = [counted(sent[:len(sent) // 2]), counted(sent[len(sent) // 2:])]
    return b"".join(open_batch(text + seal_of(text)) for text in texts) + tail


def of_all_sorts(program, results, path):
    """Random stores into folders that are missing or empty."""
    for n in range(12):
        random = Random(repr(("backup", n)))
        of_files = files(random, some(random, at_instants if n % 2 else in_turn, random.choice([0, 1, 60, 900])))
        folder = Path(path) / f"sorts{n}"
        folder.mkdir()
        tried = Backups(program, results, folder, of_files)
        if n % 3 == 0:
            tried.copy.mkdir()
        tried.is_whole(f"store {n}", program.run(["backup", str(tried.store), str(tried.copy)]))
        mode = oct(tried.copy.stat().st_mode & 0o777)
        results.check(f"store {n}: the mode of the copy's folder", n % 3 == 0 or mode == "0o700", mode)
        modes = {oct(one.stat().st_mode & 0o777) for one in tried.copy.iterdir() if is_counted(one.name.encode())}
        results.check(f"store {n}: the modes of its files", modes <= {"0o600"}, str(modes))


def a_tail_is_left_out(program, results, path):
    """What stands behind the last batch of a journal was never committed, and is not copied as if it had been."""
    sent = records("tail", 0, 12)
    whole = open_batch(counted(sent[:1]) + seal_of(counted(sent[:1])))
    (Path(path) / "tail").mkdir()
    tried = Backups(program, results, Path(path) / "tail", {b"journal.3": journal(sent[2:], bytes([CLOSED]) + whole[1:20])})
    tried.is_whole("a journal with a tail", program.run(["backup", str(tried.store), str(tried.copy)]))


def refusals(program, results, path):
    """Folders that are no place for a copy, or no store."""
    path = Path(path)
    store = put_folder(path / "refusing", files(Random("refusing"), records("refusing", 0, 50)))
    before = files_of(store)
    full = put_folder(path / "full", {b"journal.0": bytes([CLOSED])})
    foreign, hidden = put_folder(path / "foreign", {b"notes.txt": b"x"}), put_folder(path / "hidden", {b".x": b"x"})
    deep = path / "deep"
    (deep / "folder").mkdir(parents=True)
    (path / "file").write_bytes(b"x")
    (path / "link").symlink_to(path / "nowhere")
    for name, to in [("a store", full), ("a folder with a file", foreign), ("a folder with a hidden file", hidden), ("a folder with a folder", deep),
                     ("the store itself", store), ("a file", path / "file"), ("a link to nothing", path / "link"),
                     ("a folder without a parent", path / "none" / "copy")]:
        answer = program.run(["backup", str(store), str(to)])
        results.check(f"a copy into {name}", answer[0] == 2 and not answer[1] and answer[2].endswith(b"\n"), str(answer))
    results.check("what is refused is as it was", [files_of(one) for one in (full, foreign, hidden)] == [
        {b"journal.0": bytes([CLOSED])}, {b"notes.txt": b"x"}, {b".x": b"x"}])
    results.check("the store is as it was", files_of(store) == before)
    (path / "nothing").mkdir()
    for name, source in [("no folder", path / "away"), ("no store", path / "nothing"), ("a file", path / "file")]:
        answer = program.run(["backup", str(source), str(path / "copy of nothing")])
        results.check(f"a copy of {name}", answer[0] == 2 and not answer[1] and answer[2].endswith(b"\n"), str(answer))
    for words in [], [store], [store, path / "a", path / "b"], [store, path / "a", "--force"]:
        answer = program.run(["backup", *map(str, words)])
        results.check(f"backup of {len(words)} words", answer[0] == 2 and not answer[1] and answer[2], str(answer))


def damaged(program, results, path):
    """A damaged file is told and left out; the others are copied, status 1."""
    sent = some(Random("damaged"), at_instants, 400)
    of_files = files(Random("damaged"), sent) | {b"journal.5": journal(records("damaged journal", 0, 20))}
    for name in sorted(of_files):
        if len(of_files[name]) < 40:
            continue
        octets = bytearray(of_files[name])
        octets[30] ^= 1
        folder = Path(path) / f"damaged {name.decode()[:20]}"
        folder.mkdir()
        store = put_folder(folder / "store", of_files | {name: bytes(octets)})
        answer = program.run(["backup", str(store), str(folder / "copy")])
        lines = answer[2].splitlines(True)
        told = len(lines) == 2 and lines[0].startswith(name + b" ") and COPIED.fullmatch(lines[1])
        results.check(f"{name.decode()[:20]} is damaged: told", answer[:2] == (1, b"") and told, str(answer))
        found = of_copy(folder / "copy")
        right = held({one: text for one, text in of_files.items() if one != name})
        results.check(f"{name.decode()[:20]} is damaged: the others", name not in found and held(found) == right)


def full_disk(program, results, path):
    """The copy's disk is full: status 2, the store is as it was, and each file of the copy is whole."""
    random = Random("full")
    (Path(path) / "limited").mkdir()
    tried = Backups(program, results, Path(path) / "limited", files(random, some(random, in_turn, 2_000)))
    words = ["sh", *LIMITED, program.path, "backup", str(tried.store), str(tried.copy)]
    done = subprocess.run(words, capture_output=True)
    results.check("a full disk", done.returncode == 2 and not done.stdout and b"write fault" in done.stderr, str(done)[-500:])
    found = held(of_copy(tried.copy)) if tried.copy.exists() else set()
    results.check("a full disk: whole copies", found is not None and found <= tried.held)
    shutil.rmtree(tried.copy, ignore_errors=True)
    tried.is_whole("after a full disk", program.run(["backup", str(tried.store), str(tried.copy)]))


def killed(program, results, path):
    """It is killed at random moments; another folder then takes all."""
    (Path(path) / "killed").mkdir()
    sent, of_files = some(Random("killed"), in_turn, 6_000), {}
    for n in range(20):
        of_files |= {name: text for name, text in files(Random(n), sent[n::20]).items() if SEGMENT.fullmatch(name)}
    tried, random, done = Backups(program, results, Path(path) / "killed", of_files), Random("killed"), 0
    begun = time.monotonic()
    program.run(["backup", str(tried.store), str(tried.copy)])
    took = time.monotonic() - begun
    for n in range(KILLS):
        shutil.rmtree(tried.copy)
        process = subprocess.Popen([program.path, "backup", str(tried.store), str(tried.copy)], stderr=subprocess.DEVNULL)
        time.sleep(took * random.random())
        process.kill()
        done += process.wait() == -9
        found = held(of_copy(tried.copy)) if tried.copy.exists() else set()
        results.check(f"backup killed, {n}: whole copies", found is not None and found <= tried.held)
        tried.copy.mkdir(exist_ok=True)
    shutil.rmtree(tried.copy)
    tried.is_whole("after kills", program.run(["backup", str(tried.store), str(tried.copy)]))
    results.check("most runs were killed in the middle", done * 4 > KILLS, f"{done} of {KILLS}")


def sends(server, stops, sent):
    """Sends records over a connection until that is to stop, a few at a time."""
    with server.open("counted") as one:
        for number in range(0, MOST, 10):
            if stops.is_set():
                break
            few = [b"<14>1 2026-11-25T10:%02d:00.000000Z h a - - - %d %b" % (number // 500 % 60, number + n, b"x" * 900) for n in range(10)]
            sent.update(few)
            one.sendall(counted(few))
            time.sleep(0.005)


def beside_a_server(program, results, path):
    """Copies while a server takes records, makes checkpoints and is compacted: each is whole, and has all that was read
    before it began."""
    path, sent, stops = Path(path), set(), threading.Event()
    store = path / "beside"
    with Server(program, store, *any_port("counted"), *SOON, "--checkpoint", 1) as server:
        sender = threading.Thread(target=sends, args=(server, stops, sent), daemon=True)
        sender.start()
        for n in range(COPIES):
            time.sleep(0.2)
            name, copy = f"beside a server, {n}", path / f"beside{n}"
            before = server.held()
            compaction = subprocess.Popen([program.path, "compact", str(store)], stderr=subprocess.DEVNULL) if n % 2 else None
            answer = program.run(["backup", str(store), str(copy)])
            results.check(f"{name}: the answer", answer[:2] == (0, b"") and COPIED.fullmatch(answer[2]), str(answer))
            if compaction:
                compaction.wait()
            status, text, notes = program.run(["read", str(copy)])
            found = set(counted_frames(text)[0])
            results.check(f"{name}: read", (status, notes) == (0, b""), f"{status} {notes}")
            results.check(f"{name}: all that was there", before <= found, f"{len(before - found)} of {len(before)} are missing")
            results.same(f"{name}: verify", program.run(["verify", str(copy)]), (0, b"", b""))
            results.check(f"{name}: nothing else", found <= sent | server.held())
        results.check("beside a server: records came", len(before) > 100, str(len(before)))
        stops.set()
        sender.join()  # a sender that fails is told by the server
        results.check("the server goes on", server.process.poll() is None, str(server.lines()[-3:]))
    serves_a_copy(program, results, path / f"beside{COPIES - 1}")


def serves_a_copy(program, results, copy):
    """A server takes up a copy, and has what it has."""
    before = set(counted_frames(program.run(["read", str(copy)])[1])[0])
    with Server(program, copy, *any_port("counted"), *SOON) as server:
        server.send("counted", framed("counted", b"<14>1 - h a - - - after"))
        text = archive_text(before | {b"<14>1 - h a - - - after"})
        results.same("a server on a copy", server.until_held(text), (0, text, b""))


def backing_up(program, results):
    traced(program, results)
    for case in of_all_sorts, a_tail_is_left_out, refusals, damaged, full_disk, killed, beside_a_server:
        with tempfile.TemporaryDirectory() as path:
            case(program, results, path)

"""`stat`: what the files of stores have, beside a second count of each file; damaged files, devices that fail, and want of memory."""
import os
import subprocess
import tempfile
import time
from datetime import date, timedelta
from hashlib import sha256

from lib.faults import each_allocation
from lib.reference import archive_read, archive_text, counted, counted_frames
from lib.server import SOON, Runs, any_port, until
from lib.store_format import JOURNAL, SEAL, SEGMENT, bodies_of, files_of, is_sealed, open_batch, seal_of

FIRST = date(2026, 11, 20)
OTHER = 65_534  # a user that owns no store


def dated(day, second, word):
    time = f"{FIRST + timedelta(days=day)}T{second // 3600:02}:{second // 60 % 60:02}:{second % 60:02}.000000Z"
    return b"<14>1 %b h stat - - - %b" % (time.encode(), word)


def undated(word):
    return b"<14>1 - h stat - - - %b" % word


RECORDS = [*(dated(day, 3_601 * n, b"%d of %d" % (n, day)) for day in range(4) for n in range(5)),
           *(undated(b"%d" % n) for n in range(3))]


# ---------------------------------------------------------------- a second count

def records_of(name, octets):
    """The records of a file, in their order, one that comes twice twice."""
    if SEGMENT.fullmatch(name):
        return list(archive_read(octets)[0])
    texts = [body[:-SEAL] if is_sealed(body) else body for body in bodies_of(octets)[0]]
    return [record for text in texts for record in counted_frames(text)[0]]


def figures(found):
    """What is told of some files: records, octets, the first and the last time."""
    times = sorted(time for records, _ in found for time in (record.split(b" ", 2)[1] for record in records) if time != b"-")
    return b"%d %d %b %b" % (sum(len(records) for records, _ in found), sum(octets for _, octets in found),
                             *((times[0], times[-1]) if times else (b"-", b"-")))


def lines_on(store, but=()):
    """The lines of `stat` on a store, but for some of its files."""
    files = {name: octets for name, octets in sorted(files_of(store).items())
             if (SEGMENT.fullmatch(name) or JOURNAL.fullmatch(name)) and name not in but}
    found = {name: (records_of(name, octets), len(octets)) for name, octets in files.items()}
    lines = [figures([one]) + b" " + name for name, one in found.items()]
    return b"".join(line + b"\n" for line in [*lines, figures(list(found.values()))])


def stat(runs, store, environment=None, **streams):
    return runs.program.run(["stat", str(store)], b"", environment, **streams)


# ---------------------------------------------------------------- stores

def put(store, name, octets):
    path = store / name
    path.write_bytes(octets)
    return path


def put_segment(store, period, records):
    text = archive_text(records)
    return put(store, f"{period}.{sha256(text).hexdigest()}.archive", text)


def batch(*records):
    return open_batch(counted(records) + seal_of(counted(records)))


def journal(*batches):
    """A journal as a server leaves it: behind its batches is the octet of one that is not open."""
    return b"".join(batches) + b"\xfe"


def made(runs):
    """A store with segments of days, of records without a time and of any, and journals."""
    store = runs.store()
    store.mkdir()
    for day in range(3):
        put_segment(store, FIRST + timedelta(days=day), RECORDS[5 * day:5 * day + 5])
    put_segment(store, FIRST, RECORDS[3:5])
    put_segment(store, "undated", RECORDS[20:])
    put_segment(store, "mixed", [RECORDS[1], RECORDS[12], RECORDS[21], dated(-9_000, 1, b"long ago")])
    put(store, "journal.7", journal(batch(RECORDS[17], RECORDS[16]), batch(RECORDS[17]), batch(undated(b"last"))))
    put(store, "journal.10", journal(batch(undated(b"alone"))))
    put(store, "journal.11", journal())
    put(store, "damaged.journal.7", b"octets that were set aside")
    return store


def figures_of_files(runs):
    """Each file that counts has its own figures, and the last line their sums."""
    store = made(runs)
    runs.results.same("files of each kind", stat(runs, store), (0, lines_on(store), b""))
    store = runs.store()
    runs.results.same("an archive that is added", runs.program.run(["add", str(store)], archive_text(RECORDS)), (0, b"", b""))
    right = lines_on(store)
    runs.results.same("a store by `add`", stat(runs, store), (0, right, b""))
    count = runs.program.run(["count"], runs.program.run(["read", str(store)])[1])
    runs.results.same("each record is in one file there", count, (0, right.splitlines(True)[-1], b""))
    store = runs.store()
    store.mkdir()
    put_segment(store, "undated", RECORDS[20:])
    runs.results.same("no times", stat(runs, store), (0, lines_on(store), b""))


def served(runs):
    """Beside a server, with a journal that it writes and segments of its checkpoints."""
    store = runs.store()
    many = [dated(0, n % 80_000, b"%d %b" % (n, b"x" * 200)) for n in range(6_000)]
    with runs.until_eof(*any_port("counted"), *SOON, "--checkpoint", 1, store=store) as server:
        server.send("counted", counted([*many, *RECORDS]))
        runs.holds("a server", server, *many, *RECORDS)
        until(lambda: list(store.glob("*.archive")))
        status, _, notes = stat(runs, store)
        runs.results.check("beside a server", (status, notes) == (0, b""), f"{status} {notes}")
        runs.ends("a server", server, 0)
    runs.results.same("what a server left", stat(runs, store), (0, lines_on(store), b""))


def compacted(runs):
    """Beside a compaction that joins segments: no record is left out, or it is told that the folder changed."""
    store = runs.store()
    store.mkdir()
    put_segment(store, FIRST, [dated(0, n, b"%05d %b" % (n, b"x" * 200)) for n in range(20_000)])
    told = set()
    for turn in range(6):
        for n in range(9):
            put_segment(store, FIRST + timedelta(days=1), [dated(1, 9 * turn + n, b"of a small one")])
        with subprocess.Popen([runs.program.path, "stat", str(store)], stdout=subprocess.PIPE, stderr=subprocess.PIPE) as reader:
            time.sleep(0.004 * turn)
            runs.results.same("a compaction beside `stat`", runs.program.run(["compact", str(store)]), (0, b"", b""))
            output, notes = reader.communicate()
        total = output.splitlines()[-1].split()[0] if output else b""
        seen = reader.returncode, total, notes
        right = (0, b"%d" % (20_000 + 9 * (turn + 1)), b"")
        runs.results.check("beside a compaction", seen == right or (seen[0], seen[2]) == (2, b"the folder keeps changing\n"), str(seen))
        told.add(seen == right)
    runs.results.check("beside compactions, mostly all is told", True in told, str(told))


# ---------------------------------------------------------------- damage

def damaged(runs):
    """Damaged files are told and left out, the others are listed."""
    store = made(runs)
    paths = {path.name.encode(): path for path in store.iterdir()}
    segment = min(name for name in paths if name.startswith(b"2026-11-21"))
    for name, octets, told in (
            (segment, paths[segment].read_bytes()[:-1], b" bad-frame "),
            (segment, archive_text([*RECORDS[5:10], RECORDS[0]]), b" day 0\n"),
            (b"journal.7", journal(batch(RECORDS[0]), open_batch(counted(RECORDS[:1]))), b" checksum "),
            (b"journal.7", journal(b"\x02" + batch(RECORDS[0])[1:], batch(RECORDS[1])), b" hidden 0\n"),
            (b"journal.10", journal(open_batch(b"5 hello")), b" bad-entry ")):
        whole = paths[name].read_bytes()
        paths[name].write_bytes(octets)
        status, output, notes = stat(runs, store)
        runs.results.same(f"beside {name}{told}", (status, output, b""), (1, lines_on(store, {name}), b""))
        is_told = notes.startswith(name) and told in notes and notes.count(b"\n") == 1
        runs.results.check(f"{name}{told} is told", is_told, str(notes))
        verified = runs.verify(store)[1]
        runs.results.check(f"{name}{told} as by verify", notes == verified, f"{notes} for {verified}")
        paths[name].write_bytes(whole)
    store, names = made(runs), []
    for path in sorted(store.iterdir(), key=lambda one: one.name.encode()):
        if path.name.startswith("2026-11-2"):
            path.write_bytes(b"7 ")
            names.append(path.name.encode())
    status, output, notes = stat(runs, store)
    runs.results.same("many damaged files", (status, output, b""), (1, lines_on(store, names), b""))
    runs.results.check("each is told", [line.split(b" ")[0] for line in notes.splitlines()] == names, str(notes))


def another_digest(runs):
    """The digest in a name is not compared."""
    store = runs.store()
    store.mkdir()
    put(store, f"undated.{'0' * 64}.archive", archive_text(RECORDS[20:]))
    runs.results.same("another digest", stat(runs, store), (0, lines_on(store), b""))
    runs.results.check("which verify tells", runs.verify(store)[0] == 1)


# ---------------------------------------------------------------- devices and folders

def devices(runs):
    store = made(runs)
    with open("/dev/full", "wb") as full:
        seen = stat(runs, store, stdout=full)
        runs.results.same("a full device", (seen[0], seen[2]), (2, b"write fault\n"))
    reader, writer = os.pipe()
    os.close(reader)
    seen = stat(runs, store, stdout=writer)
    os.close(writer)
    runs.results.same("a closed pipe", (seen[0], seen[2]), (2, b"write fault\n"))
    (store / "journal.7").write_bytes(b"\x02damaged")
    with open("/dev/full", "wb") as full:
        seen = stat(runs, store, stderr=full)
        runs.results.same("full diagnostics", seen[:2], (2, lines_on(store, {b"journal.7"})))


def folders(runs):
    missing = runs.store()
    status, output, notes = stat(runs, missing)
    is_told = status == 2 and output == b"" and notes.startswith(str(missing).encode() + b": ")
    runs.results.check("a folder that is missing", is_told, f"{status} {output} {notes}")
    missing.mkdir()
    right = b"%b: not a store: it has neither a journal nor a segment\n" % str(missing).encode()
    runs.results.same("a folder that is no store", stat(runs, missing), (2, b"", right))
    store = made(runs)
    (store / "journal.7").unlink()
    (store / "journal.7").mkdir()
    status, output, notes = stat(runs, store)
    before = [line for line in lines_on(store).splitlines(True)[:-1] if line.split(b" ")[-1] < b"journal.7"]
    is_told = status == 2 and notes.startswith(b"journal.7 read fault\n") and b"Is a directory" in notes
    runs.results.check("a folder in place of a journal", is_told, f"{status} {output} {notes}")
    runs.results.check("the lines before it", output == b"".join(before), str(output))


def permission(runs):
    """Without permission, where the caller may become another user."""
    if os.geteuid() != 0:
        runs.results.skip("a store of another user", "the caller is not root")
        return
    store = made(runs)
    os.chmod(store, 0o700)
    try:
        status, output, notes = stat(runs, store, user=OTHER, group=OTHER, extra_groups=[])
    except PermissionError:
        runs.results.skip("a store of another user", "the program is in a folder that others may not enter")
        return
    runs.results.check("a store of another user", (status, output) == (2, b"") and b"Permission denied" in notes,
                       f"{status} {output} {notes}")


def memory(runs):
    store = runs.store()
    store.mkdir()
    put_segment(store, FIRST, RECORDS[:5])
    put(store, "journal.7", journal(batch(*RECORDS[3:8])))
    each_allocation(runs.program, runs.results, "memory", ["stat", str(store)])
    put(store, "journal.8", b"\x02damaged")
    put(store, "journal.9", b"\x02damaged")
    each_allocation(runs.program, runs.results, "memory beside damage", ["stat", str(store)])


def statistics(program, results):
    with tempfile.TemporaryDirectory() as path:
        runs = Runs(program, results, path)
        for part in figures_of_files, served, compacted, damaged, another_digest, devices, folders, permission, memory:
            part(runs)

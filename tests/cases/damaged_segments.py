"""Segments that are damaged, mixed segments, and stores of very many days, as `read`, `verify` and `compact` take them."""
import tempfile
import time
from datetime import date, timedelta
from hashlib import sha256
from pathlib import Path

from lib.reference import archive_text, counted
from lib.server import SOON, Runs, any_port, until

DAYS, IN_TIME = 20_000, 10
FIRST = date(1980, 1, 1)


def dated(day, word):
    return b"<14>1 %sT12:00:00.000000Z h damaged - - - %s" % (str(day).encode(), word)


UNDATED = b"<14>1 - h damaged - - - undated"
# records of many days, of which two are in other segments too
SPREAD = [UNDATED, *(dated(FIRST + timedelta(days=3 * n), b"mixed") for n in range(40))]
OWN = [UNDATED, dated(FIRST, b"own"), dated(FIRST, b"mixed"), dated(FIRST + timedelta(days=3), b"own")]


def segment(store, period, records):
    """Writes the segment of a period with these records; gives its path."""
    text = archive_text(records)
    path = Path(store) / f"{period}.{sha256(text).hexdigest()}.archive"
    path.write_bytes(text)
    return path


def made(runs, *segments):
    """A new store with the segments of these periods."""
    store = runs.store()
    store.mkdir()
    return store, [segment(store, *one) for one in segments]


def read(runs, store, *words):
    return runs.program.run(["read", str(store), *words])


def compact(runs, store):
    return runs.program.run(["compact", str(store)])


# ---------------------------------------------------------------- an octet is another one

def served(runs):
    """A store of one small segment, and its path: of a checkpoint of `serve` that was nearly all of another day."""
    store = runs.store()
    many = [dated(FIRST, b"%d %s" % (n, b"x" * 200)) for n in range(5_000)]
    few = [dated(FIRST + timedelta(days=1), b"one"), dated(FIRST + timedelta(days=1), b"two")]
    with runs.until_eof(*any_port("counted"), *SOON, "--checkpoint", 1, store=store) as server:
        server.send("counted", counted([*few, *many]))
        until(lambda: list(store.glob("*.archive")))
        runs.ends("a server that makes a checkpoint", server, 0)
    paths = sorted(store.glob("*.archive"), key=lambda path: path.stat().st_size)
    runs.results.same("its smallest segment", [path.read_bytes() for path in paths[:1]], [archive_text(few)])
    for path in [*paths[1:], *store.glob("journal.*"), store / "ledger"]:
        path.unlink()
    return store, paths[0]


def told(runs, name, store, path):
    """A damaged segment is told by `verify`, and by `read`, which writes nothing of its day."""
    status, output, notes = read(runs, store)
    is_told = status == 1 and output == b"" and notes.startswith(path.name.encode())
    runs.results.check(f"{name}: read", is_told, f"{status} {output} {notes}")
    status, output, notes = runs.verify(store)
    is_told = status == 1 and output.startswith(path.name.encode())
    runs.results.check(f"{name}: verify", is_told, f"{status} {output} {notes}")


def each_octet(runs, name, store, path):
    """Each octet of a segment is another one in turn."""
    whole = path.read_bytes()
    for at in range(len(whole)):
        for change in 1, 0x20:
            path.write_bytes(whole[:at] + bytes([whole[at] ^ change]) + whole[at + 1:])
            told(runs, f"{name}: octet {at} changed by {change}", store, path)
    path.write_bytes(whole)
    runs.results.same(f"{name}: whole again", runs.verify(store), (0, b"", b""))


# ---------------------------------------------------------------- mixed segments

def mixed(runs):
    """`read` gives the union of mixed segments and the others, in any range; `verify` finds nothing; more than eight
    are joined; and one that is damaged is told."""
    parts = [("mixed", SPREAD[n::9]) for n in range(9)]
    store, paths = made(runs, *parts, ("undated", OWN[:1]), (FIRST, OWN[1:3]), (FIRST + timedelta(days=3), OWN[3:]))
    right = archive_text([*SPREAD, *OWN])
    for name in "nine mixed segments", "one mixed segment":
        runs.results.same(f"{name}: read", read(runs, store), (0, right, b""))
        runs.results.same(f"{name}: verify", runs.verify(store), (0, b"", b""))
        of_range = archive_text([one for one in [*SPREAD, *OWN] if b" 1980-02-" in one])
        runs.results.same(f"{name}: a range", read(runs, store, "--from", "1980-02-01T00:00:00Z", "--to",
                                                   "1980-03-01T00:00:00Z"), (0, of_range, b""))
        runs.results.same(f"{name}: compact", compact(runs, store), (0, b"", b""))
    left = list(store.glob("mixed.*"))
    runs.results.same("mixed segments are joined", [path.read_bytes() for path in left], [archive_text(SPREAD)])
    store, paths = made(runs, ("mixed", SPREAD[:2]), (FIRST, OWN[1:2]))
    each_octet(runs, "a mixed segment", store, paths[0])
    store, paths = made(runs, *parts)
    paths[4].write_bytes(paths[4].read_bytes()[:-1] + b"!")
    before = sorted(path.name for path in store.glob("mixed.*"))
    status, output, notes = compact(runs, store)
    is_told = status == 1 and paths[4].name.encode() in output + notes
    runs.results.check("compact tells a damaged mixed segment", is_told, f"{status} {output} {notes}")
    runs.results.same("and joins none", sorted(path.name for path in store.glob("mixed.*")), before)


# ---------------------------------------------------------------- very many days

def very_many(runs):
    """Segments of 20,000 days, none of which a ledger lists, are read, verified and compacted in some seconds."""
    store, _ = made(runs)
    for n in range(DAYS):
        segment(store, FIRST + timedelta(days=n), [dated(FIRST + timedelta(days=n), b"x")])
    right = archive_text([dated(FIRST + timedelta(days=n), b"x") for n in range(DAYS)])
    for name, right in ("read", right), ("compact", b""), ("verify", b""):
        begun = time.monotonic()
        answer = runs.program.run([name, str(store)])
        seconds = time.monotonic() - begun
        runs.results.same(f"{DAYS} days: {name}", answer, (0, right, b""))
        runs.results.check(f"{DAYS} days: {name} in time", seconds < IN_TIME, f"{seconds:.1f} s")


def damaged_segments(program, results):
    with tempfile.TemporaryDirectory() as path:
        runs = Runs(program, results, path)
        each_octet(runs, "a segment", *served(runs))
        mixed(runs)
        very_many(runs)

"""Octets of journals that are changed: `verify`, `read` and a start of `serve` tell each that costs a record, and where."""
import tempfile

from lib.reference import COUNT, COUNT_PREFIX, ENTRY_MAX, archive_text, canonical, counted, entry_fault
from lib.server import SOON, Runs, any_port
from lib.store_format import CLOSED, HEAD, JOURNAL, OLDER_CLOSED, OPEN, SEAL, bodies_of, files_of, hides_batches, of_journal
from lib.store_format import first_unsealed, open_batch, seal_of

SENT = [b"<13>1 - h journal - - - first", b"<14>1 2026-11-25T10:00:00.000000Z h journal - - - second",
        b"<15>1 - h journal - - - the third and last"]
SEAL_MARK = b"#"
# of the flips of one bit of a journal without seals: how many are told, change nothing, and cost or change a record unseen
OLDER = {"told": 692, "same": 8, "unseen": 516}


def served(runs):
    """A store that a server has left, with a journal of three batches; and the path of that."""
    with runs.until_eof(*any_port("lf"), *SOON) as server:
        for n, record in enumerate(SENT, 1):
            server.send("lf", record + b"\n")
            runs.holds(f"batch {n}", server, *SENT[:n])
        runs.ends("a server with a journal", server, 0)
    names = [name for name in files_of(server.store) if JOURNAL.fullmatch(name)]
    runs.results.same("its journals", len(names), 1)
    return server.store, server.store / names[0].decode()


def fault_of_batch(body, at):
    """What is wrong with a batch that begins at a place of its journal: an entry, or the seal behind them; None if nothing is."""
    read = 0
    while read < len(body) and body[read:read + 1] != SEAL_MARK:
        seen = COUNT.match(body, read)
        if not seen:
            return f"bad-frame {at + COUNT_PREFIX.match(body, read).end()}"
        end = seen.end() + int(seen.group(1))
        if end - seen.end() > ENTRY_MAX:
            return f"entry-too-long {at + read}"
        fault = entry_fault(body[seen.end():end], canonical) if end <= len(body) else f"bad-frame {at + len(body)}"
        if fault:
            return fault.format(at=at + read)
        read = end
    return None if body[read:] in (b"", seal_of(body[:read])) else f"checksum {at + read}"


def place_of(octets):
    """What is wrong with a damaged journal and where: hidden batches, an entry, or a checksum."""
    bodies, end = bodies_of(octets)
    if hides_batches(octets[end:]):
        return f"hidden {end}"
    at, unsealed = 0, first_unsealed(bodies)
    for n, body in enumerate(bodies):
        fault = fault_of_batch(body, at + HEAD)
        if fault:
            return fault
        at += HEAD + len(body)
        if n == unsealed:
            return f"checksum {at}"
    return None


def tried(runs, name, store, path, octets):
    """A journal has these octets: `verify` and `read` tell its damage, or give what it has. Gives its records, or None."""
    path.write_bytes(octets)
    right, place = of_journal(octets), place_of(octets)
    status, lines, notes = runs.verify(store)
    answer = runs.program.run(["read", str(store)])
    if right is None:
        is_told = status == 1 and lines.startswith(f"{path.name} {place}".encode()) and lines.count(b"\n") == 1
        runs.results.check(f"{name}: verify", is_told and notes == b"", f"{status} {lines} {notes} for {place}")
        runs.results.same(f"{name}: read", answer, (1, b"", lines))
    else:
        runs.results.same(f"{name}: verify", (status, lines, notes), (0, b"", b""))
        runs.results.same(f"{name}: read", answer, (0, archive_text(right), b""))
    return right


def flips(octets):
    """The octets with each bit changed in turn, and which it is."""
    for at in range(len(octets)):
        for bit in range(8):
            yield f"octet {at} bit {bit}", octets[:at] + bytes([octets[at] ^ 1 << bit]) + octets[at + 1:]


def each_bit(runs, store, path):
    """Each bit of a journal is changed: all but those of the octet before no batch are told."""
    whole, same = path.read_bytes(), 0
    runs.results.same("the octet behind the batches", whole[-1], CLOSED)
    for place, octets in flips(whole):
        found = tried(runs, place, store, path, octets)
        runs.results.check(f"{place}: no other records", found in (None, frozenset(SENT)), str(found))
        same += found is not None
    runs.results.same("bits that may change", same, 8)
    path.write_bytes(whole)


def each_opening(runs, store, path):
    """The octet before a batch has each other value: it is told, but where it is the last batch and not open."""
    whole, at, unseen = path.read_bytes(), 0, []
    for n, body in enumerate(bodies_of(whole)[0]):
        for value in set(range(256)) - {OPEN}:
            octets = whole[:at] + bytes([value]) + whole[at + 1:]
            found = tried(runs, f"batch {n} after {value}", store, path, octets)
            unseen += [(n, value)] if found is not None else []
        at += HEAD + len(body)
    runs.results.same("openings that may change", unseen, [(2, CLOSED)])
    path.write_bytes(whole)


def each_start(runs, store, path):
    """No server begins on a journal of which an octet is another one, and it changes nothing."""
    whole = path.read_bytes()
    for at in range(len(whole) - 1):
        octets = whole[:at] + bytes([whole[at] ^ 1 << at % 8]) + whole[at + 1:]
        path.write_bytes(octets)
        before = files_of(store)
        runs.refused(f"a start, octet {at}", any_port("lf"), store, path.name, store=store)
        runs.results.same(f"a start, octet {at}: what is there", files_of(store), before)
    path.write_bytes(whole)


def older(runs, store, path):
    """Each bit of a journal without seals is changed: what is told, and what is not."""
    whole = b"".join(open_batch(counted([record])) for record in SENT) + bytes([OLDER_CLOSED])
    counts = dict.fromkeys(OLDER, 0)
    for place, octets in flips(whole):
        found = tried(runs, f"without seals, {place}", store, path, octets)
        counts["told" if found is None else "same" if found == frozenset(SENT) else "unseen"] += 1
    runs.results.same("without seals: what is told", counts, OLDER)
    path.write_bytes(whole)
    runs.results.same("without seals: whole", tried(runs, "without seals", store, path, whole), frozenset(SENT))


def torn(runs, store, path):
    """What a crash leaves behind the batches is no damage: any front of a batch that is not open."""
    whole = path.read_bytes()[:-1]
    body = counted([SENT[0]])
    batch = open_batch(body + bytes([35]) + b"\0" * (SEAL - 1))[1:]
    for end in range(len(batch) + 1):
        found = tried(runs, f"torn after {end}", store, path, whole + bytes([CLOSED]) + batch[:end])
        runs.results.same(f"torn after {end}: what it has", found, frozenset(SENT))
    path.write_bytes(whole + bytes([CLOSED]))


def unsealed(runs, store, path):
    """Behind a batch with its checksum one without is damage, and before all such it is not."""
    whole, batch = path.read_bytes(), open_batch(counted([SENT[0]]))
    behind = whole[:-1] + batch + bytes([CLOSED])
    runs.results.same("a batch without a checksum behind", tried(runs, "without a checksum", store, path, behind), None)
    runs.refused("a start on a batch without a checksum", any_port("lf"), store, path.name, store=store)
    runs.results.same("it stays", path.read_bytes(), behind)
    found = tried(runs, "without a checksum, before", store, path, batch + whole)
    runs.results.same("a batch without a checksum before", found, frozenset(SENT))
    path.write_bytes(whole)


def aside(runs, store, path):
    """What a start cuts off is set aside before, behind what was set aside before, and told."""
    whole, other, right = path.read_bytes(), store / f"damaged.{path.name}", b""
    name = path.name.encode()
    for what, octets in [("torn", whole + b"\x05\0\0\0torn"), ("empty", bytes(16) + whole[16:])]:
        path.write_bytes(octets)
        tail = octets[bodies_of(octets)[1]:]
        right += tail
        with runs.until_eof(*any_port("lf"), *SOON, store=store) as server:
            runs.holds(f"a start on a {what} journal", server, *(SENT if what == "torn" else []))
            runs.ends(f"a start on a {what} journal", server, 0,
                      b"%b: %d octets behind the last batch set aside in damaged.%b" % (name, len(tail), name))
        runs.results.same(f"what is set aside of a {what} journal", other.read_bytes(), right)
        runs.results.same(f"a {what} journal: verify", runs.verify(store), (0, b"", b""))
    path.write_bytes(whole)
    other.unlink()


def damaged_journals(program, results):
    with tempfile.TemporaryDirectory() as path:
        runs = Runs(program, results, path)
        store, journal = served(runs)
        for each in each_bit, each_opening, each_start, torn, unsealed, aside, older:
            each(runs, store, journal)

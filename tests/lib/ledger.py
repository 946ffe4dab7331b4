"""A second reader of a store's ledger, for tests only and independent of the program."""
import hashlib
import re
import tempfile
from pathlib import Path

from lib.reference import archive_read
from lib.store_format import SEGMENT
from lib.stores import put_folder

LINE = re.compile(rb"([1-9]\d*) (\d{4}-\d\d-\d\dT\d\d:\d\d:\d\d\.\d{6}Z) (add|join|gone|seal) ([!-~]{1,255}) (0|[1-9]\d*) (0|[1-9]\d*)"
                  rb"(?: (expired|joined [1-9]\d*)| ([0-9a-f]{64}))? ([0-9a-f]{64})")
NOTHING = b"0" * 64


def chained(before, front):
    """The chain behind a line, whose front ends before the space in front of its own chain."""
    return hashlib.sha256(before + b" " + front).hexdigest().encode()


def is_line(line, number, before):
    """Whether a line is the one with this number, behind this chain."""
    found = LINE.fullmatch(line)
    if not found or int(found[1]) != number or found[9] != chained(before, line[:-65]):
        return False
    return bool(found[7]) == (found[3] == b"gone") and bool(found[8]) == (found[3] == b"seal")


def lines_of(octets):
    """The whole lines of a ledger, and the octet at which the first begins that is none; None where all are lines."""
    lines, before, at = [], NOTHING, 0
    for line in octets.split(b"\n")[:-1]:
        if not is_line(line, len(lines) + 1, before):
            return lines, at
        lines.append(line)
        before, at = line[-64:], at + len(line) + 1
    return lines, None


def standing(lines):
    """What lines list of each segment: its records, its octets and the line that says so, and its root where it is sealed. A
    segment that is sealed goes only where it expires."""
    found = {}
    for line in lines:
        number, _, what, name, count, size, *more = line.split(b" ")
        told = int(count), int(size), int(number)
        before, root = found.get(name, (told, None))
        if what == b"seal":
            found[name] = before, more[0]
        elif what != b"gone":
            found[name] = told, root
        elif not root or more[0] == b"expired":
            found.pop(name, None)
    return found


def listed(lines):
    """The segments that lines list: the records and octets of each, and the line that says so."""
    return {name: told for name, (told, _) in standing(lines).items()}


def sealed(lines):
    """The segments that lines seal, and their roots."""
    return {name: root for name, (_, root) in standing(lines).items() if root}


def continued(octets, *said):
    """A ledger of these octets with a line more for each of what is said, rightly chained."""
    for words in said:
        lines = octets.split(b"\n")
        front = b"%d 2026-12-01T00:00:00.000000Z " % len(lines) + words
        octets += front + b" " + chained(lines[-2][-64:], front) + b"\n"
    return octets


def leaf(octets):
    return hashlib.sha256(b"\x00" + octets).digest()


def tree(leaves):
    """The Merkle tree hash of RFC 9162, section 2.1.1, over hashes of leaves."""
    if len(leaves) < 2:
        return leaves[0] if leaves else hashlib.sha256(b"").digest()
    split = 1 << (len(leaves) - 1).bit_length() - 1
    return hashlib.sha256(b"\x01" + tree(leaves[:split]) + tree(leaves[split:])).digest()


def root_of(archive):
    """The root of an archive, in hexadecimal digits."""
    return tree([leaf(one) for one in archive_read(archive)[0]]).hex().encode()


def segments_in(store):
    """The names of the segments in a folder."""
    return {one.name.encode() for one in Path(store).iterdir() if SEGMENT.fullmatch(one.name.encode())}


def is_right(store):
    """What is wrong with the ledger of a store beside its segments: a text, empty where nothing is."""
    there = segments_in(store)
    if not there and not (Path(store) / "ledger").exists():
        return ""  # it is made with the first segment
    octets = (Path(store) / "ledger").read_bytes()
    lines, broken = lines_of(octets)
    if broken is not None or not octets.endswith(b"\n") and octets:
        return f"broken at {broken}, ends with {octets[-20:]}"
    told = listed(lines)
    if set(told) != there:
        return f"missing {set(told) - there}, unlisted {there - set(told)}"
    for name, (count, size, _) in told.items():
        archive = (Path(store) / name.decode()).read_bytes()
        if (count, size) != (len(archive_read(archive)[0]), len(archive)):
            return f"{name} has not {count} records in {size} octets"
    return ""


def but_unlisted(answer):
    """What `verify` says, without segments that are not listed, as a kill may leave them."""
    status, output, notes = answer
    kept = [line for line in output.splitlines(keepends=True) if not line.endswith(b" unlisted\n")]
    return 0 if status == 1 and not kept else status, b"".join(kept), notes


def ledger_of(program, files):
    """The ledger that a folder of these files gets by the first command that writes."""
    with tempfile.TemporaryDirectory() as path:
        store = put_folder(Path(path) / "store", files)
        program.run(["seal", str(store), "--before", "0001-01-01"])
        return (store / "ledger").read_bytes()

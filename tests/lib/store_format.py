"""A second reader of a store's files, for tests only and independent of the program: the batches of a journal, the segments
of days and those that several share, and the set of records that a folder holds."""
import hashlib
import re
from functools import lru_cache
from pathlib import Path

from lib.reference import archive_read, canonical, counted_frames, entry_fault, framed

JOURNAL = re.compile(rb"journal\.(0|[1-9]\d*)")
SEGMENT = re.compile(rb"(mixed|undated|\d{4}-\d\d-\d\d)\.([0-9a-f]{64})\.archive")
OPEN, CLOSED, OLDER_CLOSED, HEAD, SEAL = 1, 254, 0, 5, 9
POLYNOMIAL = 0x82F63B78  # of CRC-32C, the low bits first


def remainder(octet):
    for _ in range(8):
        octet = octet >> 1 ^ POLYNOMIAL * (octet & 1)
    return octet


REMAINDERS = [remainder(octet) for octet in range(256)]


def crc32c(octets):
    register = 0xFFFFFFFF
    for octet in octets:
        register = register >> 8 ^ REMAINDERS[(register ^ octet) & 255]
    return register ^ 0xFFFFFFFF


def seal_of(text):
    """What stands behind the entries of a batch."""
    return b"#" + len(text).to_bytes(4, "little") + crc32c(text).to_bytes(4, "little")


@lru_cache(maxsize=65_536)
def is_sealed(body):
    """Whether a body ends with its seal."""
    return len(body) >= SEAL and body[-SEAL:] == seal_of(body[:-SEAL])


def open_batch(body):
    return bytes([OPEN]) + len(body).to_bytes(4, "little") + body


def bodies_of(journal):
    """The bodies of the batches that are open and whole at the beginning of a journal, and where they end."""
    bodies, at = [], 0
    while len(journal) - at >= HEAD and journal[at] == OPEN:
        end = at + HEAD + int.from_bytes(journal[at + 1:at + HEAD], "little")
        if end > len(journal):
            break
        bodies.append(journal[at + HEAD:end])
        at = end
    return bodies, at


def first_batch(octets):
    """The body whose length stands at the beginning, and what is behind it; None where it is not whole."""
    end = HEAD - 1 + int.from_bytes(octets[:HEAD - 1], "little")
    return (octets[HEAD - 1:end], octets[end:]) if HEAD - 1 <= len(octets) and end <= len(octets) else None


def begins_sealed(octets):
    """Whether a batch that is open, whole and sealed is at the beginning."""
    first = first_batch(octets[1:])
    return octets[:1] == bytes([OPEN]) and first is not None and is_sealed(first[0])


def hides_batches(tail):
    """Whether what is behind the batches of a journal is nothing that a crash leaves there."""
    if len(tail) < 2:
        return False
    if tail[0] not in (CLOSED, OLDER_CLOSED):
        return True
    first = first_batch(tail[1:])
    return first is not None and (tail[0] == OLDER_CLOSED and is_sealed(first[0]) or begins_sealed(first[1]))


def of_entries(text):
    """The records of a text, None where it is no sequence of entries."""
    frames, fault = counted_frames(text)
    return None if fault or any(entry_fault(frame, canonical) for frame in frames) else frozenset(frames)


@lru_cache(maxsize=65_536)
def of_batch(body):
    """The records of a batch, sealed or as older programs wrote it; None where it is damaged."""
    found = of_entries(body[:-SEAL]) if is_sealed(body) else None
    return of_entries(body) if found is None else found


def has_seal(body):
    """Whether a body is entries and their seal."""
    return is_sealed(body) and of_entries(body[:-SEAL]) is not None


def first_unsealed(bodies):
    """The number of the first batch without a seal behind one that has its own; None where there is none."""
    found = [n for n, body in enumerate(bodies) if n and has_seal(bodies[n - 1]) and not has_seal(body)]
    return found[0] if found else None


def of_journal(octets):
    """The records of a journal, None where it is damaged."""
    bodies, end = bodies_of(octets)
    parts = [of_batch(body) for body in bodies]
    if None in parts or first_unsealed(bodies) is not None or hides_batches(octets[end:]):
        return None
    return frozenset().union(*parts)


def day_of(record):
    time = record.split(b" ", 2)[1]
    return b"undated" if time == b"-" else time[:10]


def is_of(period, record):
    """Whether a record may be in a segment whose name begins so."""
    return period in (b"mixed", day_of(record))


@lru_cache(maxsize=65_536)
def of_segment(period, octets):
    """The records of a segment, None where it is no archive of records of its period."""
    records, fault = archive_read(octets)
    return None if fault or not all(is_of(period, one) for one in records) else frozenset(records)


def is_number(digits):
    return int(digits) < 2 ** 64


def held(files):
    """What a folder of files (octets by names) holds; None where a file is damaged."""
    found = set()
    for name, octets in files.items():
        journal, segment = JOURNAL.fullmatch(name), SEGMENT.fullmatch(name)
        parts = []
        if journal and is_number(journal.group(1)):
            parts = [of_journal(octets)]
        elif segment:
            parts = [of_segment(segment.group(1), octets) if is_named_right(name, octets) else None]
        if None in parts:
            return None
        found.update(*parts)
    return found


def segment_name(period, octets):
    return b"%b.%b.archive" % (period, hashlib.sha256(octets).hexdigest().encode())


def is_named_right(name, octets):
    """Whether a segment is the archive that its name says."""
    return SEGMENT.fullmatch(name).group(2) == hashlib.sha256(octets).hexdigest().encode()


def damage(name, octets):
    """What is wrong with a segment of this name first, in the words of `verify`; None of one that is whole."""
    period, at = SEGMENT.fullmatch(name).group(1), 0
    records, fault = archive_read(octets)
    for one in records:
        if not is_of(period, one):
            return f"day {at}"
        at += len(framed("counted", one))
    return fault or (None if is_named_right(name, octets) else "digest")


def files_of(path):
    """The files of a folder, octets by names, without those of the ledger (lib/ledger.py), which holds no records."""
    return {one.name.encode(): one.read_bytes() for one in Path(path).iterdir()
            if one.is_file() and one.name not in ("ledger", "lock.ledger")}

"""What an octet of hostile input costs, beside one of plain records."""
import os
import subprocess
from pathlib import Path

from hostile.records import CHARACTERS, ESCAPES, ORDERS, Maker, filled, ids
from lib import reference
from lib.reference import MARK

STREAMED = {"check", "convert", "show", "archive"}  # the commands that read standard input

PLAIN = (b"<165>1 2024-02-29T23:30:00.%06d+01:00 host%d.example.com sshd %d ID47 - Accepted publickey for root from 192.0.2.1 port %d "
         b"ssh2: session opened, all is well on this side of the line")
FRONT = b"<13>1 2024-02-29T23:30:00.000001Z h a - - "
STREAM = 1_000_000


def plain(maker):
    return [PLAIN % (n * 41 % 1_000_000, n % 97, n % 65_536, n * 7 % 65_536) for n in range(2_000)]


def shapes(maker):
    """Kinds of records that are hard to read, by name."""
    size = reference.FRAME_MAX
    yield "plain", plain(maker)
    for piece in ESCAPES:
        yield f"values of {piece!r}", [filled(FRONT + b'[a k="', [piece], b'"]', size)]
    yield "short values of escapes", [FRONT + b'[a k="\\n\\]\\"" l="\\\\"][b k="\\]"] m'] * 50
    for piece in CHARACTERS[:3] + [CHARACTERS[16], b"a\xc3\xa9", b"aaa\xf0\x9d\x84\x9e"]:
        yield f"values of {piece!r}", [filled(FRONT + b'[a k="', [piece], b'"]', size)]
        yield f"texts of {piece!r}", [filled(FRONT + b"- " + MARK, [piece], b"", size)]
    yield "messages", [filled(FRONT + b"- ", [b"a"], b"", size)]
    yield "parameters", [filled(FRONT + b"[a", [b' k=""'], b"]", size)]
    yield "parameters with escapes", [filled(FRONT + b"[a", [b' k="\\]"'], b"]", size)]
    yield "long names", [filled(FRONT + b"[a", [b" " + b"k" * 32 + b'="v"'], b"]", size)]
    for order in ORDERS:
        yield f"ids, {order}", [FRONT + ids((size - len(FRONT)) // 5 - 1, order, maker.random)]
    yield "ids of one octet, repeated", [FRONT + b"[a]" * 21_000]
    yield "ids of one octet that descend, repeated", [FRONT + b"[c][b]" * 10_000 + b"[a]"]
    yield "a hundred ids, scattered", [FRONT + ids(100, "scattered", maker.random)]
    yield "twenty ids of 32 octets", [FRONT + b"".join(b"[%b]" % (b"i" * 31 + bytes([122 - n])) for n in range(20))]
    yield "short records", [b"<0>1 - - - - - -"]
    yield "records of one word", [b"<0>1 - " + b"h" * 255 + b" - - - -"]
    yield "octets that are no record", [b"x" * 100]
    yield "changed records", [octets for octets in maker.frames(2_000) if b"\n" not in octets and octets]


def found(maker):
    """A shape by chance: a few pieces again and again, in one part of a record."""
    pieces = [maker.pick(ESCAPES + CHARACTERS) * maker.pick([1, 1, 2, 7]) for _ in range(1 + maker.below(3))]
    pieces = [piece.replace(b"\n", b"\t") for piece in pieces]
    size = maker.pick([200, 1_000, 9_000, reference.FRAME_MAX])
    kind = maker.below(4)
    if kind == 0:
        front, end = FRONT + b'[a k="', b'"]'
    elif kind == 1:
        front, end = FRONT + b"- " + MARK, b""
    elif kind == 2:
        pieces, front, end = [b' %b="%b"' % (maker.pick([b"k", b"long-name"]), b"".join(pieces))], FRONT + b"[a", b"]"
    else:
        front, end = FRONT + b"[z][y][a" + b' k="', b'"] x'
    return f"{pieces!r} in {front[len(FRONT):]!r}, {size} octets", [filled(front, pieces, end, size)]


class Costs:
    """Processor time per octet of each command, as a ratio to that of plain records."""

    def __init__(self, path, folder):
        self.path = path
        self.file = Path(folder) / "stream"
        self.plain = {}

    def once(self, words):
        with open(self.file, "rb") as octets:
            child = subprocess.Popen([self.path, *words], stdin=octets, stdout=subprocess.DEVNULL, stderr=subprocess.DEVNULL)
            _, status, used = os.wait4(child.pid, 0)
            child.returncode = os.waitstatus_to_exitcode(status)
        return used.ru_utime + used.ru_stime

    def seconds(self, words, octets):
        """The least time of some runs; fewer of a slow one."""
        self.file.write_bytes(octets)
        seen = [self.once(words)]
        while len(seen) < 5 and sum(seen) < 0.5:
            seen.append(self.once(words))
        return min(seen)

    def ratio(self, command, name, octets):
        """The time per octet beyond that of an empty input, over that of the plain stream, which comes first."""
        words = [command, "--framing", "lf"] if command in STREAMED else [command, str(self.file), *["/dev/null"] * (command == "merge")]
        took = (self.seconds(words, octets) - self.seconds(words, b"")) / len(octets)
        return took / self.plain.setdefault(command, took)


def lines(records):
    octets = b"".join(record + b"\n" for record in records)
    return octets * (1 + STREAM // len(octets))


def entries(maker):
    """Archives of large entries, by name, the plain one first; ids that do not ascend are no canonical record, but were one
    for migrate."""
    read = [reference.canonical(reference.read(record)) for record in plain(maker)]
    yield "plain", reference.archive_text(read * 2)
    size = reference.ENTRY_MAX
    count = (size - len(FRONT)) // 5 - 1
    for order in ORDERS:
        entry = FRONT + ids(count, order, maker.random)
        yield f"an entry of {count} ids, {order}", reference.counted([entry])
    entry = filled(FRONT + b'[a k="', [b"\\]"], b'"]', size)
    yield "an entry of escapes", reference.counted([entry])


def costs(path, folder, seed, tries):
    """The ratios of each command, greatest first, with the shapes that have them."""
    maker = Maker(seed, "costs")
    measured, worst = Costs(path, folder), {}
    for name, records in list(shapes(maker)) + [found(maker) for _ in range(tries)]:
        for command in ["check", "convert", "show", "archive"]:
            worst.setdefault(command, []).append((measured.ratio(command, name, lines(records)), name))
    for name, octets in entries(maker):
        for command in "merge", "migrate":
            worst.setdefault(command, []).append((measured.ratio(command, name, octets), name))
    return {command: sorted(seen, reverse=True) for command, seen in worst.items()}

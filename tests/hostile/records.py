"""Seeded records, streams and archives that are meant to find a reader wrong.

Records come from the corners of the grammar, some with a part that is just outside of it, and are then changed in a few
octets. The same seed gives the same octets.
"""
from random import Random

from lib import reference
from lib.reference import ENTRY_MAX, FRAME_MAX, MARK

PRINTABLE = bytes(range(33, 127))
NAMED = bytes(octet for octet in PRINTABLE if octet not in b'="]')
# the first and the last character of each row of UTF-8 (RFC 3629), and characters with a meaning here
CHARACTERS = [chr(point).encode() for point in (
    0x80, 0x7FF, 0x800, 0xFFF, 0x1000, 0xCFFF, 0xD000, 0xD7FF, 0xE000, 0xFEFF, 0xFFFF, 0x10000, 0x3FFFF, 0x40000, 0xFFFFF,
    0x100000, 0x10FFFF, 0, 9, 10, 13, 127)] + [b" ", b"=", b"[", b"a", b"x" * 15, b"y" * 16, b"z" * 17, b"<13>1 "]
ESCAPES = [b'\\"', b"\\\\", b"\\]", b"\\n", b"\\ ", b"\\\xc3\xa9", b"\\\xf0\x9d\x84\x9e", b"\\\x00", b"\\a"]
# octets that are no UTF-8: each row missed, and cut
NO_TEXT = [b"\x80", b"\xbf", b"\xc0\x80", b"\xc1\xbf", b"\xc2", b"\xc2\xc0", b"\xe0\x80\x80", b"\xe0\x9f\xbf", b"\xe2\x82",
           b"\xed\xa0\x80", b"\xed\xbf\xbf", b"\xf0\x80\x80\x80", b"\xf0\x8f\xbf\xbf", b"\xf0\x9f\x98", b"\xf4\x90\x80\x80",
           b"\xf5\x80\x80\x80", b"\xff", b"\xfe", b"\\\xff", b"\\\xe2\x82", b"]"]
# octets with a meaning in the grammar, which replace others more often than random ones do
MARKS = b'<>[]="\\ -:.TZ+0123456789ab\xef\xbb\xbf\xc3\xa9\x80\xff\n\r\x00\x7f'
ORDERS = ["ascending", "descending", "scattered", "one repeated", "many repeated"]


class Maker:
    """What is drawn from one seed."""

    def __init__(self, *seed):
        self.random = Random(repr(seed))
        self.wrong = 0.02  # how often a part is outside the grammar

    def pick(self, pool):
        return pool[int(self.random.random() * len(pool))]

    def chance(self, of):
        return self.random.random() < of

    def below(self, most):
        return int(self.random.random() * most)

    def some(self, octets, count):
        return bytes(self.random.choices(octets, k=count))

    # ------------------------------------------------------------ parts of a record

    def priority(self):
        if self.chance(self.wrong):
            return self.pick([b"", b"192", b"199", b"200", b"00", b"01", b"007", b"1000", b"-1", b"+1", b" 1", b"1 ", b"\xb2"])
        return self.pick([b"0", b"9", b"10", b"99", b"100", b"189", b"190", b"191", b"%d" % self.below(192)])

    def time(self):
        if self.chance(0.25):
            return b"-"
        wrong = self.chance(self.wrong * 2)
        year = self.pick([0, 1, 4, 100, 400, 1600, 1900, 1969, 1970, 2000, 2023, 2024, 9999, self.below(10_000)])
        month = self.pick([1, 2, 2, 12, 1 + self.below(12)])
        last = reference.days_of(year, month)
        day = self.pick([1, last, 1 + self.below(last)])
        hour, minute, second = self.pick([0, 23, self.below(24)]), self.pick([0, 59, self.below(60)]), self.pick([0, 59])
        if wrong:
            month, day, hour, minute, second = self.pick([
                (0, 1, 0, 0, 0), (13, 1, 0, 0, 0), (month, 0, 0, 0, 0), (month, last + 1, 0, 0, 0), (month, 32, 0, 0, 0),
                (month, day, 24, 0, 0), (month, day, 0, 60, 0), (month, day, 0, 0, 60), (month, day, 0, 0, 99)])
        text = b"%04d-%02d-%02dT%02d:%02d:%02d" % (year, month, day, hour, minute, second)
        fraction = self.pick([0, 0, 1, 2, 3, 5, 6, 6]) if not self.chance(self.wrong) else self.pick([7, -1])
        if fraction:
            text += b"." + self.some(b"0123456789", max(fraction, 0))
        return text + self.zone()

    def zone(self):
        if self.chance(self.wrong):
            return self.pick([b"", b"z", b"+24:00", b"-00:60", b"+0000", b"+00", b"Z ", b"\xc2\xb1"])
        return self.pick([b"Z", b"Z", b"+00:00", b"-00:00", b"+23:59", b"-23:59", b"+01:00", b"-08:30", b"+00:01", b"-00:01"])

    def word(self, most):
        if self.chance(0.4):
            return b"-"
        if self.chance(self.wrong):
            octets = self.some(PRINTABLE, 1 + self.below(4))
            return self.pick([b"", b"w" * (most + 1), octets + b"\x7f", octets + b"\xc3\xa9", b"\x00" + octets, octets + b" ",
                              octets + b"\x1f" + octets])
        length = self.pick([1, 1, 2, 3, 8, 15, 16, 17, most - 1, most, 1 + self.below(most)])
        return self.some(PRINTABLE, min(length, most))

    def name(self):
        if self.chance(self.wrong / 4):
            return self.pick([b"", b"n" * 33, b"a=b", b"a]", b'a"', b"a b", b"\x7f", b"\xc3\xa9"])
        return self.some(NAMED, self.pick([1, 1, 1, 2, 3, 15, 16, 17, 31, 32])) if self.chance(0.7) else self.pick(
            [b"a", b"b", b"-", b"k", b"aa", b"ab", b"a" * 32])

    def value(self):
        pieces = [self.pick(ESCAPES) if self.chance(0.4) else self.pick(CHARACTERS) for _ in range(self.pick([0, 0, 1, 2, 5, 12]))]
        if self.chance(self.wrong / 2):
            pieces.insert(self.below(len(pieces) + 1), self.pick(NO_TEXT))
        return b"".join(pieces)

    def element(self):
        params = b"".join(b' %b="%b"' % (self.name(), self.value()) for _ in range(self.pick([0, 0, 1, 1, 2, 4])))
        return b"[%b%b]" % (self.name(), params)

    def data(self):
        kind = self.random.random()
        if kind < 0.3:
            return b"-"
        if kind < 0.97:
            return b"".join(self.element() for _ in range(self.pick([1, 1, 2, 3, 5])))
        return ids(self.below(120), self.pick(ORDERS), self.random)

    def message(self):
        kind = self.below(9)
        if kind == 0:
            return b""
        text = b"".join(self.pick(CHARACTERS) for _ in range(self.below(6)))
        if kind == 1 and self.chance(self.wrong * 8):
            text += self.pick(NO_TEXT) + self.pick([b"", b"x"])
        return b" " + [MARK + text, MARK, MARK[:2], MARK[:1] + text, MARK + text, text, self.random.randbytes(self.below(9)),
                       text + b"\n", b""][kind]

    def record(self):
        """A record, or octets that are nearly one."""
        words = b" ".join(self.word(most) for most in (255, 48, 128, 32))
        version = self.pick([b"", b"0", b"2", b"10", b"1 "]) if self.chance(self.wrong / 2) else b"1"
        return b"<%b>%b %b %b %b%b" % (self.priority(), version, self.time(), words, self.data(), self.message())

    # ------------------------------------------------------------ changes

    def change(self, octets, others=(b"",), alphabet=MARKS):
        """The octets with one change."""
        at = self.below(len(octets) + 1)
        octet = bytes([self.pick(alphabet)]) if self.chance(0.7) else self.random.randbytes(1)
        kind = self.random.random()
        if kind < 0.4:
            return octets[:at] + octet + octets[at + 1:]
        if kind < 0.6:
            return octets[:at] + octet + octets[at:]
        if kind < 0.75:
            return octets[:at] + octets[at + 1:]
        if kind < 0.85:
            return octets[:at]
        end = at + self.below(24)
        if kind < 0.92:
            return octets[:at] + octets[at:end] + octets[at:]
        other = self.pick(others)
        return octets[:at] + other[self.below(len(other) + 1):]

    def frames(self, count):
        """Records and changed records, of some hundred octets each."""
        pool = [self.record() for _ in range(1 + count // 6)]
        frames = []
        while len(frames) < count:
            octets = self.pick(pool)
            for _ in range(self.pick([0, 0, 1, 1, 1, 2, 3])):
                octets = self.change(octets, pool)
            # no octets cannot be counted
            frames += [octets] if octets else []
        return frames

    # ------------------------------------------------------------ large records

    def filled(self, size):
        """A record of so many octets, most of them in one part."""
        front = b"<%d>1 %b h a p m " % (self.below(192), self.pick([b"-", b"2024-02-29T23:30:00.123456Z", b"2024-03-01T00:30:00+01:00"]))
        kind = self.below(6)
        if kind == 0:
            return filled(front + b"- ", self.random.choices(CHARACTERS, k=9), b"", size)
        if kind == 1:
            return filled(front + b"- " + MARK, self.random.choices(CHARACTERS, k=9), b"", size)
        if kind == 2:
            return filled(front + b'[a k="', [self.pick(ESCAPES)], b'"]', size)
        if kind == 3:
            return filled(front + b'[a k="', self.random.choices(ESCAPES + CHARACTERS, k=7), b'"]', size)
        if kind == 4:
            pieces = [b' %b="%b"' % (self.pick([b"k", b"l", b"k" * 32]), self.pick([b"", b"v", b"\\n"])) for _ in range(3)]
            return filled(front + b"[a", pieces, b"]", size)
        return front + ids((size - len(front)) // 5, self.pick(ORDERS), self.random)

    def large(self):
        """A record near the limit of a frame, changed or not."""
        size = FRAME_MAX + self.pick([-2, -1, 0, 0, 1, 2]) if self.chance(0.7) else 16 + self.below(FRAME_MAX)
        octets = self.filled(size)
        return self.change(octets) if self.chance(0.4) else octets

    # ------------------------------------------------------------ streams and archives

    def stream(self, frames, framing, large):
        """Some frames as a stream, with changes anywhere."""
        frames = [self.pick(frames) for _ in range(self.below(8))]
        if self.chance(0.1):
            frames.insert(self.below(len(frames) + 1), self.pick(large))
        octets = b"".join(reference.framed(framing, frame) for frame in frames)
        if self.chance(0.1):
            octets += self.pick([b"0", b"12345678901 ", b"9999999999 x", b"1234567890 ", b"1234567890", b"12345678901", b"00 ", b"x"])
        for _ in range(self.pick([0, 1, 1, 2])):
            octets = self.change(octets, [octets], b"0123456789 \n<x")
        return octets

    def archive(self, records):
        """An archive of some canonical records, changed or not."""
        text = reference.archive_text(self.pick(records) for _ in range(self.below(7)))
        kind = self.below(10)
        if kind == 0:
            return text[:self.below(len(text) + 1)]
        if kind == 1:
            return text + text
        if kind == 2:
            return text + reference.archive_text(self.pick(records) for _ in range(3))
        if kind == 3:
            return text + self.pick([b"0", b"1", b"x", b"%d " % (ENTRY_MAX + 1), b"%d " % ENTRY_MAX, b"9999999999 ", b"12345678901"])
        if kind == 4:
            return reference.counted(self.pick(records) for _ in range(4))
        if kind < 8:
            return self.change(text, [text], b"0123456789 <x")
        return text

    def entry(self):
        """A canonical record near the limit of an entry, or octets that are nearly one."""
        size = ENTRY_MAX + self.pick([-2, -1, 0, 0, 1]) if self.chance(0.5) else FRAME_MAX + self.below(ENTRY_MAX - FRAME_MAX)
        octets = self.filled(size)
        read = reference.read(octets)
        if not isinstance(read, bytes) and self.chance(0.7):
            octets = self.pick([reference.canonical, reference.canonical_unsorted])(read)
        return octets[:size] if self.chance(0.9) else self.change(octets)


def filled(front, pieces, end, size):
    """So many octets, where the pieces allow it: the front, the pieces again and again, and the end."""
    room = size - len(front) - len(end)
    turn = b"".join(pieces)
    octets = turn * (room // len(turn))
    for piece in pieces:
        if len(octets) + len(piece) <= room:
            octets += piece
    return front + octets + b"a" * (room - len(octets)) * (not front.endswith(b"[a")) + end


def id_of(n):
    """Three octets, another for each number below 804,357, ascending."""
    return bytes([NAMED[n // 8_281 % 91], NAMED[n // 91 % 91], NAMED[n % 91]])


def ids(count, order, random):
    """Elements without parameters, at least one, of so many ids."""
    count = max(count, 1)
    numbers = list(range(count))
    if order == "descending":
        numbers.reverse()
    elif order != "ascending":
        random.shuffle(numbers)
    if order == "one repeated":
        numbers.append(random.choice(numbers))
    elif order == "many repeated":
        numbers = [random.choice(numbers) for _ in numbers]
    return b"".join(b"[%b]" % id_of(n) for n in numbers)

"""Stores of two sites for tests: records of several kinds, pairs of sets that differ in some of them, and their files."""
import shutil
from pathlib import Path

from lib.reference import FRAME_MAX, archive_text, counted, timestamp
from lib.store_format import CLOSED, day_of, files_of, held, open_batch, seal_of, segment_name
from lib.stores import put_folder, record

INSTANT = 1_795_000_000_000_000  # in November 2026
JOURNAL_ROOM = 60_000  # octets of a batch
FRONT = b"f" * 3_000


def at_instants(random, number):
    """All records have one of six times."""
    return record(number, random, 40)


def at_one_instant(random, number):
    return b"<14>1 %b h a - - - %b%d" % (timestamp(INSTANT), random.choice([b"", b"x", b"xx"]), number)


def undated(random, number):
    return b"<%d>1 - h a - - - %d" % (random.randrange(192), number)


def in_turn(random, number):
    """The times ascend with the numbers, a few at a time."""
    return b"<14>1 %b h a - - - %d" % (timestamp(INSTANT + number // 3 * 60_000_000), number)


def with_long_fronts(random, number):
    """Records that differ behind some thousand octets alone."""
    return b"<14>1 %b h a - - - %b%d" % (timestamp(INSTANT), FRONT, number)


def long(random, number):
    """Records of up to the most octets that a frame has."""
    head = b"<14>1 %b h a - - - %d " % (timestamp(INSTANT + random.choice([0, number])), number)
    return head + b"x" * (random.choice([10, 5_000, 100_000, FRAME_MAX]) - len(head))


def beyond_frames(random, number):
    """Records of more octets than a frame has, as an entry may have, which differ behind all of these alone."""
    return b"<14>1 %b h a - - - %b %d" % (timestamp(INSTANT), b"b" * 300_000, number)


KINDS = [at_instants, at_one_instant, undated, in_turn]
LARGE_KINDS = [with_long_fronts, long, beyond_frames]


def some(random, kind, count):
    """So many records of a kind, no two of them equal."""
    return [kind(random, number) for number in range(count)]


def apart(random, records, differences, share=None):
    """Two sets, of which so many of these records are in one alone, and all others in both. A share of them is in the first."""
    alone = set(random.sample(records, min(differences, len(records))))
    if share is None:
        share = random.choice([0, 0.5, 0.5, 1])
    one = {octets for octets in alone if random.random() < share}
    return set(records) - (alone - one), set(records) - one


def parted(random, items, count):
    """Items in so many lists, some of them in two."""
    lists = [[] for _ in range(count)]
    for item in items:
        for chosen in random.sample(lists, 2 if count > 1 and random.random() < 0.05 else 1):
            chosen.append(item)
    return lists


def files(random, records):
    """The files of a store that holds these records: segments of days and of all days, and a journal."""
    found, records = {}, sorted(records)
    in_journal = []
    for octets in records[:200]:
        if random.random() < 0.3 and sum(map(len, in_journal)) + len(octets) < JOURNAL_ROOM:
            in_journal.append(octets)
    rest = sorted(set(records) - set(in_journal))
    for part in parted(random, rest, random.randint(1, 3)):
        days = {}
        for octets in part:
            days.setdefault(b"mixed" if random.random() < 0.3 else day_of(octets), []).append(octets)
        for period, those in days.items():
            text = archive_text(those)
            found[segment_name(period, text)] = text
    if in_journal or random.random() < 0.5:
        texts = [counted(part) for part in parted(random, in_journal, random.randint(1, 3)) if part]
        found[b"journal.1"] = b"".join(open_batch(text + seal_of(text)) for text in texts) + bytes([CLOSED])
    if not found:
        found[b"journal.0"] = bytes([CLOSED])
    return found


class Stores:
    """Folders of a test, each with a store."""

    def __init__(self, path):
        self.path, self.count = Path(path), 0

    def folder(self):
        """The path of a folder that is not there."""
        self.count += 1
        return self.path / f"site{self.count}"

    def put(self, of_files):
        return put_folder(self.folder(), of_files)

    def of(self, random, records):
        """A store that holds these records."""
        return self.put(files(random, records))

    @staticmethod
    def drop(*folders):
        for folder in folders:
            shutil.rmtree(folder, ignore_errors=True)


def records_of(store):
    """What a store holds, by the second reader; None where a file is damaged."""
    return held({name: octets for name, octets in files_of(store).items() if not name.startswith(b"lock")})

"""Sites that lie, beside `reconcile` and `answer`.

What an honest site said in a real exchange is changed at an octet, cut, repeated or put elsewhere; and sites are made that lie
on purpose: counts that are huge, ranges that do not ascend, parts that do not cover their range, archives that are none, lines
and messages without an end. Whatever comes, the program ends with status 0, 1 or 2 within its time and its memory, and its
store has all that it had, and beside it nothing but whole canonical records that the other site handed over.
"""
import argparse
import itertools
import os
import resource
import sys
import tempfile
import time
from random import Random

from lib.ledger import but_unlisted
from lib.program import Program, run
from lib.reference import FRAME_MAX, archive_text, counted, framed
from lib.results import Results
from lib.side_by_side import cores
from lib.site_stores import KINDS, Stores, apart, at_instants, files, in_turn, records_of, some
from lib.sites import (ANSWER_MAX, FIRST, PARTS_MAX, PLACE_MAX, RANGES_MAX, TEXT_MAX, UNDATED, Answerer, Asker, Part, Site, Sum, archive_message, asking, exchange,
                       part_text, parts_text, place_of, range_text, speaking)
from lib.store_format import files_of, segment_name
from lib.stores import put_folder

SEED = 42
CHANGED = 500  # in the part, of each side
MANY = 3_000  # records of sites whose first parts need finer ones
SIZE = 260  # records of the sites whose exchange is changed
MEMORY = 400 << 10  # KiB of address space
SECONDS = 20  # of processor time
LIMITS = ["sh", "-c", 'ulimit -v "$1"; ulimit -t "$2"; shift 2; exec "$@"', "sh", str(MEMORY), str(SECONDS)]
PATIENCE = 1  # seconds in which the other site has to say something
MUCH = 64 << 20  # octets after which an endless one leaves off
GREETINGS = {"reconcile": b"syslogbox answer 1\n", "answer": b"syslogbox reconcile 1\n"}
HUGE = 2 ** 64 - 1


def is_handed(record, text):
    """Whether octets have a record as an archive has it."""
    return framed("counted", record) in text


class Told:
    """A store, and what the program does with it when it is told anything."""

    def __init__(self, program, results, path, of_files):
        self.program, self.results, self.files = program, results, of_files
        self.store = put_folder(path, of_files)
        self.before = records_of(self.store)

    def is_right(self, name, status, handed, notes=b"", statuses=(0, 1, 2)):
        """The status, and what is held then; the store is made anew if it has changed."""
        self.results.check(f"{name}: status", status in statuses, f"{status} {notes}"[:600])
        now = files_of(self.store)
        if {one: octets for one, octets in now.items() if not one.startswith(b"lock")} == self.files:
            self.results.passed += 1
            return
        held = records_of(self.store)
        right = held is not None and held >= self.before and all(is_handed(one, handed) for one in held - self.before)
        self.results.check(f"{name}: what is held", right, "a damaged file" if held is None else str(sorted(held ^ self.before)[:3])[:600])
        seen = but_unlisted(self.program.run(["verify", str(self.store)]))
        self.results.check(f"{name}: verify", seen == (0, b"", b""), str(seen))
        Stores.drop(self.store)
        put_folder(self.store, self.files)

    def hear(self, name, command, octets, *words, statuses=(0, 1, 2)):
        """The program is told these octets, and then the other site goes."""
        words = [*LIMITS, self.program.path, command, str(self.store), *words]
        status, _, notes = run(words[0], words[1:], octets)
        self.is_right(name, status, octets, notes, statuses)


# ---------------------------------------------------------------- what an honest site says, changed

def changed(random, octets):
    """What was said, with a change; and what was changed."""
    at, end = random.randrange(len(octets)), random.randrange(len(octets) + 1)
    at, end = min(at, end), max(at, end)
    short = octets[at:at + random.choice([1, 2, 9, 80, 1_000])]
    other = bytes([random.choice([octets[at] ^ 1 << random.randrange(8), random.randrange(256), *b"0918 \n-a"])])
    kind = random.choice(["changed", "changed", "changed", "cut", "left out", "repeated", "put in", "moved", "two changed"])
    texts = {
        "changed": octets[:at] + other + octets[at + 1:],
        "cut": octets[:at],
        "left out": octets[:at] + octets[at + len(short):],
        "repeated": octets[:at] + short + octets[at:],
        "put in": octets[:at] + random.randbytes(random.choice([1, 1, 5, 300])) + octets[at:],
        "moved": octets[:at] + octets[at + len(short):end + len(short)] + short + octets[end + len(short):],
        "two changed": octets[:at] + other + octets[at + 1:end] + b"0" + octets[end + 1:],
    }
    return kind, at, texts[kind]


def at_lines(random, octets):
    """A place in a line of words, and not in an archive, as a rule."""
    lines = [n for n, octet in enumerate(octets) if octet == 10]
    at = random.choice(lines)
    return max(0, at - random.randrange(100))


def numbers_changed(random, octets):
    """What was said, with another number in one of its lines."""
    at = at_lines(random, octets)
    digits = [n for n in range(at, min(at + 200, len(octets))) if 48 <= octets[n] < 58]
    if not digits:
        return "changed", at, octets[:at] + b"7" + octets[at + 1:]
    first = last = digits[0]
    while last < len(octets) and 48 <= octets[last] < 58:
        last += 1
    value = int(octets[first:last])
    other = random.choice([0, 1, value + 1, max(0, value - 1), value * 10, 2 ** 32, 2 ** 63, HUGE, HUGE + 1, 10 ** 30])
    return f"the number {other}", first, octets[:first] + b"%d" % other + octets[last:]


def honest_talk(seed):
    """The files of two stores, and what the sites say that have their records."""
    random = Random(repr(("talk", seed)))
    sets = apart(random, some(random, at_instants, SIZE) + some(random, in_turn, SIZE), 60)
    outcome = exchange(speaking(Asker(Site(sets[0]))), speaking(Answerer(Site(sets[1]))))
    assert outcome[:2] == (0, 0)
    return [files(random, one) for one in sets], outcome


def all_changed(program, results, path, seed, count):
    """Each side is told what the other says, so many times with a change."""
    stores = Stores(path)
    for n, (of_files, outcome) in enumerate([honest_talk((seed, n)) for n in range(2)]):
        for who, (command, said) in enumerate([("reconcile", outcome.answers), ("answer", outcome.requests)]):
            told, random = Told(program, results, stores.folder(), of_files[who]), Random(repr(("changed", seed, n, command)))
            told.hear(f"{command} is told all", command, said, statuses=[0])
            for m in range(count // 2):
                kind, at, text = (changed if m % 3 else numbers_changed)(random, said)
                told.hear(f"{command} of seed {seed}, {n}: change {m}, {kind} at {at}", command, text, "--timeout", "5")


# ---------------------------------------------------------------- sites that lie when they answer

class Liar(Answerer):
    """A site that answers the first request of a kind in another way: `lie` is given what it would say, and gives octets, or
    pieces of them without an end."""

    def __init__(self, site, word, lie):
        super().__init__(site)
        self.word, self.lie, self.has_lied = word, lie, False

    def run(self, messages, say):
        self.say = say
        super().run(messages, lambda octets: octets and say(octets))

    def greeting(self):
        return self.lied(b"greeting", None, super().greeting())

    def answer(self, request):
        return self.lied(request.word, request, super().answer(request))

    def lied(self, word, request, honest):
        if word != self.word or self.has_lied:
            return honest
        self.has_lied = True
        pieces = self.lie(self.site, request, honest)
        if isinstance(pieces, bytes):
            return pieces
        for sent, piece in zip(itertools.count(), pieces):
            self.say(piece)
            if sent * len(piece) > MUCH:
                break
        return b""


def parts_of(site, request):
    """The parts of each range of a request."""
    return [site.parts(one, request.most) for one in request.ranges]


def of_parts(change):
    """A lie of parts, of a change of the honest ones."""
    def lie(site, request, _):
        cuts = [change(parts) for parts in parts_of(site, request)]
        return (b"" if request.word == b"parts" else b"cuts %d\n" % len(cuts)) + b"".join(map(parts_text, cuts))
    return lie


def with_range(part, low=None, high=None):
    return part._replace(range=(low or part.range[0], high or part.range[1]))


def with_sum(part, **other):
    return part._replace(sum=part.sum._replace(**other))


def middle(parts, change):
    """The parts with a change of one in the middle."""
    at = len(parts) // 2
    return parts[:at] + change(parts[at]) + parts[at + 1:]


LATE = (253_402_300_799_999_999, b"x")
# changes of parts that can never be so: they do not make up their range, or not so many records
PART_LIES = {
    "no parts": lambda parts: [],
    "a part is missing": lambda parts: middle(parts, lambda part: []),
    "the first part is missing": lambda parts: parts[1:],
    "the last part is missing": lambda parts: parts[:-1],
    "a part comes twice": lambda parts: middle(parts, lambda part: [part, part]),
    "all parts come twice": lambda parts: parts + parts,
    "the parts descend": lambda parts: parts[::-1],
    "a part begins early": lambda parts: middle(parts, lambda part: [with_range(part, low=FIRST)]) if len(parts) > 2 else parts[1:],
    "a part begins late": lambda parts: middle(parts, lambda part: [with_range(part, low=LATE, high=(LATE[0], b"xx"))]),
    "the last part has another end": lambda parts: parts[:-1] + [with_range(parts[-1], high=(LATE[0], b"xx"))],
}
# the same of finer parts alone, whose counts are known
CUT_LIES = {
    "a part has more records": lambda parts: middle(parts, lambda part: [with_sum(part, records=part.sum.records + 1)]),
    "a part has all numbers": lambda parts: middle(parts, lambda part: [with_sum(part, records=HUGE)]),
    "all parts have all numbers": lambda parts: [with_sum(part, records=HUGE) for part in parts],
    "a part is empty": lambda parts: [with_sum(parts[0], records=parts[0].sum.records + parts[1].sum.records),
                                      with_sum(parts[1], records=0), *parts[2:]],
    "one part": lambda parts: [Part((parts[0].range[0], parts[-1].range[1]), with_sum(parts[0], records=sum(p.sum.records for p in parts)).sum)],
}
# changes that no asker can find
QUIET_LIES = {
    "a digest is another": lambda parts: middle(parts, lambda part: [with_sum(part, digest=b"0" * 64)]),
    "all digests are others": lambda parts: [with_sum(part, digest=b"a" * 64) for part in parts],
    "octets are all that a number has": lambda parts: [with_sum(part, octets=HUGE) for part in parts],
    "no octets": lambda parts: [with_sum(part, octets=0) for part in parts],
}
# of the first parts, whose counts nobody knows
COUNT_LIES = {
    "the first counts are huge": lambda parts: [with_sum(part, records=HUGE, digest=b"b" * 64) for part in parts],
    "the first counts are none": lambda parts: [with_sum(part, records=0, digest=b"b" * 64) for part in parts],
    "the first counts are one": lambda parts: [with_sum(part, records=1, digest=b"b" * 64) for part in parts],
}


def first_part(octets):
    """An answer of one part, whose line is so."""
    return lambda *_: b"parts 1\n" + octets


GOOD_PART = part_text(Part((FIRST, None), Sum(0, 0, b"c" * 64)))
# texts in the place of the first parts
TEXTS = {
    "an empty line": lambda *_: b"\n",
    "no line": lambda *_: b"parts 1",
    "another word": lambda *_: b"archive 0\n",
    "a word more": lambda *_: b"parts 1 2\n" + GOOD_PART,
    "a word without a number": lambda *_: b"parts\n" + GOOD_PART,
    "a number with a zero": lambda *_: b"parts 01\n" + GOOD_PART,
    "a number with a sign": lambda *_: b"parts +1\n" + GOOD_PART,
    "too great a number": lambda *_: b"parts 18446744073709551617\n" + GOOD_PART,
    "all numbers": lambda *_: b"parts %d\n" % HUGE + GOOD_PART,
    "a part more than there may be": lambda *_: b"parts %d\n" % (PARTS_MAX + 1) + GOOD_PART,
    "two spaces": first_part(GOOD_PART.replace(b" ", b"  ", 1)),
    "a tabulator": first_part(GOOD_PART.replace(b" ", b"\t", 1)),
    "a carriage return": first_part(GOOD_PART.replace(b"\n", b"\r\n")),
    "a digest in capitals": first_part(GOOD_PART.replace(b"c" * 64, b"C" * 64)),
    "a short digest": first_part(GOOD_PART.replace(b"c" * 64, b"c" * 63)),
    "a long digest": first_part(GOOD_PART.replace(b"c" * 64, b"c" * 65)),
    "a low place without an end": first_part(b"part 0 0 %b open open\n" % (b"c" * 64)),
    "minus zero": first_part(b"part 0 0 %b -0 0  open\n" % (b"c" * 64)),
    "a time beyond all": first_part(b"part 0 0 %b - 0  9223372036854775808 0 \n" % (b"c" * 64)),
    "a time far before": first_part(b"part 0 0 %b -9223372036854775809 0  open\n" % (b"c" * 64)),
    "a place that is too long": first_part(b"part 0 0 %b - %d %b open\n" % (b"c" * 64, PLACE_MAX + 1, b"x" * (PLACE_MAX + 1))),
    "a place of all octets": first_part(b"part 0 0 %b - %d x open\n" % (b"c" * 64, HUGE)),
    "bounds that are one": first_part(b"part 0 0 %b - 0  - 0 \n" % (b"c" * 64)),
    "it failed": lambda *_: b"failed\n",
    "it refused": lambda *_: b"refused\n",
    "it is kept": lambda *_: b"kept\n",
}
LONELY = b"<14>1 2026-11-25T10:00:00.000000Z h a - - - nobody has this %d"
NEWS = [LONELY % n for n in range(3)]
LONG = b"<14>1 - h a - - - " + b"l" * (FRAME_MAX - 18)
# texts in the place of an archive that are none, or of another range
ARCHIVES = {
    "of no octets, where they come": lambda *_: b"archive 0\n" + counted(NEWS),
    "of more octets than come": lambda *_: b"archive 10000000\n" + counted(NEWS),
    "of all octets": lambda *_: b"archive %d\n" % HUGE + counted(NEWS),
    "of 64 MiB and more": lambda *_: b"archive %d\n" % (ANSWER_MAX + 1) + b"x" * (ANSWER_MAX + 1),
    "that does not ascend": lambda *_: archive_message(NEWS[::-1]),
    "with a record twice": lambda *_: archive_message([NEWS[0], NEWS[0]]),
    "with octets that are no record": lambda *_: archive_message([b"hello"]),
    "with a record in another form": lambda *_: archive_message([b"<14>1 2026-11-25T11:00:00+01:00 h a - - - x"]),
    "with a time that is none": lambda *_: archive_message([b"<14>1 2026-02-29T11:00:00.000000Z h a - - - x"]),
    "of lines": lambda *_: b"archive 20\n<13>1 - - - - - - a\n",
    "with a count that has a zero": lambda *_: b"archive 23\n019 <13>1 - - - - - - a",
    "with too long a record": lambda *_: archive_message([b"<14>1 - h a - - - " + b"l" * 600_000]),
    "and no more": lambda *_: b"archive 100\n",
    "that is none": lambda *_: b"archive\n",
    "that failed": lambda *_: b"failed\n",
}
# in the place of what is said to a put
KEPT = {"nothing is kept": lambda *_: b"failed\n", "it is refused": lambda *_: b"refused\n", "it is kept, and more": lambda *_: b"kept 4\n",
        "another word": lambda *_: b"archive 0\n", "an empty line": lambda *_: b"\n"}
GREETED = {"nothing": lambda *_: b"", "another version": lambda *_: b"syslogbox answer 2\n", "the asker's own": lambda *_: b"syslogbox reconcile 1\n",
           "a word more": lambda *_: b"syslogbox answer 1 write-only\n", "zeros": lambda *_: bytes(1_000), "failed": lambda *_: b"failed\n",
           "a banner": lambda *_: b"Welcome to other.example.org!\nsyslogbox answer 1\n"}


def forever(first, piece):
    """A piece again and again."""
    return lambda *_: itertools.chain([first], itertools.repeat(piece * (1 + 60_000 // len(piece))))


def parts_without_end(*_):
    """Parts that make up their range as far as they come."""
    yield b"parts %d\n" % PARTS_MAX
    for n in itertools.count():
        low = FIRST if n == 0 else (n, b"p" * 4_000)
        yield part_text(Part((low, (n + 1, b"p" * 4_000)), Sum(1, 4_000, b"d" * 64)))


ENDLESS = [(b"greeting", "a greeting without an end", forever(b"syslogbox answer 1", b"1")),
           (b"greeting", "zeros without an end", forever(b"", b"\0")),
           (b"parts", "a line without an end", forever(b"parts ", b"1")),
           (b"parts", "a place without an end", forever(b"parts 1\npart 1 1 %b - %d " % (b"c" * 64, HUGE), b"x")),
           (b"parts", "parts without an end", parts_without_end),
           (b"parts", "lines without an end", forever(b"parts 16\n", b"\n")),
           (b"get", "an archive without an end", forever(b"archive %d\n" % HUGE, counted(NEWS[:1]))),
           (b"get", "a record without an end", forever(b"archive %d\n" % TEXT_MAX, b"99999999 x")),
           (b"put", "words without an end", forever(b"", b"kept"))]


def deep(splits):
    """A site that has as many records as a number can say, and finer parts of any."""
    def lie(site, request, _):
        cuts = []
        for low, high in request.ranges:
            count = splits.get((low, high), 2 ** 62)
            at = (low[0], low[1] + b"\1")
            splits[low, at], splits[at, high] = count // 2, count - count // 2
            cuts.append([Part(one, Sum(splits[one], 10, b"e" * 64)) for one in ((low, at), (at, high))])
        return (b"" if request.word == b"parts" else b"cuts %d\n" % len(cuts)) + b"".join(map(parts_text, cuts))
    return lie


class Deep(Answerer):
    """A site whose parts always have finer ones, until it has said very much."""

    def __init__(self, site):
        super().__init__(site)
        self.lie, self.said = deep({}), 0

    def answer(self, request):
        if request.word not in (b"parts", b"split"):
            return super().answer(request)
        octets = self.lie(self.site, request, None)
        self.said += len(octets)
        return octets if self.said < MUCH // 4 else b"failed\n"


class Changing(Answerer):
    """A site whose set is another one at each request."""

    def __init__(self, sites):
        super().__init__(sites[0])
        self.sites = itertools.cycle(sites)

    def answer(self, request):
        self.site = next(self.sites)
        return super().answer(request)


class Slow(Answerer):
    """An honest site that says each octet on its own."""

    def run(self, messages, say):
        super().run(messages, lambda octets: [say(octets[n:n + 1]) for n in range(len(octets))])


class Beside:
    """The program asks sites that lie."""

    def __init__(self, program, results, path, seed):
        random = Random(repr(("liars", seed)))
        self.program, self.results, self.stores = program, results, Stores(path)
        self.own, self.other = apart(random, some(random, in_turn, MANY), 200, 0.5)
        self.told = Told(program, results, self.stores.folder(), files(random, self.own))

    def ask(self, name, liar, *words, statuses=(0, 1, 2), patience=PATIENCE):
        """It asks; the store then has what it had, and what the liar handed over."""
        asks = asking(self.program, self.told.store, "--timeout", patience, *words, front=LIMITS)
        outcome = exchange(asks, speaking(liar), seconds=40)
        self.told.is_right(f"beside a liar: {name}", outcome.asker, outcome.answers, outcome.asked, statuses)
        return outcome

    def all(self):
        site = lambda: Site(self.other)  # noqa: E731
        for name, lie in {**PART_LIES, **COUNT_LIES, **QUIET_LIES}.items():
            certain = name in PART_LIES
            self.ask(f"the first parts: {name}", Liar(site(), b"parts", of_parts(lie)), statuses=[2] if certain else (0, 1, 2))
        for name, lie in {**PART_LIES, **CUT_LIES, **QUIET_LIES}.items():
            certain = name not in QUIET_LIES
            self.ask(f"finer parts: {name}", Liar(site(), b"split", of_parts(lie)), statuses=[2] if certain else (0, 1, 2))
        for name, lie in TEXTS.items():
            self.ask(f"the first parts: {name}", Liar(site(), b"parts", lie), statuses=[2])
        for name, lie in ARCHIVES.items():
            self.ask(f"an archive {name}", Liar(site(), b"get", lie), statuses=[2])
        for name, lie in KEPT.items():
            self.ask(f"of what is put: {name}", Liar(site(), b"put", lie), statuses=(1, 2) if name == "it is refused" else [2])
        for name, lie in GREETED.items():
            self.ask(f"a greeting: {name}", Liar(site(), b"greeting", lie), statuses=[2])
        for word, name, lie in ENDLESS:
            self.ask(name, Liar(site(), word, lie), statuses=[2])
        self.others()

    def others(self):
        """Records of other ranges, sites that change, and finer parts without an end."""
        outside = Liar(Site(self.other), b"get", lambda *_: archive_message(sorted(NEWS, key=place_of)))
        self.ask("records of another range", outside, "--from", "2027-01-01", statuses=[0, 2])
        outside = Liar(Site({LONELY % 9}), b"get", lambda *_: archive_message([b"<14>1 - h a - - - undated", LONELY % 9]))
        outcome = self.ask("a record before the range", outside, "--from", "2026-11-25T00:00:00Z")
        self.results.check("a record before the range", outcome.asker == 2 or b"get" not in outside.seen, str(outcome)[:400])
        for words in [], ["--room", 1]:
            self.ask(f"finer parts without an end {words}", Deep(Site(self.other)), *words, statuses=[2])
        random = Random("changing")
        sites = [Site(random.sample(sorted(self.own | self.other), 700)) for _ in range(5)]
        self.ask("a site that changes", Changing(sites), patience=20)
        self.ask("a site that says octet by octet", Slow(Site(self.other)), statuses=[0], patience=20)


# ---------------------------------------------------------------- sites that lie when they ask

def a_range(low=FIRST, high=None):
    return range_text((low, high))


def ascending(count, size=1):
    """So many ranges that ascend."""
    return b"".join(a_range((n, b"a" * size), (n + 1, b"a" * size)) for n in range(count))


def at(micros):
    return micros, b""


# requests that an answerer refuses
REQUESTS = {
    "another word": b"hello\n",
    "an empty line": b"\n",
    "a word alone": b"parts\n",
    "a word more": b"parts 16 16\n" + a_range(),
    "zeros": bytes(1_000),
    "one part": b"parts 1\n" + a_range(),
    "no parts": b"parts 0\n" + a_range(),
    "seventeen parts": b"parts 17\n" + a_range(),
    "all parts": b"parts %d\n" % HUGE + a_range(),
    "a number with a zero": b"parts 016\n" + a_range(),
    "no range": b"parts 16\nget 0\n",
    "a time that no number has": b"parts 16\nrange 99999999999999999999999 0  open\n",
    "minus zero": b"parts 16\nrange -0 0  open\n",
    "two minus signs": b"parts 16\nrange --1 0  open\n",
    "a place that is too long": b"parts 16\n" + a_range((UNDATED, b"a" * (PLACE_MAX + 1))),
    "a place of all octets": b"parts 16\nrange - %d a open\n" % HUGE,
    "a low place without an end": b"parts 16\nrange open open\n",
    "two spaces": b"parts 16\nrange  - 0  open\n",
    "all ranges": b"get %d\n" % HUGE + a_range(),
    "too many ranges": b"get %d\n" % (RANGES_MAX + 1) + ascending(RANGES_MAX + 1),
    "ranges that descend": b"get 2\n" + a_range(at(5), at(6)) + a_range(at(3), at(4)),
    "ranges that overlap": b"get 2\n" + a_range(at(3), at(6)) + a_range(at(5), at(9)),
    "a range twice": b"split 16 2\n" + a_range(at(3), at(6)) * 2,
    "a range behind an open one": b"split 16 2\n" + a_range() + a_range(at(5)),
    "two open ranges": b"get 2\n" + a_range() * 2,
    "put of no octets, where they come": b"put 0\n" + counted(NEWS),
    "put of more octets than come": b"put 10000\n" + counted(NEWS),
    "put of all octets": b"put %d\n" % HUGE + counted(NEWS),
    "put of 16 MiB and more": b"put %d\n" % (TEXT_MAX + 1) + b"x" * (TEXT_MAX + 1),
    "put of records that descend": archive_message(NEWS[::-1], b"put"),
    "put of a record twice": archive_message([NEWS[0], NEWS[0]], b"put"),
    "put of what is no record": archive_message([b"hello"], b"put"),
    "put of a record in another form": archive_message([b"<14>1 2026-11-25T11:00:00+01:00 h a - - - x"], b"put"),
    "put of too long a record": archive_message([b"<14>1 - h a - - - " + b"l" * 600_000], b"put"),
    "put of good ones and a bad one": archive_message([*NEWS, b"~"], b"put"),
    "an answer": b"kept\n",
    "the asker's version again": GREETINGS["answer"],
}
# requests that are odd, and no lie
ODD = {
    "no end": b"",
    "an end, and more": b"end\nput 5\n",
    "two ends": b"end\nend\n",
    "no ranges": b"get 0\nend\n",
    "a time beyond all": b"parts 16\nrange 9223372036854775808 0  open\nend\n",
    "a time before all": b"parts 16\nrange -9223372036854775809 0  open\nend\n",
    "a long place": b"parts 16\n" + a_range((UNDATED, b"a" * PLACE_MAX)) + b"end\n",
    "as many ranges as may be": b"split 16 %d\n" % RANGES_MAX + ascending(RANGES_MAX, 900) + b"end\n",
    "all, again and again": (b"get 1\n" + a_range()) * 300 + b"end\n",
    "the same put, again and again": archive_message(NEWS, b"put") * 30 + b"end\n",
    "a put of nothing": b"put 0\nend\n",
    "a long record": archive_message([LONG], b"put") + b"end\n",
}


def asked(program, results, path, seed):
    """The program answers sites that lie."""
    random = Random(repr(("askers", seed)))
    told = Told(program, results, Stores(path).folder(), files(random, some(random, in_turn, 900)))
    for name, request in REQUESTS.items():
        told.hear(f"beside an asker: {name}", "answer", GREETINGS["answer"] + request + b"end\n", statuses=[2])
        told.hear(f"beside an asker, behind a good request: {name}", "answer",
                  GREETINGS["answer"] + b"parts 16\n" + a_range() + request + b"end\n", statuses=[2])
    for name, request in ODD.items():
        told.hear(f"beside an asker: {name}", "answer", GREETINGS["answer"] + request)
    for name, greeting in [("another version", b"syslogbox reconcile 2\n"), ("none", b""), ("a request", b"parts 16\n" + a_range())]:
        told.hear(f"an asker's version: {name}", "answer", greeting + archive_message(NEWS, b"put") + b"end\n", statuses=[2])
    told.hear("put to a site that takes nothing", "answer", GREETINGS["answer"] + archive_message(NEWS, b"put") + b"end\n", "--read-only")
    results.check("a site that takes nothing took nothing", records_of(told.store) == told.before)


def all_is_asked(program, results, path):
    """A store of more than an answer may have is asked for all of it at once: the exchange ends, and little memory is taken."""
    text = archive_text(b"<14>1 - h a - - - %05d " % n + b"a" * 100_000 for n in range(ANSWER_MAX // 100_000 + 30))
    store = put_folder(Stores(path).folder(), {segment_name(b"undated", text): text})
    words = [*LIMITS, program.path, "answer", str(store)]
    status, output, notes = run(words[0], words[1:], GREETINGS["answer"] + b"get 1\n" + a_range() + b"end\n")
    seen = status, len(output), output[-7:]
    results.check("all of a large store is asked for", status == 2 and len(output) < ANSWER_MAX and seen[2] == b"failed\n", f"{seen} {notes}")


def many_small_ranges(program, results, path):
    """As many ranges as may be are asked for again and again, of a store of many records: each request looks at each record in them
    once, and at no other."""
    store = put_folder(Stores(path).folder(), files(Random("many"), some(Random("many"), in_turn, 20_000)))
    words = [*LIMITS, program.path, "answer", str(store)]
    request = b"get %d\n" % RANGES_MAX + b"".join(a_range(at(n), at(n + 1)) for n in range(RANGES_MAX))
    begun = resource.getrusage(resource.RUSAGE_CHILDREN).ru_utime
    status, _, notes = run(words[0], words[1:], GREETINGS["answer"] + request * 60 + b"end\n")
    took = resource.getrusage(resource.RUSAGE_CHILDREN).ru_utime - begun
    results.check("many small ranges", status == 0 and took < 5, f"{status} {notes} {took:.1f} s")


class Sender(Answerer):
    """An asker that says these pieces, and looks at no answer."""

    def __init__(self, pieces):
        super().__init__(Site())
        self.pieces = pieces

    def run(self, messages, say):
        total = 0
        for piece in self.pieces:
            say(piece)
            total += len(piece)
            if total > MUCH:
                break


def puts():
    """Puts without an end, each of other records."""
    for n in itertools.count():
        yield archive_message([b"<14>1 - h a - - - %09d %b" % (n * 100 + m, b"p" * 900) for m in range(100)], b"put")


def asked_without_end(program, results, path, seed):
    """Lines, ranges and puts without an end."""
    random = Random(repr(("endless", seed)))
    told = Told(program, results, Stores(path).folder(), files(random, some(random, KINDS[0], 200)))
    hello = GREETINGS["answer"]
    for name, pieces in [("a line", forever(hello, b"parts ")()), ("a number", forever(hello + b"get ", b"1")()),
                         ("a place", forever(hello + b"parts 16\nrange - 524295 ", b"x")()), ("a version", forever(b"syslogbox ", b"reconcile ")()),
                         ("ranges", itertools.chain([hello + b"get %d\n" % HUGE], (a_range(at(n), at(n + 1)) for n in itertools.count()))),
                         ("puts", itertools.chain([hello], puts())),
                         ("a put", forever(hello + b"put %d\n" % HUGE, counted(NEWS[:1]))())]:
        words = ["--timeout", PATIENCE, "--room", 1]
        answers = asking(program, told.store, *words, front=LIMITS, command="answer")
        outcome = exchange(speaking(Sender(pieces)), answers, seconds=40)
        held = records_of(told.store)
        taken = len(archive_text((held or set()) - told.before))
        results.check(f"without an end: {name}: what is taken", held is not None and taken <= 1 << 20, str(taken))
        told.is_right(f"without an end: {name}", outcome.answerer, outcome.requests, outcome.told, [2])


# ---------------------------------------------------------------- the part, and many changes

def lying_sites(program, results, seed=SEED, count=CHANGED):
    for case in [lambda path: Beside(program, results, path, seed).all(), lambda path: asked(program, results, path, seed),
                 lambda path: asked_without_end(program, results, path, seed),
                 lambda path: all_is_asked(program, results, path), lambda path: many_small_ranges(program, results, path),
                 lambda path: all_changed(program, results, path, seed, count)]:
        with tempfile.TemporaryDirectory() as path:
            case(path)


def main(words):
    parser = argparse.ArgumentParser(prog="tests/run.py lying-sites", description=__doc__, formatter_class=argparse.RawDescriptionHelpFormatter)
    parser.add_argument("program", help="syslogbox")
    parser.add_argument("--cases", type=int, default=20_000, help="changes of each side, divided among the processes")
    parser.add_argument("--jobs", type=int, default=cores(), help="processes side by side")
    parser.add_argument("--seed", type=int, default=int(time.time()))
    chosen = parser.parse_args(words)
    program, results, running = Program(chosen.program), Results(), []
    print(f"seed {chosen.seed}", flush=True)
    begun = time.monotonic()
    lying_sites(program, results, chosen.seed, 0)
    for job in range(chosen.jobs):
        (reads, writes), parent = os.pipe(), os.fork()
        if parent == 0:
            own = Results()
            with tempfile.TemporaryDirectory() as path:
                all_changed(program, own, path, (chosen.seed, job), chosen.cases // chosen.jobs)
            os.write(writes, b"%d %d\n" % (own.passed, own.failed))
            os._exit(0)
        os.close(writes)
        running.append(reads)
    for reads in running:
        with open(reads, "rb") as stream:
            found = stream.read().split()
        results.check("a process of changes ended", len(found) == 2, str(found))
        results.passed, results.failed = results.passed + int(found[0]), results.failed + int(found[1])
    print(f"{chosen.cases} changes of each side in {time.monotonic() - begun:.0f} s", flush=True)
    return results.end()


if __name__ == "__main__":
    sys.exit(main(sys.argv[1:]))

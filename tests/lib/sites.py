"""A second implementation of both sites of an exchange (docs/SITES.md), for tests only and independent of the program: the
messages, a set of records that answers for ranges, the site that asks and the one that answers; and exchanges of either with
the program or with each other, over pipes on which everything that crosses is kept."""
import hashlib
import io
import os
import re
import subprocess
import tempfile
import threading
import time
from bisect import bisect_left, bisect_right
from collections import namedtuple

from lib.reference import ENTRY_MAX, LEAST, archive_read, counted, instant

PLACE_MAX = ENTRY_MAX  # octets of a place
TEXT_MAX = 16 << 20  # octets of records that are put, or got, at once, unless they are of one range
ANSWER_MAX = 64 << 20  # octets of an answer
RANGES_MAX, PARTS_MAX = 1_024, 16_384  # of a request, of an answer
MOST = 16  # parts of a range
SMALL = 64  # records of a range that is got whole
UNDATED = LEAST - 1  # stands for no time: before each time
FIRST = (UNDATED, b"")
ALL = (FIRST, None)
NUMBER = re.compile(rb"0|[1-9]\d*")
DIGEST = re.compile(rb"[0-9a-f]{64}")
AMOUNTS = rb"(\d+) records (\d+) octets, %b(\d+) records (\d+) octets, (\d+) requests$"
TOLD = re.compile(rb"^sent " + AMOUNTS % b"got ", re.MULTILINE)
WOULD = re.compile(rb"^would send " + AMOUNTS % b"would get ", re.MULTILINE)
ANSWERED = re.compile(rb"^got " + AMOUNTS % b"sent ", re.MULTILINE)

# what stands for records: how many, and the length and the SHA-256 of their archive
Sum = namedtuple("Sum", "records octets digest")
# what a site tells of a range (a low place, and a high one or None)
Part = namedtuple("Part", "range sum")
# what an asker has sent and got: records, octets of all messages, and requests
Traffic = namedtuple("Traffic", "sent sent_octets got got_octets requests")


class Wrong(Exception):
    """What the other site says cannot be so."""


class Ended(Exception):
    """The other site has ended in the middle."""


class Failed(Exception):
    """The other site says that it failed."""


# ---------------------------------------------------------------- places and sets

def place_of(record):
    """Where a canonical record stands: its time in microseconds, and its octets."""
    word = record.split(b" ", 2)[1]
    return (UNDATED if word == b"-" else instant(word), record)


def are_inside(records, ranges):
    """Whether each record is in one of these ranges, which ascend."""
    lows = [low for low, _ in ranges]
    for octets in records:
        place = place_of(octets)
        at = bisect_right(lows, place) - 1
        if at < 0 or ranges[at][1] is not None and place >= ranges[at][1]:
            return False
    return True


def sum_of(text, count):
    return Sum(count, len(text), hashlib.sha256(text).hexdigest().encode())


def common_length(one, other):
    """How many octets two texts begin with alike."""
    low, high = 0, min(len(one), len(other))
    while low < high:
        middle = (low + high + 1) // 2
        low, high = (middle, high) if one[low:middle] == other[low:middle] else (low, middle - 1)
    return low


def front(before, place):
    """The shortest front of a place that is behind another place."""
    if before[0] < place[0]:
        return place[0], b""
    return place[0], place[1][:common_length(before[1], place[1]) + 1]


class Site:
    """A set of canonical records. `short` says that bounds of parts are fronts of records, and not whole ones."""

    def __init__(self, records=(), short=True):
        self.places, self.short = sorted(set(map(place_of, records))), short

    def records(self):
        return {octets for _, octets in self.places}

    def within(self, ranged):
        """The records in a range, in order."""
        low, high = ranged
        end = len(self.places) if high is None else bisect_left(self.places, high)
        return [octets for _, octets in self.places[bisect_left(self.places, low):end]]

    def sum(self, ranged):
        found = self.within(ranged)
        return sum_of(counted(found), len(found))

    def bound(self, before, record):
        """A bound between two records; None where none is short enough."""
        place = place_of(record)
        found = front(place_of(before), place) if self.short else place
        return found if len(found[1]) <= PLACE_MAX else None

    def parts(self, ranged, most):
        """The parts of a range, at most so many, and at least two where there are several records."""
        low, high = ranged
        found = self.within(ranged)
        size, parts, at = max(1, -(-len(found) // most)), [], 0
        for n in range(size, len(found), size):
            bound = self.bound(found[n - 1], found[n])
            if bound is not None:
                parts.append(self.part((low, bound), found[at:n]))
                low, at = bound, n
        return parts + [self.part((low, high), found[at:])]

    @staticmethod
    def part(ranged, records):
        return Part(ranged, sum_of(counted(records), len(records)))

    def add(self, records):
        self.places = sorted({*self.places, *map(place_of, records)})


# ---------------------------------------------------------------- messages

def place_text(place):
    time_, octets = place
    return b"%b %d %b" % (b"-" if time_ == UNDATED else b"%d" % time_, len(octets), octets)


def range_words(ranged):
    low, high = ranged
    return place_text(low) + b" " + (b"open" if high is None else place_text(high))


def range_text(ranged):
    return b"range " + range_words(ranged) + b"\n"


def part_text(part):
    return b"part %d %d %b " % part.sum + range_words(part.range) + b"\n"


def parts_text(parts):
    return b"parts %d\n" % len(parts) + b"".join(map(part_text, parts))


def archive_message(records, word=b"archive"):
    text = counted(records)
    return b"%b %d\n" % (word, len(text)) + text


class Messages:
    """Reads what the other site says from a buffered stream."""

    def __init__(self, stream):
        self.stream, self.came = stream, 0

    def octets(self, count):
        found = self.stream.read(count)
        self.came += len(found)
        if len(found) < count:
            raise Ended(f"{len(found)} octets of {count}")
        return found

    def word(self, *ends, most=80):
        """The word up to one of these octets, and that octet."""
        found = bytearray()
        while True:
            octet = self.octets(1)
            if octet in ends:
                return bytes(found), octet
            found += octet
            if len(found) > most:
                raise Wrong(f"the word {bytes(found)!r}..")

    def expect(self, octets):
        found = self.octets(len(octets))
        if found != octets:
            raise Wrong(f"{found!r} for {octets!r}")

    def number(self, end=b" ", most=2 ** 64 - 1):
        word, _ = self.word(end)
        return number_of(word, most)

    def line(self):
        return self.word(b"\n", most=200)[0]

    def place(self, word, end):
        """A place whose first word was read."""
        if word == b"-":
            micros = UNDATED
        else:
            micros = number_of(word.removeprefix(b"-")) * (-1 if word.startswith(b"-") else 1)
            if word.startswith(b"-0"):
                raise Wrong(f"the time {word!r}")
        octets = self.octets(self.number(most=PLACE_MAX))
        self.expect(end)
        return micros, octets

    def ranged(self):
        """The low place and the high one, up to the end of the line."""
        low = self.place(self.word(b" ")[0], b" ")
        word, end = self.word(b" ", b"\n")
        if end == b"\n":
            if word != b"open":
                raise Wrong(f"the bound {word!r}")
            return low, None
        high = self.place(word, b"\n")
        if high <= low:
            raise Wrong("a bound that is not above the other")
        return low, high

    def ranges(self, count):
        """So many ranges of a request, which ascend."""
        found = []
        for _ in range(count):
            self.expect(b"range ")
            found.append(self.ranged())
            if len(found) > 1 and (found[-2][1] is None or found[-2][1] > found[-1][0]):
                raise Wrong("ranges that do not ascend")
        return found

    def answered(self, word):
        """The rest of an answer's first line, which begins with this word."""
        line = self.line()
        if line == b"failed":
            raise Failed
        if not (line + b" ").startswith(word + b" "):
            raise Wrong(f"{line!r} for {word!r}")
        return line[len(word) + 1:]

    def kept(self):
        """The answer to what was put."""
        if self.answered(b"kept"):
            raise Wrong("a word behind `kept`")

    def parts(self, room=PARTS_MAX):
        """Parts, up to so many."""
        found = []
        for _ in range(number_of(self.answered(b"parts"), room)):
            self.expect(b"part ")
            records, octets = self.number(), self.number()
            digest, _ = self.word(b" ")
            if not DIGEST.fullmatch(digest):
                raise Wrong(f"the digest {digest!r}")
            found.append(Part(self.ranged(), Sum(records, octets, digest)))
        return found

    def cuts(self, count):
        """Parts of each of so many ranges."""
        if number_of(self.answered(b"cuts"), RANGES_MAX) != count:
            raise Wrong("cuts of other ranges")
        found, room = [], PARTS_MAX
        for _ in range(count):
            found.append(self.parts(room))
            room -= len(found[-1])
        return found

    def archive(self, count, most=ANSWER_MAX):
        """The records of an archive of so many octets."""
        if count > most:
            raise Wrong(f"{count} octets")
        records, fault = archive_read(self.octets(count))
        if fault:
            raise Wrong(f"no archive: {fault}")
        return list(records)


def number_of(word, most=2 ** 64 - 1):
    if not NUMBER.fullmatch(word) or int(word) > most:
        raise Wrong(f"the number {word!r}")
    return int(word)


# ---------------------------------------------------------------- the site that answers

Request = namedtuple("Request", "word most ranges records")


def read_request(messages):
    """The next request, None where the exchange ends."""
    word, end = messages.word(b" ", b"\n")
    if (word, end) == (b"end", b"\n"):
        return None
    if end != b" " or word not in (b"parts", b"split", b"get", b"put"):
        raise Wrong(f"the request {word!r}")
    if word == b"put":
        return Request(word, None, [], messages.archive(messages.number(b"\n"), TEXT_MAX))
    most = None if word == b"get" else messages.number(b"\n" if word == b"parts" else b" ", MOST)
    if most is not None and most < 2:
        raise Wrong(f"at most {most} parts")
    count = 1 if word == b"parts" else messages.number(b"\n", RANGES_MAX)
    return Request(word, most, messages.ranges(count), [])


class Answerer:
    """The site that answers."""

    def __init__(self, site, read_only=False, room=2 ** 64):
        self.site, self.read_only, self.room = site, read_only, room
        self.seen = []  # the words of the requests

    def greeting(self):
        return b"syslogbox answer 1 read-only\n" if self.read_only else b"syslogbox answer 1\n"

    def answer(self, request):
        """The octets that answer a request."""
        site = self.site
        if request.word == b"parts":
            return parts_text(site.parts(request.ranges[0], request.most))
        if request.word == b"split":
            cuts = [site.parts(one, request.most) for one in request.ranges]
            return b"cuts %d\n" % len(cuts) + b"".join(map(parts_text, cuts))
        if request.word == b"get":
            return archive_message([octets for one in request.ranges for octets in site.within(one)])
        if self.read_only:
            return b"refused\n"
        self.room -= len(counted(request.records))
        if self.room < 0:
            raise Wrong("more than there is room for")
        site.add(request.records)
        return b"kept\n"

    def run(self, messages, say):
        """Answers until the other site ends the exchange, or is wrong."""
        try:
            if messages.line() != b"syslogbox reconcile 1":
                raise Wrong("another version")
            say(self.greeting())
            while (request := read_request(messages)) is not None:
                self.seen.append(request.word)
                octets = self.answer(request)
                if len(octets) > ANSWER_MAX:
                    raise Wrong("too much is asked for")
                say(octets)
        except Wrong:
            say(b"failed\n")
            raise


# ---------------------------------------------------------------- the site that asks

def is_chain(ranged, parts):
    """Whether parts have ranges, each from where the one before ends, from one bound of a range to the other."""
    at = ranged[0]
    for part in parts:
        if at is None or part.range[0] != at:
            return False
        at = part.range[1]
    return bool(parts) and at == ranged[1]


def is_cut(part, parts):
    """Whether these can be finer parts of a part."""
    counts = [one.sum.records for one in parts]
    return len(parts) >= 2 and is_chain(part.range, parts) and all(counts) and sum(counts) == part.sum.records


def groups(items, size, most, count):
    """Items in groups of at most so many, with sizes of at most so much together, or one."""
    found, room = [], 0
    for item in items:
        if not found or len(found[-1]) >= count or room + size(item) > most:
            found.append([])
            room = 0
        found[-1].append(item)
        room += size(item)
    return found


def entry_size(octets):
    return len(octets) + len(str(len(octets))) + 1


class Asker:
    """The site that asks."""

    def __init__(self, site, ranges=(ALL,), pulls=True, pushes=True, batch=RANGES_MAX):
        self.site, self.ranges, self.pulls, self.pushes, self.batch = site, ranges, pulls, pushes, batch
        self.sent, self.got, self.requests, self.said = [], [], 0, 0
        self.not_taken = 0

    def traffic(self):
        return Traffic(len(self.sent), self.said, len(self.got), self.messages.came, self.requests)

    def say(self, octets):
        self.said += len(octets)
        self.out(octets)

    def ask(self, *words):
        self.requests += 1
        self.say(b"".join(words))

    def run(self, messages, out):
        self.messages, self.out = messages, out
        self.say(b"syslogbox reconcile 1\n")
        line = messages.answered(b"syslogbox answer 1")
        if line not in (b"", b"read-only"):
            raise Wrong(f"the greeting {line!r}")
        self.read_only = line == b"read-only"
        for ranged in self.ranges:
            self.ask(b"parts %d\n" % MOST, range_text(ranged))
            pending = messages.parts()
            if not is_chain(ranged, pending):
                raise Wrong("parts of another range")
            while pending:
                pending = self.level(pending)
        self.say(b"end\n")

    def level(self, parts):
        """What a whole level of parts needs; gives the next one."""
        small, large = [], []
        for one in parts:
            if self.site.sum(one.range) != one.sum:
                is_large = one.sum.records > SMALL or one.sum.records > 1 and one.sum.octets > TEXT_MAX // 4
                (large if is_large else small).append(one)
        for some in groups(small, lambda one: one.sum.octets, TEXT_MAX, self.batch):
            self.settle(some)
        return [finer for some in groups(large, lambda one: 1, 2 ** 64, self.batch) for finer in self.finer(some)]

    def settle(self, parts):
        self.ask(b"get %d\n" % len(parts), *(range_text(one.range) for one in parts))
        got = self.messages.archive(number_of(self.messages.answered(b"archive")))
        if not are_inside(got, [one.range for one in parts]):
            raise Wrong("a record outside of the ranges")
        known, have = set(got), [one for part in parts for one in self.site.within(part.range)]
        self.got += got
        lacks = [one for one in have if one not in known]
        if self.pulls:
            self.site.add(got)
        if not self.pushes or self.read_only:
            self.not_taken += len(lacks) if self.read_only and self.pushes else 0
            return
        for some in groups(lacks, entry_size, TEXT_MAX, 2 ** 64):
            self.ask(archive_message(some, b"put"))
            self.messages.kept()
            self.sent += some

    def finer(self, parts):
        self.ask(b"split %d %d\n" % (MOST, len(parts)), *(range_text(one.range) for one in parts))
        cuts = self.messages.cuts(len(parts))
        if not all(map(is_cut, parts, cuts)):
            raise Wrong("no finer parts")
        return [one for cut in cuts for one in cut]


# ---------------------------------------------------------------- what crossed

def referee(requests, answers):
    """Reads both directions of a whole exchange, and gives its traffic. It is Wrong where either says what it may not, or an
    answer does not fit its request."""
    asked, told = (Messages(io.BytesIO(octets)) for octets in (requests, answers))
    if asked.line() != b"syslogbox reconcile 1":
        raise Wrong("the asker's version")
    if told.line() not in (b"syslogbox answer 1", b"syslogbox answer 1 read-only"):
        raise Wrong("the answerer's version")
    sent, got, count, sums = [], [], 0, {}
    while (request := read_request(asked)) is not None:
        count += 1
        if request.word == b"put":
            told.kept()
            sent += request.records
        elif request.word == b"get":
            found = told.archive(number_of(told.answered(b"archive")))
            if not are_inside(found, request.ranges):
                raise Wrong("a record outside of the ranges")
            got += found
        else:
            cuts = [told.parts()] if request.word == b"parts" else told.cuts(len(request.ranges))
            for ranged, parts in zip(request.ranges, cuts):
                known = sums.get(ranged)
                if not is_chain(ranged, parts) or len(parts) > request.most:
                    raise Wrong("parts that do not make up their range")
                if known and known.records > 1 and not is_cut(Part(ranged, known), parts):
                    raise Wrong("no finer parts")
                sums.update({part.range: part.sum for part in parts})
    for name, messages in ("asker", asked), ("answerer", told):
        if messages.stream.read(1):
            raise Wrong(f"the {name} goes on behind the end")
    return Traffic(len(sent), len(requests), len(got), len(answers), count)


# ---------------------------------------------------------------- exchanges

class Process:
    """The program as one of two sites."""

    def __init__(self, words, reads, writes, environment=None):
        self.notes_file = tempfile.TemporaryFile()
        self.process = subprocess.Popen(words, stdin=reads, stdout=writes, stderr=self.notes_file,
                                        env={**os.environ, **(environment or {})})
        os.close(reads)
        os.close(writes)

    def wait(self, finish):
        """The status; `not ended` where it is killed after that time."""
        try:
            return self.process.wait(max(0.0, finish - time.monotonic()))
        except subprocess.TimeoutExpired:
            self.kill()
            return "not ended"

    def kill(self):
        self.process.kill()
        self.process.wait()

    def notes(self):
        return os.pread(self.notes_file.fileno(), 1 << 20, 0)


class Spoken:
    """One of the sites of this file, as one of two. Its status is 0, or the name of what ended it."""

    def __init__(self, site, reads, writes):
        self.site, self.status, self.said = site, None, b""
        self.thread = threading.Thread(target=self.run, args=(reads, writes), daemon=True)
        self.thread.start()

    def run(self, reads, writes):
        with open(reads, "rb") as stream, open(writes, "wb", 0) as output:
            def say(octets):
                view = memoryview(octets)
                while view:
                    view = view[output.write(view):]
            try:
                self.site.run(Messages(stream), say)
                self.status = 0
            except (Wrong, Ended, Failed, OSError) as error:
                self.status, self.said = type(error).__name__, str(error).encode()

    def wait(self, finish):
        self.thread.join(max(0.0, finish - time.monotonic()))
        return "not ended" if self.thread.is_alive() else self.status

    def kill(self):
        """A thread ends with its pipes."""

    def notes(self):
        return self.said


class Line(threading.Thread):
    """One direction of a connection, in which all octets that cross are kept; `passes` is told of each piece before it goes
    on, and may hold it up."""

    def __init__(self, passes=None):
        super().__init__(daemon=True)
        (self.source, self.into), (self.out, self.sink) = os.pipe(), os.pipe()
        self.kept, self.passes = bytearray(), passes

    def run(self):
        try:
            while piece := os.read(self.source, 65_536):
                self.kept += piece
                if self.passes:
                    self.passes(piece)
                view = memoryview(piece)
                while view:
                    view = view[os.write(self.sink, view):]
        except OSError:
            pass  # the reader has gone
        os.close(self.source)
        os.close(self.sink)


def asking(program, store, *words, front=(), command="reconcile"):
    """The program as the site that asks; `front` are words before the program's."""
    return lambda reads, writes: Process([*front, program.path, command, str(store), *map(str, words)], reads, writes)


def answering(program, store, *words, front=()):
    """The program as the site that answers."""
    return asking(program, store, *words, front=front, command="answer")


def speaking(site):
    """An Asker or an Answerer of this file."""
    return lambda reads, writes: Spoken(site, reads, writes)


# statuses and notes of both sites, and what crossed
Outcome = namedtuple("Outcome", "asker answerer asked told requests answers")


def exchange(asker, answerer, seconds=60, requesting=None, replying=None, begun=None, lines=None):
    """Two sites meet. `requesting` and `replying` are told of each piece that crosses in that direction; `begun` is given both
    sites once they run; `lines` are other directions of the connection."""
    to, back = lines or (Line(requesting), Line(replying))
    finish = time.monotonic() + seconds
    sites = [asker(back.out, to.into), answerer(to.out, back.into)]
    if begun:
        begun(*sites)
    to.start()
    back.start()
    statuses = [one.wait(finish) for one in sites]
    for line in to, back:
        line.join(10)
    return Outcome(*statuses, *(one.notes() for one in sites), bytes(to.kept), bytes(back.kept))


def reconciled(program, one, other, words=(), answers=(), **more):
    """The program asks for the store `one`, and answers for the store `other`."""
    return exchange(asking(program, one, *words), answering(program, other, *answers), **more)


def told_traffic(notes, line=TOLD):
    """What an asker tells at the end; None where it does not. Of an answerer (ANSWERED) what it got is what the asker sent."""
    found = line.findall(notes)
    return Traffic(*map(int, found[0])) if len(found) == 1 else None

"""A second reader of syslog records (RFC 5424, section 6), of legacy packets (RFC 3164), of streams (RFC 6587, section 3.4)
and of archives, for tests only and independent of the program: what `check` says of octets, their canonical form, what
`show` prints, and what `convert`, `archive`, `merge` and `migrate` write and report.

One regular expression decides whether octets are a record, with the calendar and UTF-8 of Python. The offset of a
fault is the length of the longest prefix that some record begins with.
"""
import re
from datetime import date
from functools import cached_property, lru_cache

NAME = rb'[!#-<>-\\^-~]{1,32}'
VALUE = rb'(?:[^"\\\]]|\\.)*'
TIME = rb'(\d{4})-(\d\d)-(\d\d)T(\d\d):(\d\d):(\d\d)(?:\.(\d{1,6}))?(?:Z|([+-])(\d\d):(\d\d))'
PARAM = rb' (%b)="(%b)"' % (NAME, VALUE)
ELEMENT = rb'\[(%b)((?: %b="%b")*)\]' % (NAME, NAME, VALUE)
RECORD = re.compile(rb'<(0|[1-9]\d?|1[0-8]\d|19[01])>1 ([!-~]+) ([!-~]{1,255}) ([!-~]{1,48}) ([!-~]{1,128}) '
                    rb'([!-~]{1,32}) (-|(?:\[%b(?: %b="%b")*\])+)( .*)?' % (NAME, NAME, VALUE), re.DOTALL)
TIME_OF = re.compile(TIME)
PARAMS_OF = re.compile(PARAM, re.DOTALL)
ELEMENTS_OF = re.compile(ELEMENT, re.DOTALL)
MARK = b"\xef\xbb\xbf"

LEAST = -62_167_219_200_000_000
GREATEST = 253_402_300_799_999_999
EPOCH = date(1970, 1, 1).toordinal()
CYCLE = 146_097  # the days of 400 years

FACILITIES = ["kern", "user", "mail", "daemon", "auth", "syslog", "lpr", "news", "uucp", "cron", "authpriv", "ftp", "ntp",
              "audit", "alert", "clock"] + [f"local{n}" for n in range(8)]
SEVERITIES = ["emerg", "alert", "crit", "err", "warning", "notice", "info", "debug"]
FIELDS = ["timestamp", "hostname", "app-name", "procid", "msgid", "structured-data", "message"]


def is_utf8(octets):
    try:
        octets.decode()
        return True
    except UnicodeDecodeError:
        return False


# ---------------------------------------------------------------- records

def days_of(year, month):
    leap = year % 4 == 0 and year % 100 != 0 or year % 400 == 0
    return [31, 29 if leap else 28, 31, 30, 31, 30, 31, 31, 30, 31, 30, 31][month - 1]


def instant(text):
    """The microseconds since 1970 of a timestamp, which may be out of range; None where it is none."""
    seen = TIME_OF.fullmatch(text)
    if not seen:
        return None
    year, month, day, hour, minute, second = (int(part) for part in seen.groups()[:6])
    fraction, sign, ahead_hours, ahead_minutes = seen.groups()[6:]
    if not (1 <= month <= 12 and 1 <= day <= days_of(year, month) and hour < 24 and minute < 60 and second < 60):
        return None
    ahead = 0
    if sign:
        if int(ahead_hours) > 23 or int(ahead_minutes) > 59:
            return None
        ahead = int(sign + b"1") * (int(ahead_hours) * 60 + int(ahead_minutes))
    days = date(year or 400, month, day).toordinal() - EPOCH - (0 if year else CYCLE)
    micros = int((fraction or b"").ljust(6, b"0"))
    return (((days * 24 + hour) * 60 + minute - ahead) * 60 + second) * 1_000_000 + micros


def timestamp(micros):
    """The canonical timestamp of an instant."""
    days, rest = divmod(micros, 86_400_000_000)
    second, micro = divmod(rest, 1_000_000)
    ordinal = days + EPOCH
    day = date.fromordinal(ordinal if ordinal >= 1 else ordinal + CYCLE)
    year = day.year - (0 if ordinal >= 1 else 400)
    return (f"{year:04d}-{day.month:02d}-{day.day:02d}T{second // 3600:02d}:{second // 60 % 60:02d}:{second % 60:02d}"
            f".{micro:06d}Z").encode()


class Record:
    """The fields of well-formed octets, with the elements in the order in which they came."""

    def __init__(self, priority, micros, words, elements, message):
        self.priority = priority
        self.micros = micros
        self.words = words
        self.came = elements
        self.message = message

    @property
    def elements(self):
        """The elements by id."""
        return sorted(self.came)


def raw_elements(data):
    """The elements of structured data in the order of the octets, with the offset of each id in the data."""
    return [(seen.group(1), seen.start(1), PARAMS_OF.findall(seen.group(2))) for seen in ELEMENTS_OF.finditer(data)]


def unescaped(raw):
    return re.sub(rb'\\(["\\\]])', rb"\1", raw)


def parsed(octets):
    """The match of the octets where the grammar accepts them, else None."""
    seen = RECORD.fullmatch(octets)
    if not seen:
        return None
    time, data, tail = seen.group(2), seen.group(7), seen.group(8)
    if time != b"-" and instant(time) is None:
        return None
    if data != b"-" and not all(is_utf8(raw) for _, _, params in raw_elements(data) for _, raw in params):
        return None
    if tail and tail.startswith(b" " + MARK) and not is_utf8(tail[4:]):
        return None
    return seen


def repeated(seen):
    """The offset of the first id that repeats an earlier one, or None."""
    known = set()
    for name, at, _ in raw_elements(seen.group(7)):
        if name in known:
            return seen.start(7) + at
        known.add(name)
    return None


def read(octets):
    """The record, or the refusal as `check` prints it after the number."""
    seen = parsed(octets)
    if not seen:
        return syntax(octets)
    time = seen.group(2)
    micros = None if time == b"-" else instant(time)
    if micros is not None and not LEAST <= micros <= GREATEST:
        return f"instant-range {seen.start(2)}".encode()
    again = repeated(seen) if seen.group(7) != b"-" else None
    if again is not None:
        return f"repeated-id {again}".encode()
    elements = [(name, [(param, unescaped(raw)) for param, raw in params]) for name, _, params in raw_elements(seen.group(7))]
    return Record(int(seen.group(1)), micros, seen.groups()[2:6], elements, (seen.group(8) or b"")[1:])


# ---------------------------------------------------------------- what is printed

def canonical(record):
    """The canonical octets."""
    return written(record, record.elements)


def canonical_unsorted(record):
    """The canonical octets of before elements were kept by id: they stand in the order in which they came."""
    return written(record, record.came)


def written(record, elements):
    time = b"-" if record.micros is None else timestamp(record.micros)
    data = b"".join(
        b"[%b%b]" % (name, b"".join(b' %b="%b"' % (param, re.sub(rb'(["\\\]])', rb"\\\1", value)) for param, value in params))
        for name, params in elements)
    prefix = b"<%d>1 %b %b %b" % (record.priority, time, b" ".join(record.words), data or b"-")
    return prefix + b" " + record.message if record.message else prefix


def shown(octets):
    return b"".join(bytes([octet]) if 32 <= octet <= 126 and octet not in b'"\\' else b"\\x%02x" % octet for octet in octets)


def show(number, record):
    """The lines of `show`."""
    lines = [b"record %d" % number,
             f"priority {record.priority} {FACILITIES[record.priority // 8]} {SEVERITIES[record.priority % 8]}".encode(),
             b"time " + (b"-" if record.micros is None else timestamp(record.micros))]
    lines += [label + b" " + word for label, word in zip([b"host", b"app", b"proc", b"msgid"], record.words)]
    for name, params in record.elements:
        lines.append(b"element " + name)
        lines += [b'param %b "%b"' % (param, shown(value)) for param, value in params]
    marked = record.message.startswith(MARK)
    text = record.message[3:] if marked else record.message
    lines.append(b'message %b "%b"' % (b"utf8" if marked else b"any", shown(text)))
    return b"".join(line + b"\n" for line in lines)


# ---------------------------------------------------------------- the offset of a fault

def syntax(octets):
    """The refusal of octets outside the grammar."""
    field, offset = fault(octets)
    return f"syntax {field} {offset}".encode()


PREFIX = re.compile(rb'(?:<(?:(?:1[0-8]\d|19[01]|[1-9]\d|\d)(?:>(?:1(?: )?)?)?)?)?')


def fault(octets):
    """The field, and the length of the longest prefix that some record begins with."""
    at = PREFIX.match(octets).end()
    prefix = octets[:at]
    if not prefix.endswith(b" "):
        return ("version" if b">" in prefix else "priority"), at
    at, whole = (at + 1, True) if octets[at:at + 1] == b"-" else time_offset(octets, at)
    if not whole or octets[at:at + 1] != b" ":
        return "timestamp", at
    for field, most in zip(FIELDS[1:5], [255, 48, 128, 32]):
        begin = at + 1
        at = re.compile(rb"[!-~]{0,%d}" % most).match(octets, begin).end()
        if at == begin or octets[at:at + 1] != b" ":
            return field, at
    at, whole = (at + 2, True) if octets[at + 1:at + 2] == b"-" else elements_offset(octets, at + 1)
    if not whole or octets[at:at + 1] != b" ":
        return "structured-data", at
    assert octets[at + 1:at + 4] == MARK
    return "message", utf8_offset(octets, at + 4)


def days_first(prefix):
    """The digits that can begin the day after `YYYY-MM-`."""
    return b"012" if prefix[5:7] == b"02" else b"0123"


def days_second(prefix):
    last = days_of(int(prefix[:4]), int(prefix[5:7]))
    return bytes(octet for octet in b"0123456789" if 1 <= int(prefix[8:9] + bytes([octet])) <= last)


DIGITS = b"0123456789"
# what can be at each offset of `YYYY-MM-DDThh:mm:ss`: octets, or a function of the octets before it
CLOCK = [DIGITS, DIGITS, DIGITS, DIGITS, b"-", b"01", lambda prefix: b"123456789" if prefix[5:6] == b"0" else b"012", b"-",
         days_first, days_second, b"T", b"012", lambda prefix: DIGITS if prefix[11:12] != b"2" else b"0123", b":", b"012345",
         DIGITS, b":", b"012345", DIGITS]
AHEAD = [b"012", lambda prefix: DIGITS if prefix[0:1] != b"2" else b"0123", b":", b"012345", DIGITS]


def follow(pattern, octets, begin):
    """How far the octets follow the pattern, and whether to its end."""
    for n, expected in enumerate(pattern):
        can = expected if isinstance(expected, bytes) else expected(octets[begin:begin + n])
        octet = octets[begin + n:begin + n + 1]
        if not octet or octet not in can:
            return begin + n, False
    return begin + len(pattern), True


def time_offset(octets, begin):
    at, whole = follow(CLOCK, octets, begin)
    if not whole:
        return at, False
    if octets[at:at + 1] == b".":
        begin = at + 1
        at = re.compile(rb"\d{0,6}").match(octets, begin).end()
        if at == begin:
            return at, False
    sign = octets[at:at + 1]
    if sign == b"Z":
        return at + 1, True
    return follow(AHEAD, octets, at + 1) if sign in (b"+", b"-") else (at, False)


NAME_PREFIX = re.compile(rb'[!#-<>-\\^-~]{0,32}')
VALUE_PREFIX = re.compile(VALUE, re.DOTALL)


def elements_offset(octets, at):
    """The offset up to which there are elements, and whether they are whole; at least one is required."""
    whole = False
    while octets[at:at + 1] == b"[":
        at, whole = element_offset(octets, at + 1)
        if not whole:
            return at, False
    return at, whole


def element_offset(octets, begin):
    at = NAME_PREFIX.match(octets, begin).end()
    if at == begin:
        return at, False
    while octets[at:at + 1] == b" ":
        at, whole = param_offset(octets, at + 1)
        if not whole:
            return at, False
    return (at + 1, True) if octets[at:at + 1] == b"]" else (at, False)


def param_offset(octets, begin):
    at = NAME_PREFIX.match(octets, begin).end()
    if at == begin:
        return at, False
    for octet in (b"=", b'"'):
        if octets[at:at + 1] != octet:
            return at, False
        at += 1
    end = VALUE_PREFIX.match(octets, at).end()
    stop = utf8_offset(octets, at)
    if stop <= end and not is_utf8(octets[at:end]):
        return stop, False
    if octets[end:end + 1] == b'"':
        return end + 1, True
    return (len(octets) if octets[end:] == b"\\" else end), False


# RFC 3629, section 4: the first octets, and what can follow them
FOLLOWERS = ([(range(0xC2, 0xE0), [range(0x80, 0xC0)]), (range(0xE0, 0xE1), [range(0xA0, 0xC0), range(0x80, 0xC0)]),
              (range(0xED, 0xEE), [range(0x80, 0xA0), range(0x80, 0xC0)]),
              (range(0xE1, 0xF0), [range(0x80, 0xC0)] * 2),
              (range(0xF0, 0xF1), [range(0x90, 0xC0)] + [range(0x80, 0xC0)] * 2),
              (range(0xF1, 0xF4), [range(0x80, 0xC0)] * 3),
              (range(0xF4, 0xF5), [range(0x80, 0x90)] + [range(0x80, 0xC0)] * 2)])


def utf8_offset(octets, begin):
    """The offset up to which the octets are UTF-8."""
    try:
        octets[begin:].decode()
        return len(octets)
    except UnicodeDecodeError as error:
        at = begin + error.start
    for first, followers in FOLLOWERS:
        if octets[at] in first:
            for n, can in enumerate(followers, 1):
                if at + n >= len(octets) or octets[at + n] not in can:
                    return at + n
    return at


# ---------------------------------------------------------------- legacy packets (RFC 3164, section 4)

MONTHS = [b"Jan", b"Feb", b"Mar", b"Apr", b"May", b"Jun", b"Jul", b"Aug", b"Sep", b"Oct", b"Nov", b"Dec"]
PRIVAL = rb"<(0|[1-9]\d?|1[0-8]\d|19[01])>"
NEW_FORM = re.compile(PRIVAL + rb"1 ")
PACKET = re.compile(PRIVAL + rb"(.*)", re.DOTALL)
STAMPED = re.compile(rb"(%b) ( [1-9]|\d\d) ([01]\d|2[0-3]):([0-5]\d):([0-5]\d) (.*)" % b"|".join(MONTHS), re.DOTALL)
HOSTED = re.compile(rb"([!-~]+)(?: (.*))?", re.DOTALL)
NAMED = rb"([A-Za-z0-9_./-]{1,48})"
BRACKETED = NAMED + rb"\[([!-\\^-~]{1,128})\]"
TAGGED = re.compile(rb"([A-Za-z0-9_./-]{1,48})(?:\[([!-\\^-~]{1,128})\])?: ?(.*)", re.DOTALL)

# the wide dialect: a time by its shape, whatever date and time of day it says
OF_DAY = rb"(\d\d):(\d\d):(\d\d)"
FRACTION = rb"(?:\.(\d{1,6}))?"
OWN = re.compile(rb"[*.]?(%b):? (.*)" % re.sub(rb"\((?!\?)", b"(?:", TIME), re.DOTALL)
MONTH_DAY = rb"(%b) ( \d|\d\d)" % b"|".join(MONTHS)
WITH_MONTH = [(re.compile(rb"[*.]?%b %b%b:? (.*)" % (shape, OF_DAY, FRACTION), re.DOTALL), places) for shape, places in [
    (MONTH_DAY, (None, 1, 2)), (MONTH_DAY + rb" (\d{4})", (3, 1, 2)), (rb"(\d{4}) " + MONTH_DAY, (1, 2, 3))]]
WORD = re.compile(rb"[!-~]*")
TAG_WORD = re.compile(NAMED + rb":|" + BRACKETED + rb":?")
SPACED = re.compile(BRACKETED + rb" (.*)", re.DOTALL)


def civil(year, month, day, clock, micros, ahead):
    """The instant of a civil time so many minutes ahead of UTC, None where there is none or it is out of range."""
    hour, minute, second = (int(part) for part in clock)
    if not (1 <= day <= days_of(year, month) and hour < 24 and minute < 60 and second < 60):
        return None
    days = date(year or 400, month, day).toordinal() - EPOCH - (0 if year else CYCLE)
    found = (((days * 24 + hour) * 60 + minute - ahead) * 60 + second) * 1_000_000 + micros
    return found if LEAST <= found <= GREATEST else None


def stamped(text, year, ahead):
    """The instant of a packet's time and what follows it; None and all of the text where it has no time."""
    seen = STAMPED.fullmatch(text)
    micros = seen and civil(year, MONTHS.index(seen.group(1)) + 1, int(seen.group(2)), seen.groups()[2:5], 0, ahead)
    return (None, text) if micros is None else (micros, seen.group(6))


def stamped_wide(text, year, ahead):
    """The same in the wide dialect."""
    seen = OWN.fullmatch(text)
    if seen:
        micros = instant(seen.group(1))
        return (micros, seen.group(2)) if micros is not None and LEAST <= micros <= GREATEST else (None, text)
    for shape, (at_year, at_month, at_day) in WITH_MONTH:
        seen = shape.fullmatch(text)
        if seen:
            *_, hour, minute, second, fraction, rest = seen.groups()
            micros = civil(int(seen.group(at_year)) if at_year else year, MONTHS.index(seen.group(at_month)) + 1,
                           int(seen.group(at_day)), (hour, minute, second), int((fraction or b"").ljust(6, b"0")), ahead)
            return (None, text) if micros is None else (micros, rest)
    return None, text


def tagged(text):
    """The name and the process id of a tag and the message behind it, or nil and all."""
    tag = TAGGED.fullmatch(text)
    return (tag.group(1), tag.group(2) or b"-", tag.group(3)) if tag else (b"-", b"-", text)


def tagged_wide(text):
    """The same in the wide dialect."""
    tag = SPACED.fullmatch(text)
    return tag.groups() if tag else tagged(text)


def addressed(text, read_tag=tagged):
    """The host, the name and the process id of what follows the time, nil where there is none, and the message."""
    seen = HOSTED.fullmatch(text)
    if not seen or len(seen.group(1)) > 255:
        return b"-", b"-", b"-", text
    return seen.group(1), *read_tag(seen.group(2) or b"")


def addressed_wide(text):
    """The same in the wide dialect: a word that is a tag, or ends in a colon, is no host."""
    word = WORD.match(text).group()
    if TAG_WORD.fullmatch(word):
        return b"-", *tagged_wide(text)
    return (b"-", b"-", b"-", text) if word.endswith(b":") else addressed(text, tagged_wide)


def legacy(octets, year, ahead, dialect="bsd"):
    """The record of a frame under a clock, ahead of UTC by so many minutes, or the refusal as `check` prints it."""
    if NEW_FORM.match(octets):
        return read(octets)
    read_time, read_rest = (stamped, addressed) if dialect == "bsd" else (stamped_wide, addressed_wide)
    seen = PACKET.fullmatch(octets)
    text = seen.group(2) if seen else octets
    if seen and dialect == "wide" and text.startswith(b" "):
        text = text[1:]
    micros, rest = read_time(text, year, ahead) if seen else (None, octets)
    host, app, proc, message = read_rest(rest) if micros is not None else (b"-", b"-", b"-", rest)
    if message.startswith(MARK) and not is_utf8(message[3:]):
        return b"legacy-not-utf8 %d" % utf8_offset(octets, len(octets) - len(message) + 3)
    return Record(int(seen.group(1)) if seen else 13, micros, (host, app, proc, b"-"), [], message)


# ---------------------------------------------------------------- streams

FRAME_MAX = 262_144
COUNT = re.compile(rb"([1-9]\d{0,9}) ")
COUNT_PREFIX = re.compile(rb"(?:[1-9]\d{0,9})?")


def counted_frames(octets):
    """The frames, None for one that is too long, and the line on how the stream ends, if there is one."""
    frames, at = [], 0
    while at < len(octets):
        seen = COUNT.match(octets, at)
        if not seen:
            stop = COUNT_PREFIX.match(octets, at).end()
            return frames, f"unterminated {at}" if stop == len(octets) else f"{len(frames) + 1} bad-count {stop}"
        count = int(seen.group(1))
        if len(octets) - seen.end() < count:
            return frames, f"unterminated {at}"
        frames.append(octets[seen.end():seen.end() + count] if count <= FRAME_MAX else None)
        at = seen.end() + count
    return frames, None


def line_frames(octets):
    *lines, rest = octets.split(b"\n")
    frames = [line if len(line) <= FRAME_MAX else None for line in lines]
    return frames, f"unterminated {len(octets) - len(rest)}" if rest else None


def framed(framing, octets):
    return b"%d %b" % (len(octets), octets) if framing == "counted" else octets + b"\n"


def counted(records):
    """Records as counted frames, as they stand in an archive."""
    return b"".join(framed("counted", one) for one in records)


def frames_of(octets, framing):
    """The frames of an input, None for one that is too long, and the line on how it ends, if there is one."""
    if framing == "datagram":
        return [octets if len(octets) <= FRAME_MAX else None], None
    return counted_frames(octets) if framing == "counted" else line_frames(octets)


class Answers:
    """What each command writes and reports on an input: the outcome of each frame is its record, or the line on it."""

    def __init__(self, octets, framing, outcome=read):
        self.framing = framing
        frames, stop = frames_of(octets, framing)
        self.outcomes = [b"too-long" if frame is None else outcome(frame) for frame in frames]
        self.stop = [stop.encode()] if stop else []

    def refused(self):
        return [b"%d %b" % (n, one) for n, one in enumerate(self.outcomes, 1) if isinstance(one, bytes)] + self.stop

    def records(self):
        return [(n, one) for n, one in enumerate(self.outcomes, 1) if not isinstance(one, bytes)]

    @cached_property
    def forms(self):
        """The canonical octets of each record, by its number."""
        return {n: canonical(one) for n, one in self.records()}

    def check(self):
        lines = [b"%d %b" % (n, one if isinstance(one, bytes) else b"ok") for n, one in enumerate(self.outcomes, 1)]
        return answer(lines_of(lines + self.stop), b"", self.refused())

    def convert(self, to=None):
        to = to or self.framing
        output, lines = [], []
        for n, one in enumerate(self.outcomes, 1):
            if isinstance(one, bytes):
                lines.append(b"%d %b" % (n, one))
                continue
            octets = self.forms[n]
            if to == "datagram":
                output.append(octets)
            elif to == "lf" and b"\n" in octets:
                lines.append(b"%d has-lf" % n)
            elif len(octets) > FRAME_MAX:
                lines.append(b"%d canonical-too-long" % n)
            else:
                output.append(framed(to, octets))
        lines += self.stop
        return answer(b"".join(output), lines_of(lines), lines)

    def show(self):
        return answer(b"".join(show(n, one) for n, one in self.records()), lines_of(self.refused()), self.refused())

    def archive(self):
        return answer(archive_text(self.forms.values()), lines_of(self.refused()), self.refused())


def lines_of(lines):
    return b"".join(line + b"\n" for line in lines)


def answer(output, notes, refused):
    """Status, output and notes."""
    return int(bool(refused)), output, notes


# ---------------------------------------------------------------- archives

ENTRY_MAX = 2 * FRAME_MAX + 7


def place(octets):
    """Where canonical octets stand in an archive: none before each instant, then by instant, then by octets."""
    time = octets.split(b" ", 2)[1]
    return b"" if time == b"-" else time, octets


def archive_text(records):
    """The archive of canonical records."""
    return counted(sorted(set(records), key=place))


@lru_cache(maxsize=512)
def entry_fault(octets, form):
    """Why octets are no entry of an archive, with a place for where they stand; None where they are one."""
    record = read(octets)
    if isinstance(record, bytes):
        return f"bad-entry {{at}} {record.decode()}"
    return None if form(record) == octets else "not-canonical {at}"


@lru_cache(maxsize=4)
def archive_read(text, form=canonical):
    """The records of a text up to its first fault, in the text's order, and the fault, or None."""
    records, at = [], 0
    while at < len(text):
        seen = COUNT.match(text, at)
        if not seen:
            return tuple(records), f"bad-frame {COUNT_PREFIX.match(text, at).end()}"
        end = seen.end() + int(seen.group(1))
        if end - seen.end() > ENTRY_MAX:
            return tuple(records), f"entry-too-long {at}"
        if end > len(text):
            return tuple(records), f"bad-frame {len(text)}"
        octets = text[seen.end():end]
        fault = entry_fault(octets, form)
        if fault:
            return tuple(records), fault.format(at=at)
        if records and place(octets) <= place(records[-1]):
            return tuple(records), f"not-ascending {at}"
        records.append(octets)
        at = end
    return tuple(records), None


def merge(left, right):
    """What `merge` answers: the union, or the fault that is met first and what stands before it."""
    fronts, faults = zip(archive_read(left), archive_read(right))
    last = [place(front[-1]) if front else None for front in fronts]
    faulty = [side for side in (0, 1) if faults[side]]
    if not faulty:
        return 0, archive_text(fronts[0] + fronts[1]), b""
    # an empty front is below all; of two equal ones the left is met first
    side = min(faulty, key=lambda side: (last[side] is not None, last[side] or (), side))
    line = f"{['left', 'right'][side]} {faults[side]}\n".encode()
    before = [one for front in fronts for one in front if last[side] is not None and place(one) <= last[side]]
    return 1, archive_text(before), line


def migrate(old):
    """What `migrate` answers."""
    records, fault = archive_read(old, canonical_unsorted)
    if fault:
        return 1, b"", f"old {fault}\n".encode()
    return 0, archive_text(canonical(read(one)) for one in records), b""

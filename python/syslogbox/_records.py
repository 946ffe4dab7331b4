"""Records: whether octets are one, its parts and its canonical form."""
from __future__ import annotations

import base64
import ctypes
import enum
import json
from dataclasses import dataclass, field
from datetime import datetime, timedelta, timezone
from typing import Any, Dict, Iterator, List, Optional, Tuple

from . import _library as library
from ._faults import FieldError, Kind, PacketError, RecordError
from ._library import SHORT
from ._library import check as _check
from ._library import check_short as _check_short

FACILITIES = ("kern", "user", "mail", "daemon", "auth", "syslog", "lpr", "news", "uucp", "cron", "authpriv", "ftp",
              "ntp", "audit", "alert", "clock", *(f"local{n}" for n in range(8)))
SEVERITIES = "emerg", "alert", "crit", "err", "warning", "notice", "info", "debug"
_EPOCH = datetime(1970, 1, 1, tzinfo=timezone.utc)
_YEAR_1 = -62_135_596_800_000_000  # its first instant, in microseconds
_size = bytes.__len__  # that of a class of its own may say something else


@dataclass(frozen=True)
class Element:
    """An element of the structured data: its id, and its parameters in order. A name may occur twice."""

    id: str
    params: Tuple[Tuple[str, str], ...] = ()


@dataclass(frozen=True)
class Record:
    """The parts of a record. A field that is `-` is None."""

    facility: int
    severity: int
    #: microseconds from 1970-01-01T00:00:00Z
    micros: Optional[int]
    hostname: Optional[str]
    app_name: Optional[str]
    proc_id: Optional[str]
    msg_id: Optional[str]
    elements: Tuple[Element, ...] = field(default=())
    #: the octets of the message, without the BOM
    message: bytes = b""
    #: whether the message starts with the BOM, and so is UTF-8
    bom: bool = False

    @property
    def priority(self) -> int:
        """The number between the angle brackets."""
        return 8 * self.facility + self.severity

    @property
    def time(self) -> Optional[datetime]:
        """The instant in UTC. Raises OverflowError in the year 0, which `datetime` does not have."""
        return None if self.micros is None else _EPOCH + timedelta(microseconds=self.micros)

    @property
    def timestamp(self) -> Optional[str]:
        """The instant as the canonical form has it: in UTC, with six digits of the second.

        >>> view(b"<0>1 0000-02-29T01:00:00+01:00 - - - - -").timestamp
        '0000-02-29T00:00:00.000000Z'
        """
        if self.micros is None:
            return None
        # `datetime` begins with the year 1, and its calendar has the same days 400 years later
        later = 400 if self.micros < _YEAR_1 else 0
        instant = _EPOCH.replace(year=1970 + later) + timedelta(microseconds=self.micros)
        return f"{instant.year - later:04d}{instant:-%m-%dT%H:%M:%S.%f}Z"

    @property
    def text(self) -> str:
        """The message as text; octets that are not UTF-8 are replaced."""
        return self.message.decode("utf-8", "replace")

    def asdict(self) -> Dict[str, Any]:
        """The object of `syslogbox show --json`: the same keys and values, in the same order.

        `dataclasses.asdict` has the fields of the record as they are.

        >>> view(b"<165>1 - host - - - - hi").asdict()["facility"]
        'local4'
        """
        data = {element.id: [list(param) for param in element.params]
                for element in sorted(self.elements, key=lambda element: element.id)}
        shown: Dict[str, Any] = {
            "priority": self.priority, "facility": FACILITIES[self.facility], "severity": SEVERITIES[self.severity],
            "time": self.timestamp, "host": self.hostname, "app": self.app_name, "proc": self.proc_id,
            "msgid": self.msg_id, "data": data}
        try:
            shown["message"] = self.message.decode("utf-8")
        except UnicodeDecodeError:
            shown["message_base64"] = base64.b64encode(self.message).decode("ascii")
        if self.bom:
            shown["bom"] = True
        return shown

    def json(self) -> str:
        """The line of `syslogbox show --json`, without its line feed.

        >>> view(b"<0>1 - - - - - - hi").json()[:45]
        '{"priority":0,"facility":"kern","severity":"e'
        """
        return json.dumps(self.asdict(), ensure_ascii=False, separators=(",", ":"))


library.shows(Record, Element)


@library.in_c
def is_record(record: bytes) -> bool:
    """Whether the octets are a record of RFC 5424."""
    try:
        size = _size(record)
        return (_check_short if size < SHORT else _check)(record, size, None) == 1
    except (TypeError, ctypes.ArgumentError):
        raise library.no_octets(record) from None


@library.in_c
def check(record: bytes) -> None:
    """Returns nothing if the octets are a record of RFC 5424.

    Raises RecordError, with the field and the octet, if they are not. `check_all` and `check_stream` check many records
    faster.
    """
    try:
        size = _size(record)
        answer = (_check_short if size < SHORT else _check)(record, size, None)
    except (TypeError, ctypes.ArgumentError):
        raise library.no_octets(record) from None
    if not answer:
        raise refusal(record)


@library.in_c
def refusal(record: bytes) -> RecordError:
    """Why octets are not a record."""
    fault = library.Fault()
    _check(record, _size(record), ctypes.byref(fault))
    return RecordError(fault.kind, fault.field, fault.offset)


@library.in_c
def canonical(record: bytes) -> bytes:
    """The one canonical form of the record; equal records have equal octets. Raises RecordError.

    >>> canonical(b"<0>1 2024-02-29T01:00:00+01:00 - - - - - ")
    b'<0>1 2024-02-29T00:00:00.000000Z - - - - -'
    """
    size = library.size(record)
    return library.text(RecordError, library.canonical, 2 * size + 7, record, size)


@library.in_c
def view(record: bytes) -> Record:
    """The parts of the record, its elements in the order of the octets. Raises RecordError.

    The time grows with the length of the record.

    >>> view(b'<34>1 - host su - ID47 [a@1 k="v"] text').elements
    (Element(id='a@1', params=(('k', 'v'),)),)
    """
    parts, fault = library.Parts(), library.Fault()
    if not library.view(record, library.size(record), ctypes.byref(parts), ctypes.byref(fault)):
        raise library.error_of(RecordError, fault)
    return Record(
        facility=parts.facility, severity=parts.severity, micros=parts.time if parts.has_time else None,
        hostname=_word(record, parts.hostname), app_name=_word(record, parts.app_name),
        proc_id=_word(record, parts.proc_id), msg_id=_word(record, parts.msg_id),
        elements=_elements(record) if parts.elements else (),
        message=_cut(record, parts.message), bom=bool(parts.has_bom))


def _cut(record: bytes, span: library.Span) -> bytes:
    octets: bytes = record[span.offset:span.offset + span.len]
    return octets


def _word(record: bytes, span: library.Span) -> Optional[str]:
    return _cut(record, span).decode("ascii") if span.len else None


def _meaning(raw: bytes) -> str:
    if b"\\" in raw:
        raw = library.text(RecordError, library.value, len(raw), raw, len(raw))
    return raw.decode("utf-8")


def _shown(record: bytes) -> Iterator[Tuple[int, ...]]:
    """Each part of the structured data, its offset and its length, in the order of the octets."""
    room, width = 24, library.PART_SPAN.size
    while True:
        out, fault = bytearray(room * width), library.Fault()
        count = library.spans(record, _size(record), library.room_of(out), room, ctypes.byref(fault))
        if count < 0:
            raise library.error_of(RecordError, fault)
        if count <= room:
            return library.PART_SPAN.iter_unpack(memoryview(out)[library.FIELDS * width:(count - 1) * width])
        room = count


def _elements(record: bytes) -> Tuple[Element, ...]:
    elements: List[Tuple[str, List[Tuple[str, str]]]] = []
    params: List[Tuple[str, str]] = []
    name = ""
    for part, offset, size in _shown(record):
        octets = record[offset:offset + size]
        if part == library.PARAM_NAME:
            name = octets.decode("ascii")
        elif part == library.ELEMENT_ID:
            params = []
            elements.append((octets.decode("ascii"), params))
        else:
            params.append((name, _meaning(octets)))
    return tuple(Element(name, tuple(params)) for name, params in elements)


def _items(elements: Tuple[Element, ...]) -> Iterator[library.Item]:
    for element in elements:
        yield library.Item(library.ELEMENT_ID, library.text_of(element.id.encode()))
        for name, value in element.params:
            yield library.Item(library.PARAM_NAME, library.text_of(name.encode()))
            yield library.Item(library.PARAM_VALUE, library.text_of(value.encode()))


def _number(name: str, value: int) -> int:
    """A number of C that is not negative; a number that is none there is out of each range."""
    return min(library.whole(name, value) & 2 ** 64 - 1, 2 ** 32 - 1)


@library.in_c
def build(record: Record) -> bytes:
    """The canonical form of the record of these parts. Raises FieldError, whose `field` is the one that is refused.

    >>> build(Record(20, 5, None, None, "app", None, None, (Element("a@1", (("k", 'a "v"'),)),), b"hi"))
    b'<165>1 - - app - - [a@1 k="a \\\\"v\\\\""] hi'
    >>> build(Record(20, 5, None, "my host", None, None, None))
    Traceback (most recent call last):
        ...
    syslogbox.FieldError: the hostname may not be so, from octet 2 on
    """
    items = list(_items(record.elements))
    micros = 0 if record.micros is None else library.whole("micros", record.micros)
    words = [library.text_of((word or "").encode())
             for word in (record.hostname, record.app_name, record.proc_id, record.msg_id)]
    fields = library.Fields(
        min(max(micros, -2 ** 63), 2 ** 63 - 1), record.micros is not None, _number("facility", record.facility),
        _number("severity", record.severity), record.bom, *words, (library.Item * len(items))(*items), len(items),
        library.Text(record.message, library.size(record.message)))
    octets = sum(item.text.len for item in items) + sum(word.len for word in words) + fields.message.len
    # a value may have an escape for each octet, and an item two octets and two marks more
    return library.text(FieldError, library.build, 2 * octets + 4 * len(items) + 64, ctypes.byref(fields))


class Dialect(enum.IntEnum):
    """Which spellings of legacy packets are understood: those of RFC 3164, or also what devices and programs send."""

    BSD = 1
    WIDE = 2


@library.in_c
def trimmed(frame: bytes) -> bytes:
    """The frame without the line end or the NUL that a sender may have put behind the record, as by `--trim`.

    >>> trimmed(b"<0>1 - - - - - -\\r\\n"), trimmed(b"a\\n\\n")
    (b'<0>1 - - - - - -', b'a\\n')
    """
    return frame[:library.trimmed(frame, library.size(frame))]


@library.in_c
def legacy(packet: bytes, year: int, offset_minutes: int = 0, *, dialect: Dialect = Dialect.BSD) -> bytes:
    """The canonical form of the record that a packet is read as.

    A packet that begins as RFC 5424 requires is read by that standard, any other by RFC 3164, with times of this year,
    from 1 to 9998, this many minutes ahead of UTC. Raises RecordError for the former, PacketError for the latter.

    >>> legacy(b"<13>Oct 11 22:14:15 h a[1]: x", 2003, 120)
    b'<13>1 2003-10-11T20:14:15.000000Z h a 1 - - x'
    >>> legacy(b"<13>Oct 11 22:14:15.5 h a[1] x", 2003, dialect=Dialect.WIDE)
    b'<13>1 2003-10-11T22:14:15.500000Z h a 1 - - x'
    """
    size, limits = library.size(packet), (-2 ** 31, 2 ** 31 - 1)
    numbers = library.whole("year", year), library.whole("offset_minutes", offset_minutes)
    clock = [min(max(number, limits[0]), limits[1]) for number in numbers]
    try:
        return library.text(PacketError, library.packet, 2 * size + 64, Dialect(dialect), *clock, packet, size)
    except PacketError as refused:
        if refused.kind in (Kind.NOT_UTF8, Kind.BAD_CLOCK):
            raise
        raise RecordError(refused.kind, refused.field, refused.offset) from None

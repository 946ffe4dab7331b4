"""Archives: sets of records."""
from __future__ import annotations

import ctypes
import enum
from datetime import datetime, timedelta, timezone
from typing import Callable, NamedTuple, Optional, Union

from . import _library as library
from ._faults import ArchiveError, Kind

_EPOCH = datetime(1970, 1, 1, tzinfo=timezone.utc)


class Root(NamedTuple):
    """How many records an archive has, and the hash of their Merkle tree (RFC 9162, section 2.1.1)."""

    count: int  # type: ignore[assignment]  # a tuple has a method of this name
    hash: bytes

    def __str__(self) -> str:
        return f"{self.count} {self.hash.hex()}"


class Period(enum.IntEnum):
    """How long the periods of a digest are, in UTC."""

    MONTH = 1
    DAY = 2
    HOUR = 3


def root(archive: bytes) -> Root:
    """The root of an archive; as a string, what `syslogbox root` prints. Raises ArchiveError.

    >>> str(root(b"16 <0>1 - - - - - -"))[:18]
    '1 ce745415aa695250'
    """
    shown, fault = library.Root(), library.Fault()
    if not library.root(archive, library.size(archive), ctypes.byref(shown), ctypes.byref(fault)):
        raise library.error_of(ArchiveError, fault)
    return Root(shown.count, bytes(shown.hash))


def _joined(call: Callable[..., int], left: bytes, right: bytes, room: int) -> bytes:
    of_left, of_right = library.size(left), library.size(right)
    return library.text(ArchiveError, call, room, left, of_left, right, of_right)


def union(left: bytes, right: bytes) -> bytes:
    """The archive of the records of two archives. Raises ArchiveError.

    >>> union(b"16 <0>1 - - - - - -", b"16 <1>1 - - - - - -16 <2>1 - - - - - -")
    b'16 <0>1 - - - - - -16 <1>1 - - - - - -16 <2>1 - - - - - -'
    """
    return _joined(library.union, left, right, library.size(left) + library.size(right))


def common(left: bytes, right: bytes) -> bytes:
    """The archive of the records that both archives have. Raises ArchiveError.

    >>> common(b"16 <0>1 - - - - - -16 <1>1 - - - - - -", b"16 <1>1 - - - - - -16 <2>1 - - - - - -")
    b'16 <1>1 - - - - - -'
    """
    return _joined(library.common, left, right, library.size(left))


def minus(left: bytes, right: bytes) -> bytes:
    """The archive of the records that the left archive has, and the right one has not. Raises ArchiveError.

    >>> minus(b"16 <0>1 - - - - - -16 <1>1 - - - - - -", b"16 <1>1 - - - - - -16 <2>1 - - - - - -")
    b'16 <0>1 - - - - - -'
    """
    return _joined(library.minus, left, right, library.size(left))


def _micros(time: Union[int, datetime, None]) -> int:
    """Microseconds from 1970-01-01T00:00:00Z, as near as C has them."""
    if time is None:
        return 0
    if isinstance(time, datetime):
        return (time - _EPOCH) // timedelta(microseconds=1)
    return min(max(library.whole("time", time), -2 ** 63), 2 ** 63 - 1)


def select(archive: bytes, *, start: Union[int, datetime, None] = None, end: Union[int, datetime, None] = None,
           undated: bool = False, severity: Optional[int] = None, hostname: str = "", app_name: str = "") -> bytes:
    """The archive of the records of an archive that meet all conditions. Raises ArchiveError.

    `start` is the first instant, `end` the first behind the last: a datetime with a time zone, or microseconds from
    1970-01-01T00:00:00Z. Records without a time are left out if there is one of these, unless `undated` is true. With a
    `severity` of 0 to 7, only those that are as severe or more severe are taken; with a word, those that have it.

    >>> select(b"16 <0>1 - - - - - -16 <1>1 - - - - - -", severity=0)
    b'16 <0>1 - - - - - -'
    """
    asked = -1 if severity is None else library.whole("severity", severity)
    condition = library.Condition(
        _micros(start), _micros(end), start is not None, end is not None, undated, severity is not None,
        asked if 0 <= asked < 8 else 8, library.text_of(hostname.encode()), library.text_of(app_name.encode()))
    size = library.size(archive)
    return library.text(ArchiveError, library.select, size, ctypes.byref(condition), archive, size)


def digest(archive: bytes, by: Period = Period.DAY) -> str:
    """The digest of an archive, as `syslogbox digest` prints it. Raises ArchiveError.

    Each period that has records has a line: its name, how many they are, how many octets their archive has, and its
    SHA-256. The last line is for all records.

    >>> [line.split()[:3] for line in digest(b"16 <0>1 - - - - - -").splitlines()]
    [['undated', '1', '19'], ['total', '1', '19']]
    """
    size, room = library.size(archive), 4_096
    while True:
        try:
            return library.text(ArchiveError, library.digest, room, Period(by), archive, size).decode("ascii")
        except ArchiveError as refused:
            if refused.kind != Kind.NO_ROOM:
                raise
            room = refused.offset

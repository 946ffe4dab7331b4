"""Why octets are refused: kinds, fields and exceptions."""
from __future__ import annotations

import enum
from typing import Tuple, Type


class Kind(enum.IntEnum):
    """What is wrong: the numbers of `enum syslogbox_kind`."""

    SYNTAX = 1
    INSTANT_RANGE = 2
    REPEATED_ID = 3
    NOT_UTF8 = 4
    BAD_FRAME = 5
    ENTRY_TOO_LONG = 6
    BAD_ENTRY = 7
    NOT_CANONICAL = 8
    NOT_ASCENDING = 9
    NO_ROOM = 10
    NO_MEMORY = 11
    BAD_CLOCK = 12
    NO_ELEMENT = 13
    NO_PARAM = 14
    RECORD_TOO_LONG = 15
    BAD_DIALECT = 16
    BAD_FIELD = 17
    BAD_ITEM = 18
    BAD_PERIOD = 19
    # of a stream, told by this package alone
    BAD_COUNT = 101
    TOO_LONG = 102
    UNTERMINATED = 103


class Field(enum.IntEnum):
    """Where: a field of RFC 5424, section 6, or which of two archives."""

    NONE = 0
    PRIORITY = 1
    VERSION = 2
    TIMESTAMP = 3
    HOSTNAME = 4
    APP_NAME = 5
    PROC_ID = 6
    MSG_ID = 7
    STRUCTURED_DATA = 8
    MESSAGE = 9
    LEFT = 10
    RIGHT = 11


#: what the faults of a stream say; the library says what its own do
_OF_STREAMS = {
    Kind.BAD_COUNT: "octet {offset} of the stream cannot belong to a count",
    Kind.TOO_LONG: "the frame at octet {offset} of the stream is too long",
    Kind.UNTERMINATED: "the stream ends inside the frame at octet {offset}",
}


def _meaning(kind: Kind, where: Field, offset: int) -> str:
    """What a fault says."""
    from . import _library  # which needs this module

    told = _OF_STREAMS.get(kind)
    return told.format(offset=offset) if told else _library.fault_text(kind, where, offset)


class SyslogError(ValueError):
    """Octets were refused: what is wrong, where, and at which octet."""

    __module__ = "syslogbox"

    def __init__(self, kind: int, where: int, offset: int) -> None:
        self.kind = Kind(kind)
        self.field = Field(where)
        self.offset = offset
        super().__init__(_meaning(self.kind, self.field, offset))

    def __reduce__(self) -> Tuple[Type[SyslogError], Tuple[int, int, int]]:
        # by its numbers, from which another process makes the same one
        return type(self), (int(self.kind), int(self.field), self.offset)


class RecordError(SyslogError):
    """Octets are not a record of RFC 5424."""

    __module__ = "syslogbox"


class FieldError(SyslogError):
    """A record cannot have such a field; `field` says which."""

    __module__ = "syslogbox"


class PacketError(SyslogError):
    """A packet is not a legacy record, or the year or the offset from UTC is out of range."""

    __module__ = "syslogbox"


class ArchiveError(SyslogError):
    """Octets are not an archive; `field` says which of the two."""

    __module__ = "syslogbox"


class StreamError(SyslogError):
    """A stream has no further frame; `offset` counts from its first octet."""

    __module__ = "syslogbox"

"""Syslog records (RFC 5424), frames of streams (RFC 6587), legacy packets (RFC 3164) and archives, by libsyslogbox.

>>> import syslogbox
>>> syslogbox.check(b"<165>1 - - - - - - hello")
>>> syslogbox.view(b"<165>1 2003-10-11T22:14:15Z host app - - - hi").hostname
'host'
>>> syslogbox.check(b"<0>1")
Traceback (most recent call last):
    ...
syslogbox.RecordError: a syntax error in the version at octet 4

Octets are `bytes`; offsets count them from 0. What is refused raises an exception with the kind, the field and the
octet. The library is the one that the environment variable SYSLOGBOX_LIBRARY names, or the one in this folder, or the
system's. The calls on records go through a module in C, where it was built; by ctypes where it was not, or if the
environment variable SYSLOGBOX_CTYPES is set. They give the same, and IN_C says which it is.
"""
from ._archives import Period, Root, common, digest, minus, root, select, union
from ._faults import ArchiveError, Field, FieldError, Kind, PacketError, RecordError, StreamError, SyslogError
from ._library import IN_C, library_version
from ._logging import Formatter, Handler, Writable
from ._records import Dialect, Element, Record, build, canonical, check, is_record, legacy, trimmed, view
from ._streams import (ENTRY_MAX, FRAME_MAX, Framing, Readable, Refusal, Source, check_all, check_stream, framed,
                       frames, records)

__all__ = ["ArchiveError", "Dialect", "ENTRY_MAX", "Element", "FRAME_MAX", "Field", "FieldError", "Formatter",
           "Framing", "Handler", "IN_C", "Kind", "PacketError", "Period", "Readable", "Record", "RecordError",
           "Refusal", "Root", "Source", "StreamError", "SyslogError", "Writable", "build", "canonical", "check",
           "check_all", "check_stream", "common", "digest", "framed", "frames", "is_record", "legacy",
           "library_version", "minus", "records", "root", "select", "trimmed", "union", "view"]
__version__ = "0.13.0"

"""Log records of `logging` as records of RFC 5424."""
from __future__ import annotations

import io
import logging
import re
import socket
import time as clock
from typing import Dict, List, Mapping, Optional, Protocol, Tuple, Union

from . import _library as library
from ._records import FACILITIES, canonical
from ._streams import FRAME_MAX, Framing, framed

_SEVERITIES = ((logging.CRITICAL, 2), (logging.ERROR, 3), (logging.WARNING, 4), (logging.INFO, 6))
_UNPRINTABLE = re.compile(r"[^!-~]")
_UNNAMED = re.compile(r"[^!-~]|[=\]\"]")


def _as_word(text: Optional[object], most: int) -> str:
    return _UNPRINTABLE.sub("_", str(text))[:most] if text not in (None, "") else "-"


def _as_name(text: str) -> str:
    return _UNNAMED.sub("_", text)[:32] or "_"


def _param(name: str, value: object) -> str:
    escaped = re.sub(r'(["\\\]])', r"\\\1", str(value))
    return f' {_as_name(name)}="{escaped}"'


def _facility_of(given: Union[int, str]) -> int:
    """The number of a facility, which may be given by its name."""
    if isinstance(given, str):
        number = FACILITIES.index(given) if given in FACILITIES else -1
    else:
        number = library.whole("facility", given)
    if not 0 <= number <= 23:
        raise ValueError(f"{given!r} is not a facility: a number from 0 to 23, or a name such as 'local0'")
    return number


class Formatter(logging.Formatter):
    """Log records as canonical records of RFC 5424.

    The level gives the severity, `created` the time in UTC, the process the PROCID and the logger's name the MSGID;
    the message is UTF-8 after the BOM (6.4). A log record's `structured_data`, a mapping of ids to mappings of names
    to values, given as `extra`, becomes the elements. Octets that a field cannot have become `_`. A facility is given
    by its number or by the name that `Record.asdict` has.
    """

    def __init__(self, app_name: Optional[str] = None, *, facility: Union[int, str] = 1,
                 hostname: Optional[str] = None, fmt: Optional[str] = None) -> None:
        super().__init__(fmt)
        self.facility = _facility_of(facility)
        self.hostname = _as_word(hostname if hostname is not None else socket.gethostname(), 255)
        self.app_name = _as_word(app_name, 48)

    def octets(self, record: logging.LogRecord) -> bytes:
        """The canonical octets of the record."""
        severity = next((code for level, code in _SEVERITIES if record.levelno >= level), 7)
        seconds, micros = divmod(int(record.created * 1_000_000), 1_000_000)
        stamp = clock.strftime("%Y-%m-%dT%H:%M:%S", clock.gmtime(seconds))
        header = (f"<{8 * self.facility + severity}>1 {stamp}.{micros:06d}Z {self.hostname} {self.app_name} "
                  f"{_as_word(record.process, 128)} {_as_word(record.name, 32)} ")
        message = super().format(record).encode("utf-8", "replace")
        return canonical(header.encode("ascii") + self._data(record) + b" \xef\xbb\xbf" + message)

    @staticmethod
    def _data(record: logging.LogRecord) -> bytes:
        elements: Mapping[str, Mapping[str, object]] = getattr(record, "structured_data", None) or {}
        by_id: Dict[str, List[Tuple[str, object]]] = {}
        for name, params in elements.items():
            by_id.setdefault(_as_name(name), []).extend(params.items())
        text = "".join(f"[{name}{''.join(_param(*param) for param in params)}]" for name, params in by_id.items())
        return text.encode("utf-8", "replace") or b"-"

    def format(self, record: logging.LogRecord) -> str:
        """The canonical octets of the record, as text."""
        return self.octets(record).decode("utf-8")


class Writable(Protocol):
    """What has `write`, like a file or `socket.makefile("wb")`; `flush` is called after each record if it is there."""

    def write(self, octets: bytes, /) -> object:
        """Writes all of the octets."""


def _check_binary(file: object) -> None:
    """Raises TypeError unless a file has `write`, and is not open as text."""
    if isinstance(file, io.TextIOBase) or isinstance(getattr(file, "encoding", None), str):
        raise library.text_file()
    if not callable(getattr(file, "write", None)):
        raise TypeError(f"file has to be one in binary mode, or a socket's makefile('wb'), not {type(file).__name__}")


class Handler(logging.Handler):
    """Writes log records as canonical records of RFC 5424 into a binary file, framed.

    `file` has `write`, like a file or `socket.makefile("wb")`, and is flushed after each record if it has `flush`.
    A `framing` of None writes bare octets, one `write` a record, as the `makefile("wb", buffering=0)` of a datagram
    socket needs them. In lines, which cannot carry them, line feeds become spaces, in messages and in values: use
    counted frames to keep line feeds. A record of more than `FRAME_MAX` octets is not written, and goes to `handleError`.
    Raises TypeError for a file that has no `write` or is open as text.

    >>> import io, logging, syslogbox
    >>> file = io.BytesIO()
    >>> formatter = syslogbox.Formatter("till", hostname="host")
    >>> logger = logging.getLogger("shop")
    >>> logger.addHandler(syslogbox.Handler(file, formatter=formatter))
    >>> logger.error("sold out", extra={"structured_data": {"order@1": {"number": 7}}})
    >>> (record,) = syslogbox.records(file.getvalue())
    >>> record.severity, record.app_name, record.msg_id, record.elements, record.text
    (3, 'till', 'shop', (Element(id='order@1', params=(('number', '7'),)),), 'sold out')
    """

    def __init__(self, file: Writable, framing: Optional[Framing] = Framing.COUNTED, *,
                 formatter: Optional[Formatter] = None) -> None:
        _check_binary(file)
        self.file, self.framing = file, None if framing is None else Framing(framing)
        super().__init__()
        self.setFormatter(formatter or Formatter())

    def setFormatter(self, fmt: Optional[logging.Formatter]) -> None:
        """Sets what makes records of log records. Raises TypeError unless it is a `Formatter` of this package."""
        if not isinstance(fmt, Formatter):
            raise TypeError("the formatter is a syslogbox.Formatter")
        super().setFormatter(fmt)
        self.octets = fmt.octets

    def emit(self, record: logging.LogRecord) -> None:
        """Writes the record, and flushes the file. An exception goes to `handleError`, as in handlers of `logging`."""
        try:
            octets = self.octets(record)
            if len(octets) > FRAME_MAX:
                raise ValueError(f"a record of {len(octets)} octets: a frame has at most {FRAME_MAX}")
            if self.framing == Framing.LF:
                # a line has no line feed: those of a message of many lines become spaces
                octets = octets.replace(b"\n", b" ")
            self.file.write(octets if self.framing is None else framed(octets, self.framing))
            flush = getattr(self.file, "flush", None)
            if flush:
                flush()
        except Exception:
            self.handleError(record)

"""Frames of streams (RFC 6587), and the records in them."""
from __future__ import annotations

import ctypes
import enum
import errno
import io
import itertools
import socket
from dataclasses import dataclass
from typing import Callable, Iterable, Iterator, List, Optional, Protocol, Tuple, Union

from . import _library as library
from ._faults import Field, Kind, RecordError, StreamError, SyslogError
from ._records import Record, refusal, view

#: The most octets of a record in a frame that the program reads.
FRAME_MAX = 262_144
#: The most octets of a record in an archive, and of any record that is read.
ENTRY_MAX = 524_295


class Framing(enum.IntEnum):
    """How records are framed on a stream (RFC 6587): octet counting (3.4.1), or lines (3.4.2)."""

    COUNTED = 1
    LF = 2


class Readable(Protocol):
    """What has `read`, like a file, a pipe or `socket.makefile("rb")`; if it has `read1`, that is called instead."""

    def read(self, size: int, /) -> Optional[bytes]:
        """At most so many octets; none at the end. None, of a source that does not wait, raises BlockingIOError."""


#: Where frames come from: octets, a file, or a socket.
Source = Union[bytes, Readable, socket.socket]
_Scanned = Tuple[List[Tuple[int, Optional[bytes]]], int, int, int, int, int]


def framed(record: bytes, framing: Framing = Framing.COUNTED) -> bytes:
    """The record as a frame.

    Raises ValueError for one that the framing cannot carry, no octets or a line feed, and for a framing that is none.
    """
    size = library.size(record)
    if Framing(framing) == Framing.COUNTED:
        if not record:
            raise ValueError("a counted frame has an octet at least")
        return b"%d %b" % (size, record)
    if b"\n" in record:
        raise ValueError("a line has no line feed")
    return record + b"\n"


def _reader(source: Source) -> Callable[[int], Optional[bytes]]:
    """What gives the next octets of a source, at most so many, as soon as there are some."""
    if isinstance(source, bytes):
        return io.BytesIO(source).read
    if isinstance(source, socket.socket):
        return source.recv
    if isinstance(source, io.TextIOBase):
        raise library.text_file()
    read: Optional[Callable[[int], Optional[bytes]]] = getattr(source, "read1", getattr(source, "read", None))
    if read is None:
        raise library.no_octets(source)
    return read


class _Stream:
    """The octets of a stream that are held, and how many came before them."""

    def __init__(self, source: Source, piece: int) -> None:
        self.read = _reader(source)
        self.piece, self.held, self.before = piece, b"", 0

    def more(self) -> bool:
        piece = self.read(self.piece)
        if piece is None:
            raise BlockingIOError(errno.EAGAIN, "the source does not wait, and has nothing yet")
        if isinstance(piece, str):
            raise library.text_file()
        self.held += piece
        return bool(piece)

    def drop(self, count: int) -> None:
        self.held, self.before = self.held[count:], self.before + count


@library.in_c
def scan(framing: int, longest: int, held: bytes, at: int, inside: int, left: int) -> _Scanned:
    """What comes next in a stream, from `at` on, by a scanner of this state.

    The answer has of each frame where it ends, and its octets unless they are more than `longest`; then where the
    scanner is, what it found last and where that starts, and its state.
    """
    scanner, found = library.Scanner(inside, left), library.Found()
    to_scanner, to_found = ctypes.byref(scanner), ctypes.byref(found)
    address, size, answer = library.address(held), len(held), library.FRAME
    frames: List[Tuple[int, Optional[bytes]]] = []
    while answer > 0 and len(frames) < 64:
        answer = library.scan(framing, longest, address + at, size - at, to_scanner, to_found)
        if answer == library.FRAME:
            frames.append((at + found.used, held[at + found.start:at + found.end]))
        elif answer == library.TOO_LONG:
            frames.append((at + found.used, None))
        at += found.used
    return frames, at, answer, found.start, scanner.inside, scanner.left


def _cut(source: Source, framing: int, longest: int, piece: int) -> Iterator[Tuple[int, Optional[bytes]]]:
    """Of each frame its position, and its octets unless they are more than `longest`."""
    stream, longest, begun = _Stream(source, piece), min(max(longest, 0), 2 ** 62), 0
    inside = left = 0
    while True:
        at, answer = 0, library.FRAME
        while answer > 0:
            found, at, answer, start, inside, left = scan(framing, longest, stream.held, at, inside, left)
            for end, octets in found:
                yield begun, octets
                begun = stream.before + end
        if answer == library.BROKEN:
            raise StreamError(Kind.BAD_COUNT, 0, stream.before + at + start)
        stream.drop(at)
        if not stream.more():
            if stream.held or inside:
                raise StreamError(Kind.UNTERMINATED, 0, begun)
            return


def _datagrams(source: socket.socket, longest: int) -> Iterator[Tuple[int, Optional[bytes]]]:
    """Of each datagram how many octets came before it, and its octets unless they are more than `longest`."""
    before = 0
    while True:
        octets = source.recv(longest + 1)
        yield before, octets if len(octets) <= longest else None
        before += len(octets)


def _frames(source: Source, framing: Framing, longest: int, piece: int) -> Iterator[Tuple[int, Optional[bytes]]]:
    framing = Framing(framing)
    if isinstance(source, socket.socket) and source.type == socket.SOCK_DGRAM:
        return _datagrams(source, longest)
    return _cut(source, framing, longest, piece)


def frames(file: Source, framing: Framing = Framing.COUNTED, *, longest: int = FRAME_MAX,
           too_long: Optional[Callable[[int], object]] = None, piece: int = 65_536) -> Iterator[bytes]:
    """The frames of a stream, each as it comes.

    `file` is octets, a socket, or has `read1` or `read`, like a file, a pipe or `socket.makefile("rb")`. From a socket
    for datagrams each of them is a frame, and they have no end. For a frame of more than `longest` octets `too_long` is
    called with its position, and the next one follows. Raises StreamError, with the position, if there is no count where
    a frame should begin, if the stream ends inside a frame, and for a frame that is too long if there is no `too_long`.

    >>> list(frames(b"3 abc2 de"))
    [b'abc', b'de']
    """
    for position, octets in _frames(file, framing, longest, piece):
        if octets is not None:
            yield octets
        elif too_long is not None:
            too_long(position)
        else:
            raise StreamError(Kind.TOO_LONG, 0, position)


@dataclass(frozen=True)
class Refusal:
    """A frame that is not a record, and why."""

    #: the frame's number on the stream, from 1 on
    number: int
    #: of its first octet on the stream
    position: int
    #: what is in the frame; None if it is too long
    octets: Optional[bytes]
    error: SyslogError

    @property
    def kind(self) -> Kind:
        """What is wrong."""
        return self.error.kind

    @property
    def field(self) -> Field:
        """In which field."""
        return self.error.field

    @property
    def offset(self) -> int:
        """At which octet of the frame's record; of a frame that is too long, its position on the stream."""
        return self.error.offset

    def __str__(self) -> str:
        return f"frame {self.number}: {self.error}"


def records(source: Source, framing: Framing = Framing.COUNTED, *,
            longest: int = FRAME_MAX) -> Iterator[Union[Record, Refusal]]:
    """The records of a stream, each as it comes, and a Refusal in the place of each frame that is not one.

    Sources are those of `frames`, and StreamError is raised as there, but a frame of more than `longest` octets is
    refused with TOO_LONG. What a source raises, such as the timeout of a socket, ends the iterator.

    >>> for one in records(b"<165>1 - - app - - - hello\\n<0>1\\n", Framing.LF):
    ...     print(one if isinstance(one, Refusal) else one.app_name)
    app
    frame 2: a syntax error in the version at octet 4
    """
    for number, (position, octets) in enumerate(_frames(source, framing, longest, 65_536), 1):
        yield _read(number, position, octets)


def _read(number: int, position: int, octets: Optional[bytes]) -> Union[Record, Refusal]:
    if octets is None:
        return Refusal(number, position, None, StreamError(Kind.TOO_LONG, 0, position))
    try:
        return view(octets)
    except RecordError as error:
        return Refusal(number, position, octets, error)


def check_stream(stream: bytes, framing: Framing = Framing.COUNTED) -> Iterator[Tuple[int, RecordError]]:
    """For each frame that is not a record, its number, from 1 on, and why.

    It is `check` for the frames of a whole stream, and several times as fast, since one call passes over all records up
    to the next frame that is not one. A frame may be longer than `FRAME_MAX`. Raises StreamError, with the position, if
    there is no count where a frame should begin, or if the stream ends inside a frame.
    """
    count, start, end = ctypes.c_size_t(), ctypes.c_size_t(), ctypes.c_size_t()
    framing, size = Framing(framing), library.size(stream)
    address = library.address(stream)
    at, number, taken = 0, 0, 1
    while taken > 0:
        at += library.pass_over(framing, address + at, size - at, ctypes.byref(count))
        number += count.value + 1
        taken = library.frame(framing, address + at, size - at, ctypes.byref(start), ctypes.byref(end))
        if taken > 0:
            yield number, refusal(stream[at + start.value:at + end.value])
            at += taken
    if taken < 0:
        raise StreamError(Kind.BAD_COUNT, 0, at + start.value)
    if at < size:
        raise StreamError(Kind.UNTERMINATED, 0, at)


def check_all(records: Iterable[bytes]) -> Iterator[Tuple[int, RecordError]]:
    """For each that is not a record, its index, from 0 on, and why.

    It is `check` for many records, and some three times as fast, since one call goes over hundreds of them.

    >>> [(index, error.offset) for index, error in check_all([b"<0>1 - - - - - -", b"<0>1"])]
    [(1, 4)]
    """
    records, before = iter(records), 0
    while True:
        batch = list(itertools.islice(records, 512))
        if not batch:
            return
        for index, error in _refused(batch):
            yield before + index, error
        before += len(batch)


@library.in_c
def refused(batch: List[bytes]) -> Optional[List[int]]:
    """The numbers of those that are not a record; None if that is left to `_refused`."""
    return None


def _refused(batch: List[bytes]) -> Iterator[Tuple[int, RecordError]]:
    """For each that is not a record, its index, and why."""
    numbers = refused(batch)
    if numbers is not None:
        for number in numbers:
            yield number, refusal(batch[number])
        return
    try:
        framing, stream, count = Framing.LF, b"\n".join([*batch, b""]), ctypes.c_size_t()
    except TypeError:
        raise library.no_octets(next(record for record in batch if not isinstance(record, bytes))) from None
    passed = library.pass_over(framing, stream, len(stream), ctypes.byref(count))
    if passed == len(stream) and count.value == len(batch):
        return
    if stream.count(b"\n") != len(batch):
        # one has a line feed; and no octets, which cannot be counted, have the fault of those that begin wrong
        framing, stream = Framing.COUNTED, b"".join(framed(bytes(record) or b"?") for record in batch)
    for number, error in check_stream(stream, framing):
        yield number - 1, error

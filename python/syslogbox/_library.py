"""The calls of libsyslogbox by ctypes, and the module in C that makes some of them faster, where it is there."""
from __future__ import annotations

import ctypes
import importlib
import inspect
import operator
import os
import struct
import sys
from pathlib import Path
from types import ModuleType
from typing import Any, Callable, Optional, SupportsIndex, Tuple, Type, TypeVar, cast

from ._faults import FieldError, Kind, RecordError, SyslogError

NAME = "libsyslogbox.so.0"
OCTETS, SIZE, POINTER = ctypes.c_char_p, ctypes.c_size_t, ctypes.c_void_p


class Fault(ctypes.Structure):
    _fields_ = [("kind", ctypes.c_uint32), ("field", ctypes.c_uint32), ("offset", ctypes.c_uint64)]


class Span(ctypes.Structure):
    _fields_ = [("offset", ctypes.c_size_t), ("len", ctypes.c_size_t)]


class Root(ctypes.Structure):
    _fields_ = [("count", ctypes.c_uint64), ("hash", ctypes.c_uint8 * 32)]


class Parts(ctypes.Structure):
    _fields_ = [
        ("time", ctypes.c_int64),
        *((name, ctypes.c_uint32) for name in ("has_time", "facility", "severity", "has_bom")),
        *((name, Span) for name in ("hostname", "app_name", "proc_id", "msg_id", "structured_data")),
        ("elements", ctypes.c_size_t),
        ("message", Span),
    ]


class Text(ctypes.Structure):
    _fields_ = [("at", ctypes.c_char_p), ("len", ctypes.c_size_t)]


class Item(ctypes.Structure):
    _fields_ = [("part", ctypes.c_uint32), ("text", Text)]


class Fields(ctypes.Structure):
    _fields_ = [
        ("time", ctypes.c_int64),
        *((name, ctypes.c_uint32) for name in ("has_time", "facility", "severity", "has_bom")),
        *((name, Text) for name in ("hostname", "app_name", "proc_id", "msg_id")),
        ("items", ctypes.POINTER(Item)),
        ("item_count", ctypes.c_size_t),
        ("message", Text),
    ]


class Condition(ctypes.Structure):
    _fields_ = [
        ("start", ctypes.c_int64), ("end", ctypes.c_int64),
        *((name, ctypes.c_uint32) for name in ("has_start", "has_end", "undated", "has_severity", "severity")),
        ("hostname", Text), ("app_name", Text),
    ]


class Scanner(ctypes.Structure):
    _fields_ = [("inside", ctypes.c_uint32), ("left", ctypes.c_uint64)]


class Found(ctypes.Structure):
    _fields_ = [("used", ctypes.c_size_t), ("start", ctypes.c_size_t), ("end", ctypes.c_size_t)]


#: numbers of enum syslogbox_scanned
WAITS, FRAME, TOO_LONG, BROKEN = 0, 1, 2, -1
#: struct syslogbox_part_span: the part, the offset and the length
PART_SPAN = struct.Struct("@INN")
#: numbers of enum syslogbox_part
ELEMENT_ID, PARAM_NAME, PARAM_VALUE = 8, 9, 10
#: how many fields come before the structured data
FIELDS = 7


def _path() -> str:
    beside = Path(__file__).resolve().parent / NAME
    return os.environ.get("SYSLOGBOX_LIBRARY") or (str(beside) if beside.exists() else NAME)


def _unusable(why: Exception) -> ImportError:
    """What is raised if the library is not there, or lacks a call, as another one does."""
    return ImportError(f"{why}. Install libsyslogbox0, or run `make lib` and set SYSLOGBOX_LIBRARY to build/{NAME}")


try:
    # most calls are short, and keep the interpreter's lock, which costs less; those of many records give it back
    _keeping, _releasing = ctypes.PyDLL(_path()), ctypes.CDLL(_path())
except OSError as _missing:
    raise _unusable(_missing) from None


def _call(name: str, result: Any, *arguments: Any, library: ctypes.CDLL = _keeping) -> Callable[..., int]:
    try:
        function = library[f"syslogbox_{name}"]  # each time another object, with types of its own
    except AttributeError as missing:
        raise _unusable(missing) from None
    function.restype, function.argtypes = result, arguments
    return function


check = _call("check", ctypes.c_int, OCTETS, SIZE, POINTER)
# the same for a length that is an int of C, of which ctypes makes no object: it takes a third less
check_short = _call("check", ctypes.c_int, OCTETS)
SHORT = 2 ** 31
canonical = _call("canonical", ctypes.c_int64, OCTETS, SIZE, POINTER, SIZE, POINTER)
view = _call("view", ctypes.c_int, OCTETS, SIZE, POINTER, POINTER)
spans = _call("spans", ctypes.c_int64, OCTETS, SIZE, POINTER, SIZE, POINTER)
value = _call("value", ctypes.c_int64, OCTETS, SIZE, POINTER, SIZE, POINTER)
frame = _call("frame", ctypes.c_int64, ctypes.c_int, POINTER, SIZE, POINTER, POINTER)
pass_over = _call("pass", ctypes.c_int64, ctypes.c_int, POINTER, SIZE, POINTER, library=_releasing)
scan = _call("scan", ctypes.c_int, ctypes.c_int, SIZE, POINTER, SIZE, POINTER, POINTER)
build = _call("build", ctypes.c_int64, POINTER, POINTER, SIZE, POINTER)
common = _call("common", ctypes.c_int64, OCTETS, SIZE, OCTETS, SIZE, POINTER, SIZE, POINTER, library=_releasing)
minus = _call("minus", ctypes.c_int64, OCTETS, SIZE, OCTETS, SIZE, POINTER, SIZE, POINTER, library=_releasing)
select = _call("select", ctypes.c_int64, POINTER, OCTETS, SIZE, POINTER, SIZE, POINTER, library=_releasing)
digest = _call("digest", ctypes.c_int64, ctypes.c_int, OCTETS, SIZE, POINTER, SIZE, POINTER, library=_releasing)
union = _call("union", ctypes.c_int64, OCTETS, SIZE, OCTETS, SIZE, POINTER, SIZE, POINTER, library=_releasing)
root = _call("root", ctypes.c_int, OCTETS, SIZE, POINTER, POINTER, library=_releasing)
packet = _call("packet", ctypes.c_int64, ctypes.c_int, ctypes.c_int, ctypes.c_int, OCTETS, SIZE, POINTER, SIZE, POINTER)
trimmed = _call("trimmed", SIZE, OCTETS, SIZE)
_version = _call("library_version", ctypes.c_uint32)
_fault_text = _call("fault_text", ctypes.c_size_t, POINTER, POINTER, SIZE)


def _module() -> Optional[ModuleType]:
    """The module in C (_calls.c), if it was built for this Python, and the environment does not say otherwise."""
    free_threaded = "t" in getattr(sys, "abiflags", "")  # its counts of references are others
    if sys.version_info < (3, 10) or free_threaded or os.environ.get("SYSLOGBOX_CTYPES"):
        return None
    try:
        module = importlib.import_module("syslogbox._calls")
    except ImportError:
        return None
    names = "check", "canonical", "view", "spans", "value", "build", "packet", "trimmed", "fault_text", "scan"
    module.set_up({name: ctypes.cast(_keeping[f"syslogbox_{name}"], POINTER).value for name in names},
                  RecordError, FieldError)
    return module


_in_c = _module()
#: Whether the calls on records are those of the module in C; by ctypes they give the same, and take longer.
IN_C = _in_c is not None
_F = TypeVar("_F", bound=Callable[..., Any])


def in_c(function: _F) -> _F:
    """The function of this name in C, if it is there, which leaves to this one what it does not understand."""
    if _in_c is None:
        return function
    # `help` shows no types, and the defaults as numbers
    shown = [one.replace(annotation=one.empty, default=one.empty if one.default is one.empty else int(one.default))
             for one in inspect.signature(function).parameters.values()]
    text = f"{function.__name__}{inspect.Signature(shown)}\n--\n\n{function.__doc__ or ''}"
    return cast(_F, _in_c.bound(function, function.__name__, text, function.__module__))


def shows(record: Type[object], element: Type[object]) -> None:
    """Tells the module in C the classes of records and elements."""
    if _in_c is not None:
        _in_c.shows(record, element)


def library_version() -> Tuple[int, int, int]:
    """The version of the library that is loaded, as three numbers; `__version__` is that of the package.

    >>> library_version() >= (0, 4, 0)
    True
    """
    number = _version()
    return number // 10_000, number // 100 % 100, number % 100


def no_octets(value: object) -> TypeError:
    """What a call raises for an argument that is not octets."""
    return TypeError(f"octets have to be bytes, not {type(value).__name__}")


def text_file() -> TypeError:
    """What a call raises for a file that is open as text."""
    return TypeError("open the file in binary mode, not as text")


def size(octets: bytes) -> int:
    """How many octets there are. Raises TypeError for what is not bytes."""
    if not isinstance(octets, bytes):
        raise no_octets(octets)
    return bytes.__len__(octets)  # a class of its own may say something else


def whole(name: str, value: SupportsIndex) -> int:
    """The number that the argument of this name is. Raises TypeError for what is not an int."""
    try:
        return operator.index(value)
    except TypeError:
        raise TypeError(f"{name} has to be an int, not {type(value).__name__}") from None


def text_of(octets: bytes) -> Text:
    """Octets that are lent to a call."""
    return Text(octets, len(octets))


@in_c
def fault_text(kind: int, where: int, offset: int) -> str:
    """What a fault of the library says."""
    fault, out = Fault(kind, where, offset), bytearray(128)
    length = _fault_text(ctypes.byref(fault), room_of(out), len(out))
    return out[:length].decode("ascii")


def error_of(error: Type[SyslogError], fault: Fault) -> Exception:
    """What a fault of the library is in Python."""
    if fault.kind == Kind.NO_MEMORY:
        return MemoryError("libsyslogbox is out of memory")
    return error(fault.kind, fault.field, fault.offset)


def address(octets: bytes) -> int:
    """Where octets are in memory, as long as they are held."""
    return ctypes.cast(OCTETS(octets), POINTER).value or 0


def room_of(out: bytearray) -> Any:
    """A pointer to a room; an array of ctypes would need a type of its own for each length."""
    return ctypes.byref(ctypes.c_char.from_buffer(out))


def text(error: Type[SyslogError], call: Callable[..., int], room: int, *arguments: object) -> bytes:
    """What a call writes, into so much room."""
    out, fault = bytearray(max(room, 1)), Fault()
    written = call(*arguments, room_of(out), room, ctypes.byref(fault))
    if written < 0:
        raise error_of(error, fault)
    return bytes(memoryview(out)[:written])

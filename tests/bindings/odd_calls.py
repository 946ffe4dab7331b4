"""Prints what the package answers to odd arguments, a line each: whichever way it makes its calls, the lines are the same."""
import copy
import dataclasses
import importlib
import inspect
import pickle
import sys

import syslogbox
from syslogbox import Dialect, Element, Record

LINE = b'<34>1 2026-11-28T10:00:00+01:00 h su - - [b][a@1 k="x\\"\\]" k="\xc3\xa9"] \xef\xbb\xbfhi'
WHOLE = syslogbox.view(LINE)


class Octets(bytes):
    """Octets of a class of its own."""


class Short(bytes):
    """Octets that tell a wrong length."""

    def __len__(self):
        return 3


class Words(str):
    """A string of a class of its own."""


class Other(Record):
    """A record of a class of its own."""


class Named:
    """A record that is none, with all that one has."""

    def __getattr__(self, name):
        return getattr(WHOLE, name)


def answer(call, *args, **names):
    """What a call returns, or raises, as text."""
    try:
        seen = call(*args, **names)
        return repr(list(seen) if inspect.isgenerator(seen) else seen)
    except Exception as told:
        return f"{type(told).__name__} {told} {vars(told)}"


def of_octets():
    strange = [b"", LINE, Octets(LINE), Short(LINE), LINE[:9], LINE + b"\r\n", LINE[:60], "text", None, 7, 1.5, bytearray(LINE), memoryview(LINE), [1],
               (LINE,), b"<0>1 - - - - - " + b"[a" + b' k="\\\\"' * 5_000 + b"] x", b"<0>1 - - - - - [a][a]", b"x" * 600_000,
               b"<0>1 - - - - - - " + b"x" * 524_278, b"<0>1 - - - - - - " + b"x" * 524_279, b"\x00" * 40, b"<0>1 0000-01-01T00:00:00+01:00 - - - - -"]
    for call in (syslogbox.check, syslogbox.is_record, syslogbox.canonical, syslogbox.view, syslogbox.trimmed, syslogbox.framed):
        for one in strange:
            yield call.__name__, answer(call, one)
        yield call.__name__, answer(call)
        yield call.__name__, answer(call, LINE, LINE)
        yield call.__name__, answer(call, record=LINE), answer(call, frame=LINE), answer(call, octets=LINE), answer(call, LINE, record=LINE)
    for one in strange:
        yield "check_all", answer(syslogbox.check_all, [LINE, one]), answer(syslogbox.check_all, one)
        yield "framed", answer(syslogbox.records, one), answer(syslogbox.frames, one), answer(syslogbox.check_stream, one)
    yield "check_all", answer(syslogbox.check_all, [LINE, LINE[:9]] * 2_000 + [b"", b"\n", Octets(b"\n")])


def of_records():
    long, deep = 2 ** 70, ("k", "v")
    fields = {"facility": [-1, 0, 23, 24, long, -long, True, "1", None, 1.0], "severity": [-1, 7, 8, 2 ** 32, long, False, None],
              "micros": [None, 0, -1, long, -long, 2 ** 63, 253_402_300_799_999_999, -62_167_219_200_000_000, -62_167_219_200_000_001, True, 1.5, "x"],
              "hostname": ["", "-", "x" * 255, "x" * 256, "h\xf6st", "\ud800", "a b", 5, b"x", Words("h"), []],
              "elements": [(), [], [Element("a")], (Element("a"), Element("a")), (Element("b", (deep,)), Element("a", (deep, deep))), ("a",), None,
                           (Element("a", [deep]),), (Element("a", (["k", "v"],)),), (Element("a", (("k",),)),), (Element("a", (("k", 1),)),),
                           (Element("\ud800"),), (Element("a", (("k", "\ud800"),)),), (Element("a b"),), (Element("a", (("", "v"),)),),
                           (Element("a", (("k", "\"\\]\n\xe9\U0001f600" * 99),)),), (Element(Words("a")),), (Element("x" * 32), Element("x" * 33)),
                           tuple(Element(f"e{n}", (deep,) * 20) for n in range(50)), (Element(None),), (Element("a", None),), "ab"],
              "message": [b"", b"\xff", b"\xef\xbb\xbfx", b"x" * 524_288, "x", None, bytearray(b"x"), Octets(b"x"), Short(b"x" * 999)],
              "bom": [True, False, 0, 1, 2 ** 32, None, "x"]}
    for name, values in fields.items():
        for value in values:
            for whole in (WHOLE, Record(0, 0, None, None, None, None, None)):
                yield name, repr(value)[:60], answer(lambda: syslogbox.build(dataclasses.replace(whole, **{name: value})))
    for one in (None, 7, b"x", Named(), Other(**vars(WHOLE)), WHOLE.elements[0]):
        yield "build", type(one).__name__, answer(syslogbox.build, one)
    yield "build", answer(syslogbox.build), answer(syslogbox.build, record=WHOLE), answer(syslogbox.build, WHOLE, 1)


def of_packets():
    packet = b"<13>Oct 11 22:14:15.5 h a[1] x"
    for year in (2003, 1, 9_998, 0, 9_999, -1, 2 ** 31, 2 ** 40, -2 ** 70, True, "2003", None, 2003.0):
        yield "year", repr(year), answer(syslogbox.legacy, packet, year), answer(syslogbox.legacy, packet, year=year)
    for minutes in (0, 1_439, 1_440, -1_439, -1_440, 2 ** 40, True, "0", None):
        yield "minutes", repr(minutes), answer(syslogbox.legacy, packet, 2003, minutes), answer(syslogbox.legacy, packet, 2003, offset_minutes=minutes)
    for dialect in (1, 2, 3, 0, -1, 2 ** 70, True, Dialect.WIDE, "WIDE", None, 1.0):
        yield "dialect", repr(dialect), answer(syslogbox.legacy, packet, 2003, dialect=dialect), answer(syslogbox.legacy, packet, 2003, 0, dialect)
    for one in (b"", b"<0>1 x", LINE, b"\xef\xbb\xbf\xff", Octets(packet), Short(packet), "x", None, bytearray(packet), b"x" * 524_295, b"x" * 524_296):
        yield "packet", answer(syslogbox.legacy, one, 2003), answer(syslogbox.legacy, packet=one, year=2003)
    yield "legacy", answer(syslogbox.legacy), answer(syslogbox.legacy, packet), answer(syslogbox.legacy, packet, 2003, wrong=1)


def of_streams():
    stream = b"3 abc2 de" * 200 + b"999 " + b"x" * 999 + b"1 f"
    for octets in (b"", stream, stream + b"x", stream + b"9 a", b"12", b"0 ", b"\n\n", b"a\nb\n", b"a\nb"):
        for framing in (1, 2):
            for longest in (-1, 0, 2, 3, 998, 999, 2 ** 70):
                for piece in (1, 7, 65_536):
                    told = []
                    seen = answer(syslogbox.frames, octets, framing, longest=longest, piece=piece, too_long=told.append)
                    yield framing, longest, piece, seen, told, answer(syslogbox.frames, octets, framing, longest=longest, piece=piece)
            yield framing, answer(syslogbox.records, octets, framing), answer(syslogbox.check_stream, octets, framing)


def of_objects():
    """What a record can do that was read."""
    yield list(vars(WHOLE).items()), list(vars(WHOLE.elements[0])), hash(WHOLE) == hash(Record(**vars(WHOLE))), WHOLE == Record(**vars(WHOLE))
    for call in (copy.copy, copy.deepcopy, dataclasses.asdict, dataclasses.astuple, Record.asdict, Record.json, repr):
        yield call.__name__, answer(call, WHOLE)
    yield answer(lambda: pickle.loads(pickle.dumps(WHOLE))), answer(setattr, WHOLE, "facility", 1), answer(delattr, WHOLE.elements[0], "id")
    for call in (syslogbox.check, syslogbox.view, syslogbox.legacy, syslogbox.build):
        names = [(one.name, one.kind, one.default == 1, one.default == 0) for one in inspect.signature(call).parameters.values()]
        yield call.__name__, call.__qualname__, call.__module__, call.__doc__, names, pickle.loads(pickle.dumps(call)) is call
    for kind in range(0, 21):
        for field in (0, 4, 11, 12):
            yield answer(syslogbox.RecordError, kind, field, 2 ** 64 - 1), answer(syslogbox.RecordError, kind, field, -1)


def of_modules():
    """Modules that are loaded again, and an import that was broken off, as Ctrl-C does, before it is tried again."""
    for name in ("_faults", "_library", "_records", "_streams"):
        yield name, answer(lambda: importlib.reload(sys.modules[f"syslogbox.{name}"]).__name__)
    for place in ("in_c", "Dialect", "Refusal"):
        def stop(frame, event, _):
            if event == "call" and frame.f_code.co_name == place:
                sys.setprofile(None)
                raise KeyboardInterrupt

        for name in [name for name in sys.modules if name.split(".")[0] == "syslogbox"]:
            del sys.modules[name]
        sys.setprofile(stop)
        try:
            importlib.import_module("syslogbox")
            yield place, "is not there"
        except KeyboardInterrupt:
            yield place, answer(lambda: importlib.import_module("syslogbox").view(LINE))
            yield place, answer(lambda: importlib.import_module("syslogbox").view(b"<0>1")), answer(syslogbox.view, LINE)


if __name__ == "__main__":
    for part in (of_octets, of_records, of_packets, of_streams, of_objects, of_modules):
        for row in part():
            print(part.__name__, *row)

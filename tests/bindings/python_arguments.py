"""The package for Python: what it says of wrong arguments and of a library that is not there, and its docstrings."""
import codecs
import inspect
import io
import logging
import sys
import tempfile

from lib.program import ROOT, run

RECORD = b"<0>1 - - - - - -"
ADVICE = b". Install libsyslogbox0, or run `make lib` and set SYSLOGBOX_LIBRARY to build/libsyslogbox.so.0\n"


def raised(call):
    """What a call raises: its type, and what it says."""
    try:
        return call()
    except Exception as told:
        return type(told), str(told)


def refused(results, name, call, error, *words):
    """A call raises an exception of a type, and says these words."""
    seen = raised(call)
    says = isinstance(seen, tuple) and seen[0] is error and all(word in seen[1] for word in words)
    results.check(f"Python: {name} is refused", says, str(seen))


def framings(results, package):
    """A framing that is none is refused before anything is written."""
    sink = io.BytesIO()
    for wrong in ("counted", "lf", 0, 7, None):
        says = ValueError, f"{wrong!r} is not a valid Framing"
        refused(results, f"a frame in {wrong!r}", lambda: package.framed(b"a", wrong), *says)
        refused(results, f"a stream in {wrong!r}", lambda: list(package.records(b"", wrong)), *says)
        refused(results, f"a whole stream in {wrong!r}", lambda: list(package.check_stream(b"", wrong)), *says)
        if wrong is not None:
            refused(results, f"a handler in {wrong!r}", lambda: package.Handler(sink, wrong), *says)
    seen = [package.framed(b"a", framing) for framing in (1, 2, package.Framing.COUNTED, package.Framing.LF)]
    results.check("Python: a framing may be its number", seen == [b"1 a", b"a\n"] * 2, str(seen))
    seen = [package.Handler(sink, framing).framing for framing in (1, package.Framing.LF, None)]
    results.check("Python: a handler has its framing", seen == [package.Framing.COUNTED, package.Framing.LF, None], str(seen))


class Text:
    """A file that is open for text, and does not say so."""

    def read(self, size):
        return "16 <0>1 - - - - - -"[:size]


def files(results, package, folder):
    """Files for text are refused, as sources and for a handler, and so is what is no file."""
    mode, path = "open the file in binary mode", folder.file("log", b"16 <0>1 - - - - - -")
    coded = codecs.open(path, "r+", "utf-8")
    with open(path) as text, open(path, "a") as into, tempfile.NamedTemporaryFile("w+") as wrapped, coded:
        wrapped.write("16 <0>1 - - - - - -")
        for file in (io.StringIO("16 <0>1 - - - - - -"), io.StringIO(), text, wrapped, Text()):
            name = type(file).__name__
            refused(results, f"records of a {name}", lambda: next(package.records(file)), TypeError, mode)
            refused(results, f"frames of a {name}", lambda: next(package.frames(file)), TypeError, mode)
        for file in (io.StringIO(), into, wrapped, coded):
            refused(results, f"a handler of a {type(file).__name__}", lambda: package.Handler(file), TypeError, mode)
    for file in ("file.log", None, Text()):
        says = TypeError, "file has to be", type(file).__name__
        refused(results, f"a handler of {type(file).__name__}", lambda: package.Handler(file), *says)
    with tempfile.NamedTemporaryFile() as wrapped, tempfile.SpooledTemporaryFile() as spooled, open(path, "ab") as into:
        for file in (wrapped, spooled, into, io.BytesIO()):
            logger = logging.Logger("files")
            logger.addHandler(package.Handler(file, package.Framing.LF, formatter=package.Formatter("app")))
            logger.error("written")
            results.check(f"Python: a handler of a {type(file).__name__}", file.tell() > 40, str(file.tell()))


def octets(results, package):
    """What is not bytes is refused by its type, in each place of each call."""
    calls = [("check", package.check), ("is_record", package.is_record), ("canonical", package.canonical), ("view", package.view),
             ("legacy", lambda wrong: package.legacy(wrong, 2026)), ("framed", package.framed),
             ("a line", lambda wrong: package.framed(wrong, package.Framing.LF)),
             ("union, left", lambda wrong: package.union(wrong, b"")), ("root", lambda wrong: package.root(wrong)), ("union, right", lambda wrong: package.union(b"", wrong)),
             ("check_stream", lambda wrong: list(package.check_stream(wrong)))]
    for wrong in ("<0>1", None, 7, 1e3, bytearray(RECORD), [1]):
        for name, call in calls:
            refused(results, f"{name} of a {type(wrong).__name__}", lambda: call(wrong), TypeError,
                    f"octets have to be bytes, not {type(wrong).__name__}")
    for wrong in ("<0>1", None, 7):
        says = TypeError, f"octets have to be bytes, not {type(wrong).__name__}"
        refused(results, f"records of a {type(wrong).__name__}", lambda: next(package.records(wrong)), *says)
        refused(results, f"check_all with a {type(wrong).__name__}", lambda: list(package.check_all([RECORD, wrong])), *says)
    refused(results, "check_all of octets", lambda: list(package.check_all(b"<0>1")), TypeError, "octets have to be bytes, not int")


def numbers(results, package):
    """Arguments that are no numbers are told by their names; a facility may be given by its name."""
    for name, call, wrong in [("year", lambda: package.legacy(b"x", "2026"), "str"), ("year", lambda: package.legacy(b"x", None), "NoneType"),
                              ("offset_minutes", lambda: package.legacy(b"x", 2026, 1e3), "float"),
                              ("facility", lambda: package.Formatter(facility=1.5), "float"),
                              ("facility", lambda: package.Formatter(facility=None), "NoneType")]:
        refused(results, f"a {name} of {wrong}", call, TypeError, f"{name} has to be an int", wrong)
    for wrong in (-1, 24, "local8", "LOCAL0", ""):
        refused(results, f"the facility {wrong!r}", lambda: package.Formatter(facility=wrong), ValueError, repr(wrong), "from 0 to 23")
    for priority in range(0, 192, 8):
        name = package.view(b"<%d>1 - - - - - -" % priority).asdict()["facility"]
        seen = [package.Formatter(facility=facility).facility for facility in (priority // 8, name)]
        results.check(f"Python: the facility {name}", seen == [priority // 8] * 2, str(seen))


def line_feeds(results, package):
    """Counted frames and bare octets keep the line feeds of what is logged, and lines have spaces in their place."""
    for framing, right in [(package.Framing.COUNTED, "one\ntwo"), (None, "one\ntwo"), (package.Framing.LF, "one two")]:
        sink = io.BytesIO()
        logger = logging.Logger("lines")
        logger.addHandler(package.Handler(sink, framing, formatter=package.Formatter("app")))
        logger.error("one\ntwo", extra={"structured_data": {"a": {"k": "one\ntwo"}}})
        (one,) = package.records(sink.getvalue(), framing) if framing else [package.view(sink.getvalue())]
        seen = one.text, one.elements[0].params[0][1]
        results.check(f"Python: line feeds, {framing}", seen == (right, right), str(seen))
    for name, text in [("docs/LIBRARY.md", (ROOT / "docs/LIBRARY.md").read_text()), ("Handler", package.Handler.__doc__)]:
        said = "use counted frames to keep line feeds" in " ".join(text.split())
        results.check(f"Python: {name} says what becomes of line feeds", said, text[-300:])


def too_long(results, package):
    """What is logged and has no room in a frame goes to handleError, and nothing is written of it."""
    class Told(package.Handler):
        def handleError(self, record):
            told.append(sys.exc_info()[1])

    for framing in (package.Framing.COUNTED, package.Framing.LF, None):
        told, sink = [], io.BytesIO()
        logger = logging.Logger("long")
        logger.addHandler(Told(sink, framing, formatter=package.Formatter("app")))
        logger.error("x" * package.FRAME_MAX)
        seen = sink.getvalue(), [type(one) for one in told]
        results.check(f"Python: a record that is too long, {framing}", seen == (b"", [ValueError]), str(seen[1]))


class Slow:
    """A source that does not wait: between two parts it has nothing."""

    def __init__(self, *parts):
        self.parts = list(parts)

    def read(self, size):
        return self.parts.pop(0) if self.parts else b""


def not_waiting(results, package):
    """A source that has nothing yet is told, and is no end."""
    for octets in b"", b"16 <0>1 - -":
        source = package.records(Slow(b"16 <0>1 - - - - - -", octets or None, None, b"16 <0>1 - - - - - -"))
        first = next(source)
        seen = raised(lambda: list(source))
        right = first.priority == 0 and isinstance(seen, tuple) and seen[0] is BlockingIOError
        results.check(f"Python: a source that does not wait, behind {octets}", right, str(seen))


def described(results, package):
    """Each public class and function, and each public function of a class, has a docstring of its own."""
    for name in package.__all__:
        public = getattr(package, name)
        inside = vars(public).items() if inspect.isclass(public) else ()
        every = [(f"{name}.{one}", what) for one, what in inside if inspect.isfunction(what) and not one.startswith("_")]
        for of, what in [(name, public)] * (inspect.isclass(public) or inspect.isroutine(public)) + every:
            results.check(f"Python: {of} has a docstring", what.__doc__ and "NotImplementedError" not in what.__doc__, str(what.__doc__))


def loaded(results, package, way):
    """The version of the library, and what is said of a library that is not there, or is another one."""
    right = tuple(map(int, run("sh", ["scripts/version.sh"], cwd=ROOT)[1].split(b".")))
    results.check("Python: the version of the library", package.library_version() == right, str(package.library_version()))
    for name, path in [("none", "/no/library.so"), ("no library", "/dev/null"), ("another one", "libc.so.6")]:
        status, _, notes = run(sys.executable, ["-c", "import syslogbox"],
                               environment={**way.environment(), "SYSLOGBOX_LIBRARY": path})
        told = notes.splitlines(keepends=True)[-1]
        right = told.startswith(b"ImportError: ") and path.encode() in told and told.endswith(ADVICE)
        results.check(f"Python: what is said of {name}", status == 1 and right, told)


def arguments(results, folder, package, way):
    framings(results, package)
    files(results, package, folder)
    octets(results, package)
    numbers(results, package)
    line_feeds(results, package)
    too_long(results, package)
    not_waiting(results, package)
    described(results, package)
    loaded(results, package, way)

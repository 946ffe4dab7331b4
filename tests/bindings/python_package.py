"""The package for Python: its examples and types, records of files, octets and sockets, and the wheel and the sdist."""
import base64
import csv
import doctest
import hashlib
import importlib
import io
import logging
import os
import pickle
import pkgutil
import re
import shutil
import socket
import sys
import tarfile
import zipfile
from queue import Empty, Queue
from threading import Thread

from bindings.building import headers_of_python
from lib import reference
from lib.program import ROOT, run

# what a user's program does, as type checkers read it
USER = """import io
import socket
import subprocess
from typing import Iterator, List, Optional

import syslogbox


def names(source: syslogbox.Source) -> Iterator[Optional[str]]:
    for one in syslogbox.records(source):
        if isinstance(one, syslogbox.Refusal):
            print(one.number, one.kind.name, one.field.name, one.offset)
        else:
            yield one.app_name


def wrong(error: syslogbox.SyslogError) -> int:
    return error.offset


process = subprocess.Popen(["cat"], stdout=subprocess.PIPE)
assert process.stdout
every: List[Optional[str]] = [*names(process.stdout), *names(b""), *names(socket.socket()), *names(io.BytesIO())]
with open("stream", "rb") as stream:
    every += names(stream)
    print([index + error.offset for index, error in syslogbox.check_all(syslogbox.frames(stream))])
handler = syslogbox.Handler(socket.socket().makefile("wb"), None, formatter=syslogbox.Formatter("app", facility="local0"))
version: int = syslogbox.library_version()[0]
text: str = syslogbox.view(b"").json()
"""
NOT_TYPED = "import syslogbox\nsyslogbox.check('text')\n"


def modules(package):
    yield package
    for inside in pkgutil.iter_modules(package.__path__):
        yield importlib.import_module(f"{package.__name__}.{inside.name}")


def examples(results, package):
    """Each example of a docstring shows what is printed, with the names of its module alone."""
    for module in modules(package):
        told = doctest.testmod(module)
        results.check(f"Python: the examples of {module.__name__}", told.failed == 0, str(told))


def tour(results, package):
    """What docs/LIBRARY.md shows of Python is what is printed."""
    text = (ROOT / "docs/LIBRARY.md").read_text()
    blocks = re.findall(r"^```pycon\n(.*?)^```$", text, re.MULTILINE | re.DOTALL)
    shown = doctest.DocTestParser().get_doctest("\n".join(blocks), {}, "docs/LIBRARY.md", "docs/LIBRARY.md", 0)
    said = []
    told = doctest.DocTestRunner().run(shown, out=said.append)
    results.check("docs/LIBRARY.md has a tour of Python", told.attempted > 10 and not told.failed, "".join(said))
    recipe(results, package, text)


def recipe(results, package, text):
    """The recipe for pandas, if that is here."""
    try:
        importlib.import_module("pandas")
    except ImportError:
        results.skip("the recipe for pandas", "there is no pandas")
        return
    (block,) = re.findall(r"^```python\n(.*?)^```$", text, re.MULTILINE | re.DOTALL)
    records = [b"<34>1 2026-11-28T10:00:00Z h a - - - x", b"<35>1 - h b - - - y"]
    names = {"stream": io.BytesIO(reference.counted([*records, b"<0>1"]))}
    exec(block, names)
    table = names["table"]
    seen = list(table["severity"]), str(table["time"][0]), bool(table["time"].isna()[1])
    results.check("the recipe for pandas", seen == (["crit", "err"], "2026-11-28 10:00:00+00:00", True), str(seen))


def typed(results, folder):
    if not shutil.which("mypy"):
        results.skip("the types of the package", "there is no mypy")
        return
    words, environment = ["--strict", "--cache-dir", folder.path / "types"], {"MYPYPATH": str(ROOT / "python")}
    for version in [[], ["--python-version", "3.8"]]:
        seen = run("mypy", [*words, *version, "-p", "syslogbox"], environment=environment, timeout=300)
        results.check(f"Python: mypy accepts the package {version}", seen[0] == 0, seen[1].decode())
    for name, text, status in [("user.py", USER, 0), ("wrong.py", NOT_TYPED, 1)]:
        seen = run("mypy", [*words, folder.file(name, text.encode())], environment=environment, timeout=300)
        results.check(f"Python: what mypy says of {name}", seen[0] == status, seen[1].decode())


# ---- records

def told(refusal):
    return refusal.number, refusal.kind, refusal.field, refusal.offset


def records(results, package, frames, answers):
    """The records of a stream in each of its forms, and the refusals in their places, with field and offset."""
    some = [(frame, answer) for frame, answer in zip(frames, answers) if 0 < len(frame) <= package.FRAME_MAX][:3_000]
    stream = reference.counted(frame for frame, _ in some)
    right = [(n, *answer) for n, (_, answer) in enumerate(some, 1) if not isinstance(answer, bytes)]
    views = [package.view(frame) for frame, answer in some if isinstance(answer, bytes)]
    for name, source in [("octets", stream), ("a file", io.BytesIO(stream)), ("a file without read1", Slow(stream)), ("a socket", sent(stream))]:
        shown = list(package.records(source))
        refused = [one for one in shown if isinstance(one, package.Refusal)]
        results.check(f"Python: records of {name}", [one for one in shown if isinstance(one, package.Record)] == views)
        results.check(f"Python: refusals of {name}", [told(one) for one in refused] == right, f"{len(refused)} for {len(right)}")
    placed = all(stream[one.position:].split(b" ", 1)[1].startswith(one.octets) for one in refused)
    results.check("Python: a refusal has its octets and their position", placed)
    as_they_come(results, package)
    ends(results, package)
    datagrams(results, package)


class Slow:
    """A file that has `read` alone, and gives few octets."""

    def __init__(self, octets):
        self.file = io.BytesIO(octets)

    def read(self, size):
        return self.file.read(min(size, 1_000))


def sent(octets):
    """A socket from which octets come, and then an end."""
    reader, sender = socket.socketpair()

    def send():
        with sender:
            sender.sendall(octets)

    Thread(target=send, daemon=True).start()
    return reader


def as_they_come(results, package):
    """A record is there as soon as its frame is whole, while what sends stays open."""
    (read, written), (reader, sender) = os.pipe(), socket.socketpair()
    with sender, reader, open(read, "rb") as pipe, open(written, "wb", buffering=0) as into:
        for name, source, send in [("a socket", reader, sender.sendall), ("a pipe", pipe, into.write)]:
            shown, seen = package.records(source), Queue()
            Thread(target=lambda: seen.put(next(shown)), daemon=True).start()
            send(b"17 <13>1 - - - - - -4 <0>")
            try:
                one = seen.get(timeout=10).severity
            except Empty:
                one = "none"
            results.check(f"Python: a record of {name} as it comes", one == 5, str(one))


def ends(results, package):
    """Frames that are too long are refused and passed over; how a stream ends is raised."""
    record, long = b"<0>1 - - - - - -", b"x" * 100
    for framing, name in [(package.Framing.COUNTED, "counted"), (package.Framing.LF, "lf")]:
        stream = b"".join(reference.framed(name, frame) for frame in (record, long, record))
        first, refusal, last = package.records(stream, framing, longest=99)
        position = len(reference.framed(name, record))
        seen = first == last, refusal.number, refusal.position, refusal.octets, refusal.kind.name, refusal.offset
        results.check(f"Python: a frame that is too long, {name}", seen == (True, 2, position, None, "TOO_LONG", position), str(seen))
        results.check(f"Python: a refusal as text, {name}", str(refusal) == f"frame 2: {refusal.error}", str(refusal))
    try:
        seen = next(package.records(bytearray(b"16 <0>1 - - - - - -")))
    except TypeError as error:
        seen = str(error)
    results.check("Python: octets that are not bytes are refused", "bytearray" in str(seen), str(seen))
    for octets, kind in [(b"16 <0>1", "UNTERMINATED"), (b"x", "BAD_COUNT")]:
        try:
            list(package.records(reference.counted([record]) + octets))
            seen = None
        except package.StreamError as error:
            seen = error.kind.name, error.offset
        results.check(f"Python: {kind} of records", seen == (kind, 19), str(seen))


def datagrams(results, package):
    """Each datagram is a record, an empty one too, and the iterator waits for the next one."""
    reader, sender = socket.socketpair(socket.AF_UNIX, socket.SOCK_DGRAM)
    reader.settimeout(5)
    shown = package.records(reader, longest=20)
    for octets, right in [(b"<13>1 - - - - - -", 5), (b"", (2, 1, 1, 0)), (b"<0>1" * 9, (3, 102, 0, 17)), (b"<14>1 - - - - - -", 6)]:
        sender.send(octets)
        one = next(shown)
        seen = told(one) if isinstance(one, package.Refusal) else one.severity
        results.check(f"Python: a datagram of {len(octets)} octets", seen == right, str(seen))
    reader.settimeout(0.01)
    try:
        seen = next(shown)
    except socket.timeout as late:
        seen = type(late)
    results.check("Python: the timeout of a socket is raised", seen is socket.timeout, str(seen))


def logged(results, package):
    """What is logged into a socket for datagrams is a record a datagram, line feeds too."""
    reader, sender = socket.socketpair(socket.AF_UNIX, socket.SOCK_DGRAM)
    reader.settimeout(5)
    logger = logging.Logger("lines")
    logger.addHandler(package.Handler(sender.makefile("wb", buffering=0), None, formatter=package.Formatter("app")))
    shown = package.records(reader)
    for text in ("one\ntwo", "three"):
        logger.info(text)
        results.check(f"Python: {text!r} is logged into a socket", next(shown).text == text)


def instants(results, package):
    """The first and the last instants, and years that `datetime` does not have."""
    for stamp in ["0000-01-01T00:00:00.000000Z", "0000-02-29T23:59:59.999999Z", "0000-12-31T23:59:59.999999Z", "0001-01-01T00:00:00.000000Z",
                  "1969-12-31T23:59:59.999999Z", "9999-12-31T23:59:59.999999Z"]:
        seen = package.view(f"<0>1 {stamp} - - - - -".encode()).timestamp
        results.check(f"Python: the instant {stamp}", seen == stamp, str(seen))


def pickled(results, package):
    """What is refused, and a record, go from one process to another as they are."""
    error = package.RecordError(1, 2, 4)
    same = pickle.loads(pickle.dumps(error))
    seen = type(same) is package.RecordError, same.kind, same.field, same.offset, str(same) == str(error)
    results.check("Python: an exception is pickled", seen == (True, package.Kind.SYNTAX, package.Field.VERSION, 4, True), str(seen))
    for one in (package.view(b"<0>1 - - - - - [a b=\"c\"] x"), package.Refusal(1, 0, b"x", error)):
        same = pickle.loads(pickle.dumps(one))
        results.check(f"Python: a {type(one).__name__} is pickled", type(same) is type(one) and repr(same) == repr(one), repr(same))


# ---- wheel and sdist

def built(folder, name, environment=None):
    """What the backend writes into a folder of this name."""
    to = folder.path / name
    to.mkdir()
    status, output, notes = run(sys.executable, ["-B", ROOT / "python/backend.py", to], environment=environment)
    return {path.name: path for path in sorted(to.iterdir())}, (output + notes).decode()


def packed(results, folder):
    """The wheel and the sdist: names, files, checksums, and the same octets of the same sources."""
    files, said = built(folder, "packed")
    again, _ = built(folder, "packed again")
    results.check("Python: a wheel and an sdist are built", len(files) == 2, said)
    for name, file in files.items():
        results.check(f"Python: twice the same octets: {name}", name in again and file.read_bytes() == again[name].read_bytes())
    wheels = [file for file in files.values() if file.suffix == ".whl"]
    sdists = [file for file in files.values() if file.suffix == ".gz"]
    if len(wheels) != 1 or len(sdists) != 1:
        return
    with zipfile.ZipFile(wheels[0]) as wheel:
        inside = {name: wheel.read(name) for name in wheel.namelist()}
    least = max(int(minor) for name, octets in inside.items() if ".so" in name for minor in re.findall(rb"GLIBC_2\.(\d+)", octets))
    tag = re.fullmatch(r"syslogbox-[\d.]+-py3-none-manylinux_2_(\d+)_x86_64(\.manylinux2014_x86_64)?\.whl", wheels[0].name)
    results.check("Python: the wheel's platform has the glibc that its files need", tag and int(tag[1]) >= least, wheels[0].name)
    results.check("Python: the wheel has the module in C", ("syslogbox/_calls.abi3.so" in inside) == headers_of_python(), str(list(inside)))
    recorded(results, inside)
    tagged(results, wheels[0], inside)
    with tarfile.open(sdists[0]) as sdist:
        names = {name.split("/", 1)[1] for name in sdist.getnames()}
    package = {name for name in inside if name.startswith("syslogbox/") and ".so" not in name}
    others = {"PKG-INFO", "backend.py", "pyproject.toml", "_calls.c", "syslogbox.h"}
    results.check("Python: the sdist has the package", names == package | others, str(names ^ package))
    if shutil.which("twine"):
        status, output, notes = run("twine", ["check", "--strict", *files.values()])
        results.check("Python: twine accepts them", status == 0, (output + notes).decode())
    else:
        results.skip("twine accepts the wheel and the sdist", "there is no twine")
    installed(results, folder, wheels[0], sdists[0])


def recorded(results, inside):
    """RECORD has each file of the wheel, with its checksum (the binary distribution format, "The .dist-info directory")."""
    (name,) = (name for name in inside if name.endswith("/RECORD"))
    rows = {row[0]: row[1:] for row in csv.reader(inside[name].decode().splitlines())}
    right = {path: [f"sha256={base64.urlsafe_b64encode(hashlib.sha256(octets).digest()).decode().rstrip('=')}", str(len(octets))]
             for path, octets in inside.items() if path != name}
    results.check("Python: RECORD has each file of the wheel", rows == {**right, name: ["", ""]}, str(rows))
    for path in ("syslogbox/py.typed", "syslogbox/libsyslogbox.so.0"):
        results.check(f"Python: the wheel has {path}", path in inside, str(sorted(inside)))


def tagged(results, wheel, inside):
    """WHEEL has the tags of the wheel's name, each platform on its own."""
    (about,) = (octets.decode() for name, octets in inside.items() if name.endswith("/WHEEL"))
    python, abi, platforms = wheel.name[:-4].split("-")[2:]
    right = [f"Tag: {python}-{abi}-{platform}" for platform in platforms.split(".")]
    seen = [line for line in about.splitlines() if line.startswith("Tag: ")]
    results.check("Python: WHEEL has the tags of the name", seen == right and "Root-Is-Purelib: false" in about, about)


PROGRAM = "import syslogbox; print(syslogbox.view(b'<0>1 - - - - - -').severity, syslogbox.IN_C)"


def installed(results, folder, wheel, sdist):
    """pip puts each into a fresh environment: the wheel runs as it is, and what is built of the sdist by the library that is named."""
    place = folder.path / "environment"
    status, output, notes = run(sys.executable, ["-m", "venv", place], timeout=300)
    if status:
        results.skip("pip install in a fresh environment", f"there is no venv: {(output + notes)[-100:]}")
        return
    python = place / "bin/python"
    for file, library in [(wheel, ""), (sdist, str(ROOT / "build/libsyslogbox.so.0"))]:
        words = ["-m", "pip", "install", "--no-index", "--no-cache-dir", "--quiet", "--force-reinstall", file]
        status, _, notes = run(python, words, timeout=300, environment={"PIP_DISABLE_PIP_VERSION_CHECK": "1", "PYTHONPATH": ""})
        results.check(f"Python: pip install {file.name}", status == 0, notes[-300:])
        for by_ctypes in ("", "1"):
            environment = {"PYTHONPATH": "", "SYSLOGBOX_LIBRARY": library, "SYSLOGBOX_CTYPES": by_ctypes}
            right = f"0 {headers_of_python() and not by_ctypes}\n".encode()
            results.same(f"Python: what was installed of {file.name} runs", run(python, ["-c", PROGRAM], environment=environment, cwd=place),
                         (0, right, b""))
    _, where, _ = run(python, ["-c", "import syslogbox; print(syslogbox.__file__)"], cwd=place,
                      environment={"PYTHONPATH": "", "SYSLOGBOX_LIBRARY": str(ROOT / "build/libsyslogbox.so.0")})
    results.check("Python: it is the one that was installed", where.startswith(bytes(place)), str(where))
    if shutil.which("mypy"):
        # mypy reads the types of what is installed only if the package says that it has some
        words = ["--strict", "--cache-dir", place / "types", "--python-executable", python, folder.file("user.py", USER.encode())]
        seen = run("mypy", words, cwd=place, timeout=300)
        results.check("Python: mypy reads the types of what was installed", seen[0] == 0, seen[1].decode())


def package(results, module, frames, answers):
    examples(results, module)
    tour(results, module)
    records(results, module, frames, answers)
    logged(results, module)
    instants(results, module)
    pickled(results, module)


def distribution(results, folder):
    typed(results, folder)
    packed(results, folder)

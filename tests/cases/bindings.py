"""The library for other languages beside the program's answers: C under sanitizers, Python, and Go where it is there; over the
rows and random octets, with rooms that are an octet too small, and with null pointers."""
import ast
import contextlib
import ctypes
import io
import json
import logging
import re
import shutil
import sys
import time
from datetime import datetime, timezone
from random import Random

from bindings import python_arguments, python_module, python_package
from bindings.building import SANITIZED, compiled, for_go, headers_of_python, ways
from bindings.go_module import go_module
from bindings.lines import lines
from cases.colliding_ids import FRONT, STACK, colliding, data, fitting, ids, most
from cases.legacy import changed, forms, zone
from cases.legacy import rows as wide_rows
from cases.mutated import mutations
from cases.rows import MERGED, RECORDS, REFUSED
from lib import reference
from lib.program import ROOT, run

KINDS = {b"syntax": 1, b"instant-range": 2, b"repeated-id": 3, b"legacy-not-utf8": 4, b"bad-frame": 5, b"entry-too-long": 6,
         b"bad-entry": 7, b"not-canonical": 8, b"not-ascending": 9}
FIELDS = [b"", b"priority", b"version", b"timestamp", b"hostname", b"app-name", b"procid", b"msgid", b"structured-data", b"message",
          b"left", b"right"]
COUNT = 100_000
LINES = 3_000
TOO_LONG = 15, 0, reference.ENTRY_MAX
LONGEST = b"<0>1 - - - - - - " + b"x" * (reference.ENTRY_MAX - 17)  # a record of as many octets as are read
MOST = 1_000  # milliseconds that a call takes at most


def numbers(told):
    """The numbers of a fault as the program tells it: kind, field and octet."""
    words = told.split()
    if words[0] in FIELDS:
        return KINDS[words[1]], FIELDS.index(words[0]), int(words[2])
    field = FIELDS.index(words[1]) if words[0] == b"syntax" else 0
    return KINDS[words[0]], field, int(words[-1])


def of_program(program, frames, *clock):
    """What the program answers of each frame: its canonical octets, or the numbers of its fault."""
    status, output, notes = program.run(["convert", "--framing", "counted", *clock], reference.counted(frames))
    refused = dict((int(n), numbers(told)) for n, told in (line.split(b" ", 1) for line in notes.splitlines()))
    given = iter(reference.counted_frames(output)[0])
    answers = [refused[n] if n in refused else next(given) for n in range(1, len(frames) + 1)]
    return answers if status < 2 and next(given, None) is None else None


def written(folder, name, frames, answers):
    """A file of frames and their answers, as tests/bindings/calls.c and the test in Go read them."""
    lines = (f"{frame.hex()} " + (f"ok {answer.hex()}" if isinstance(answer, bytes) else "{} {} {}".format(*answer))
             for frame, answer in zip(frames, answers))
    return folder.file(name, "".join(line + "\n" for line in lines).encode())


def known(program):
    """The rows and random octets, with the program's answers, and octets that are longer than frames of the program."""
    rows = [(record, form) for _, record, form in RECORDS]
    rows += [(octets, numbers(told)) for _, octets, told in REFUSED if told != b"too-long"]
    random = Random(7)
    frames = mutations(COUNT // 2) + [random.randbytes(1 + random.randrange(60)) for _ in range(COUNT // 2)]
    answers = [row[1] for row in rows] + of_program(program, frames)
    return [row[0] for row in rows] + frames + [LONGEST, LONGEST + b"x"], answers + [LONGEST, TOO_LONG]


def in_c(program, results, folder, frames, answers):
    cases, built, said = compiled(folder, "cases", [ROOT / "tests/bindings/cases.c"], *SANITIZED)
    results.check("C: the cases are compiled", built, said)
    if built:
        results.same("C: cases", run(cases, []), (0, b"", b""))
    calls, built, said = compiled(folder, "calls", [ROOT / "tests/bindings/calls.c"], *SANITIZED)
    results.check("C: the calls are compiled", built, said)
    if not built:
        return
    records = written(folder, "records", frames, answers)
    results.same("C: records", run(calls, ["records", records]), (0, b"", b""))
    results.same("C: null pointers", run(calls, ["nulls"]), (0, b"", b""))
    for year, minutes in [(2024, 60), (2003, -480), (1, 1_439), (9_998, -1_439)]:
        some = [packet for packet in changed(Random(year), 2_000) if packet] + [packet for *_, packet, _ in forms() if packet]
        told = of_program(program, some, "--legacy", str(year), "--zone", zone(minutes))
        packed = written(folder, "packets", some, told)
        results.same(f"C: packets of {year}", run(calls, ["legacy", str(year), str(minutes), packed]), (0, b"", b""))
        some += [packet for packet, *_ in wide_rows()]
        told = of_program(program, some, "--legacy", str(year), "--zone", zone(minutes), "--dialect", "wide")
        packed = written(folder, "packets", some, told)
        results.same(f"C: packets of {year}, wide", run(calls, ["wide", str(year), str(minutes), packed]), (0, b"", b""))
    packet = b"x" * reference.ENTRY_MAX
    packed = written(folder, "packets", [packet, packet + b"x"], [b"<13>1 - - - - - - " + packet, TOO_LONG])
    results.same("C: packets that are long", run(calls, ["legacy", "2024", "0", packed]), (0, b"", b""))
    results.same("C: wide packets that are long", run(calls, ["wide", "2024", "0", packed]), (0, b"", b""))
    trims(program, results, folder, calls)
    streams(program, results, folder, calls, frames)
    scans(program, results, folder, calls, frames)
    scanning_program(results, folder)
    unions(program, results, folder, calls)
    sets(program, results, folder, calls)
    roots(program, results, folder, calls)
    calls, built, said = compiled(folder, "unsanitized", [ROOT / "tests/bindings/calls.c"], "-O1")
    results.check("C: the calls are compiled without sanitizers", built, said)
    if built:
        without_memory(program, results, calls)
        hardest(results, folder, calls)


def trims(program, results, folder, calls):
    """What is left of frames with line ends and NULs, beside what the program reads of them with --trim."""
    rows = [(front + end, front + end[:-dropped] if dropped else front + end) for front in (b"", b"a", b"\x00", b"\n", b"\r", b"\r\n")
            for end, dropped in [(b"\r\n", 2), (b"x\n", 1), (b"\n\n", 1), (b"x\r", 1), (b"x\x00", 1), (b"\n\r", 1), (b"x", 0)]]
    lines = "".join(f"{frame.hex()} {left.hex()}\n" for frame, left in rows)
    results.same("C: trimmed frames", run(calls, ["trimmed", folder.file("trimmed", lines.encode())]), (0, b"", b""))
    left = of_program(program, [b"<0>1 - - - - - - " + left for _, left in rows])
    seen = of_program(program, [b"<0>1 - - - - - - " + frame for frame, _ in rows], "--trim")
    results.check("C: the program trims so", seen == left, f"{seen} for {left}")


def interface(results):
    """The shared library has the calls of the header alone, each with the version that brought it, as they were described."""
    declared = set(re.findall(r"^[a-z]\w* (syslogbox_\w+)\(", (ROOT / "include/syslogbox.h").read_text(), re.M))
    exported = run("nm", ["-D", "--defined-only", ROOT / "build/libsyslogbox.so.0"])[1].decode().split()[2::3]
    calls = dict(name.split("@@") for name in exported if not name.startswith("SYSLOGBOX_"))
    results.check("the shared library has the header's calls alone", set(calls) == declared and len(calls) == 23, str(exported))
    version = run("sh", ["scripts/version.sh"], cwd=ROOT)[1].decode().strip()
    numbers = [int(number) for number in version.split(".")]
    right = [name for name, of in calls.items() if [int(number) for number in of.removeprefix("SYSLOGBOX_").split(".")] > numbers[:2]]
    results.check("no call is newer than the library", not right, str(calls))
    told = ctypes.CDLL(str(ROOT / "build/libsyslogbox.so.0")).syslogbox_library_version()
    results.check("the version of the library", told == 10_000 * numbers[0] + 100 * numbers[1] + numbers[2], str(told))
    if not shutil.which("abidiff"):
        results.skip("the interface of the library", "there is no abidiff")
        return
    status, output, notes = run("sh", ["scripts/abi.sh"], cwd=ROOT)
    results.check("the interface of the library is the one described", status == 0, (output + notes).decode(errors="replace"))


def header(results, folder):
    """The header alone is a program in C99 and in C++."""
    for compiler, standard in [("gcc", "c99"), ("g++", "c++11")]:
        if not shutil.which(compiler):
            results.skip(f"the header in {standard}", f"there is no {compiler}")
            continue
        words = [f"-std={standard}", "-pedantic-errors", "-Wall", "-Wextra", "-Werror", "-fsyntax-only", "-I", ROOT / "include"]
        suffix = "c" if compiler == "gcc" else "cc"
        source = folder.file(f"header.{suffix}", b"#include <syslogbox.h>\nint main(void) { return syslogbox_check(0, 0, 0); }\n")
        results.same(f"the header in {standard}", run(compiler, [*words, source]), (0, b"", b""))


def object_len(names, message):
    """How many octets the object of a record with these ids has as JSON."""
    shown = {"priority": 34, "facility": "auth", "severity": "crit", "time": "2003-10-11T22:14:15.003000Z", "host": "host", "app": "app",
             "proc": "1", "msgid": "id", "data": {name.decode(): [] for name in names}, "message": message.decode()}
    return len(json.dumps(shown, separators=(",", ":")))


def hardest(results, folder, calls):
    """What records take that have as many octets as are read, and many ids; and that one with an octet more is read by no call."""
    room = reference.ENTRY_MAX - len(FRONT) - 1
    scattered = fitting(ids(3), room)
    for name, names in [("as many as fit", most(room)), ("all of three octets", scattered),
                        ("descending", sorted(scattered, reverse=True)), ("that collide", fitting(colliding() + scattered, room))]:
        record = FRONT + data(names) + b" "
        message = b"x" * (reference.ENTRY_MAX - len(record))
        record += message
        form = len(record) + 3
        read = {"check": 1, "canonical": form, "json": object_len(names, message), "view": 1, "spans": 8 + len(names), "element": 1,
                "param": 0, "pass": len(record) + 1, "legacy": form}
        none = {"check": 0, "canonical": -1, "json": -1, "view": 0, "spans": -1, "element": 0, "param": 0, "pass": 0, "legacy": -1}
        for octets, right in [(record, read), (record + b"x", none)]:
            status, output, notes = run(calls, ["costs", folder.file("record", octets + b"\n")])
            rows = [line.split() for line in output.decode().splitlines()]
            seen = status, {row[0]: int(row[1]) for row in rows}
            results.check(f"C: {len(octets)} octets of ids, {name}", seen == (0, right), f"{seen} {notes}")
            taken = max([int(row[2]) for row in rows], default=0), max([float(row[3]) for row in rows], default=0)
            results.check(f"C: stack and time of {len(octets)} octets of ids, {name}", taken[0] <= STACK and taken[1] <= MOST, str(taken))


def without_memory(program, results, calls):
    """Each call of malloc fails in turn: one call of the library fails for it, and those that take no memory never do."""
    refused, built = [], True
    while built:
        status, name, notes = run(calls, ["memory"], environment=program.failing(malloc=len(refused) + 1))
        if (status, name, notes) == (0, b"", b""):
            break
        refused.append(name)
        results.check(f"C: allocation {len(refused)}", status == 0 and name.count(b"\n") == 1, f"{status} {name} {notes}")
        built = status == 0
    results.check("C: memory is refused", sorted(set(refused)) == [b"build\n", b"canonical\n", b"common\n", b"digest\n", b"json\n", b"legacy\n", b"minus\n", b"packet\n", b"root\n",
        b"select\n", b"union\n", b"value\n"], str(refused))


def streams(program, results, folder, calls, frames):
    """Streams in both framings, whole, cut off and with a bad count: what `check` prints of each frame."""
    some = frames[:2_000] + [b"x" * 300_000] + frames[-500:]
    counted, lines = (b"".join(reference.framed(framing, frame) for frame in some if frame) for framing in ("counted", "lf"))
    for number, framing, stream in [(1, "counted", counted), (2, "lf", lines), (1, "counted", b""), (2, "lf", b""),
                                    (1, "counted", counted[:-3]), (2, "lf", lines + b"x"), (1, "counted", counted + b"12x"),
                                    (1, "counted", counted + b"12")]:
        right = program.run(["check", "--framing", framing], stream)[1]
        seen = run(calls, ["frames", str(number), folder.file("stream", stream)])
        results.same(f"C: a stream of {len(stream)} octets, {framing}", seen, (0, right, b""))


def archives(program):
    """Pairs of archives, and of what is none."""
    random = Random(11)
    pool = [frame for frame in mutations(600) if b"\n" not in frame]
    for size in [0, 1, 2, 5, 30, 200]:
        yield [program.run(["archive", "--framing", "counted"], reference.counted(random.choices(pool, k=size)))[1]
               for _ in range(2)]
    yield from ((left, right) for _, left, right, *_ in MERGED)


def scans(program, results, folder, calls, frames):
    """Streams that come in random pieces, with frames that are too long: what `check` prints of each frame, and how they end."""
    some = frames[:300] + [b"x" * 300_000] + frames[-100:] + [b"y" * 262_145, b"z" * 262_144]
    counted, lines = (b"".join(reference.framed(framing, frame) for frame in some if frame) for framing in ("counted", "lf"))
    for number, framing, stream in [(1, "counted", counted), (2, "lf", lines), (1, "counted", counted[:-3]), (2, "lf", lines + b"x"),
                                    (1, "counted", counted + b"300000 " + b"x" * 299_999), (2, "lf", lines + b"x" * 262_145),
                                    (1, "counted", counted + b"12x"), (1, "counted", b""), (2, "lf", b"")]:
        right = program.run(["check", "--framing", framing], stream)[1]
        right = b"".join(b"unterminated\n" if line.startswith(b"unterminated") else line for line in right.splitlines(True))
        name = folder.file("stream", stream)
        for seed in (1, 2):
            seen = run(calls, ["scan", str(number), str(reference.FRAME_MAX), str(seed), name])
            results.same(f"C: a stream of {len(stream)} octets in pieces, {framing}", seen, (0, right, b""))
    short = b"".join(reference.framed("counted", frame) for frame in frames[:3_000] if frame)
    kept = [line if len(frame) <= 40 else b"%d too-long\n" % n for n, (line, frame) in enumerate(
        zip(program.run(["check", "--framing", "counted"], short)[1].splitlines(True), [frame for frame in frames[:3_000] if frame]), 1)]
    seen = run(calls, ["scan", "1", "40", "3", folder.file("stream", short)])
    results.same("C: a stream with frames of at most 40 octets", seen, (0, b"".join(kept), b""))


def scanning_program(results, folder):
    """The program of docs/LIBRARY.md that reads a stream with a scanner, on frames around its limit, and on streams that break off."""
    text = (ROOT / "docs/LIBRARY.md").read_text().split("\n## C\n")[1].split("\n## ")[0]
    _, source = re.findall(r"^```c\n(.*?)^```$", text, re.MULTILINE | re.DOTALL)
    path, built, said = compiled(folder, "scanning", [folder.file("scanning.c", source.encode())], "-std=c99", "-pedantic", *SANITIZED)
    results.check("docs/LIBRARY.md: the program with a scanner is compiled", built, said)
    sizes = [1, 9, 8_191, 8_192, 8_193, 3, 300_000, 5] * 40
    stream = b"".join(b"%d %b" % (size, b"x" * size) for size in sizes)
    right = b"".join(b"x" * size + b"\n" if size <= 8_192 else b"a frame was too long\n" for size in sizes)
    for octets, output, status in [(stream, right, 0), (stream + b"3 ab", right, 1), (stream + b"9000 ab", right, 1), (stream + b"?", right, 1)]:
        results.same(f"docs/LIBRARY.md: the program with a scanner, {octets[-8:]!r}", run(path, [], octets), (status, output, b""))


def sets(program, results, folder, calls):
    """Selections and digests of archives beside the program's, and the faults of what is none."""
    conditions = [(["-"] * 6, []), (["1700000000000000", "-", "-", "-", "-", "-"], ["--from", "2023-11-14T22:13:20Z"]),
                  (["-", "1700000000000000", "u", "-", "-", "-"], ["--to", "2023-11-14T22:13:20Z", "--undated"]),
                  (["-", "1065910455003000", "-", "3", "-", "-"], ["--to", "2003-10-11T22:14:15.003Z", "--severity", "err"]),
                  (["-", "-", "-", "0", "-", "-"], ["--severity", "emerg"]), (["-", "-", "-", "-", "h", "-"], ["--host", "h"]),
                  (["-", "-", "-", "-", "mymachine.example.com", "su"], ["--host", "mymachine.example.com", "--app", "su"])]
    for archive in (one for pair in archives(program) for one in pair):
        name = folder.file("archive", archive)
        fault = program.run(["merge", name, folder.file("none", b"")])
        told = b"" if fault[0] == 0 else "{} 0 {}\n".format(*numbers(fault[2])[::2]).encode()
        for words, options in conditions:
            right = told or program.run(["select", *options], archive)[1]
            results.same(f"C: what {options} selects of {archive[:40]!r}", run(calls, ["select", *words, name]), (0, right, b""))
        for number, period in enumerate(["month", "day", "hour"], 1):
            right = told or program.run(["digest", "--by", period], archive)[1]
            results.same(f"C: the digest by {period} of {archive[:40]!r}", run(calls, ["digest", str(number), name]), (0, right, b""))
    one = folder.file("archive", b"16 <0>1 - - - - - -")
    for words, right in [(["select", str(2 ** 62), *["-"] * 5], b"2 0 0\n"), (["select", "-", str(-2 ** 62), *["-"] * 4], b"2 0 0\n"),
                         (["select", "-", "-", "-", "8", "-", "-"], b"17 1 0\n"), (["digest", "0"], b"19 0 0\n"), (["digest", "4"], b"19 0 0\n")]:
        results.same(f"C: {words} is refused", run(calls, [*words, one]), (0, right, b""))


def unions(program, results, folder, calls):
    """Unions, what archives have in common, and what one has alone, beside the program's."""
    for left, right in archives(program):
        names = folder.file("left", left), folder.file("right", right)
        for call, command in [("union", "merge"), ("common", "common"), ("minus", "minus")]:
            status, output, _ = program.run([command, *names])
            seen = run(calls, [call, *names])
            if status == 0:
                results.same(f"C: {call} of {len(left)} and {len(right)} octets", seen, (0, output, b""))
                continue
            # the library tells the fault of the left archive, even if the right one has one before it
            notes = program.run(["merge", *names])[2]
            alone = program.run(["merge", names[0], folder.file("none", b"")])[2] or notes
            told = "{} {} {}\n".format(*numbers(alone)).encode()
            results.same(f"C: no {call} of {left[:40]!r} and {right[:40]!r}", seen, (0, told, b""))


def roots(program, results, folder, calls):
    """The roots of archives beside the command `root`; of what is none, the fault that `merge` tells."""
    for archive in (one for pair in archives(program) for one in pair):
        name = folder.file("archive", archive)
        status, output, _ = program.run(["root"], archive)
        if status:
            kind, _, offset = numbers(program.run(["merge", name, folder.file("none", b"")])[2])
            output = f"{kind} 0 {offset}\n".encode()
        results.same(f"C: the root of {archive[:40]!r}", run(calls, ["root", name]), (0, output, b""))


# ---- Python

class Pieces(io.RawIOBase):
    """A file that gives random pieces."""

    def __init__(self, octets, seed):
        super().__init__()
        self.octets, self.at, self.random = octets, 0, Random(seed)

    def read1(self, size):
        some = self.octets[self.at:self.at + min(size, self.random.choice([1, 2, 7, 100, 5_000, 70_000]))]
        self.at += len(some)
        return some


def answer_of(module, record):
    try:
        module.check(record)
        return module.canonical(record)
    except module.RecordError as refused:
        return int(refused.kind), int(refused.field), refused.offset


def in_python(program, results, folder, frames, answers, way):
    module = way.loaded()
    results.check("Python: it makes its calls so", module.IN_C == (way.name != "ctypes"), str(module.IN_C))
    wrong = next((f"{frame!r}" for frame, right in zip(frames, answers) if answer_of(module, frame) != right), "")
    results.check("Python: records", not wrong, wrong)
    right = sum(isinstance(answer, bytes) for answer in answers)
    results.check("Python: is_record", sum(map(module.is_record, frames)) == right)
    some = [frame for frame, answer in zip(frames, answers) if isinstance(answer, bytes)]
    shown = next((f"{frame!r}" for frame in some[:20_000] if not same_parts(module.view(frame), reference.read(frame))), "")
    results.check("Python: parts", not shown, shown)
    rebuilt = next((f"{frame!r}" for frame in some[:20_000] if module.build(module.view(frame)) != module.canonical(frame)), "")
    results.check("Python: records are built of their parts", not rebuilt, rebuilt)
    many_params(results, module)
    shown_as_json(program, results, module, some[:10_000])
    for year, minutes, packet, form in forms():
        results.check(f"Python: a legacy packet {packet!r}", module.legacy(packet, year, minutes) == form)
    for packet, _, form in wide_rows():
        seen = module.legacy(packet, 2024, 60, dialect=module.Dialect.WIDE)
        results.check(f"Python: a wide packet {packet!r}", seen == form, str(seen))
    for call, kind in [(lambda: module.legacy(b"x", 10_000), "BAD_CLOCK"), (lambda: module.legacy(b"x", 2 ** 40), "BAD_CLOCK"),
                       (lambda: module.legacy(b"\xef\xbb\xbf\xff", 2024), "NOT_UTF8"), (lambda: module.union(b"", b"x"), "BAD_FRAME"),
                       (lambda: module.legacy(b"<0>1 ", 2024), "SYNTAX"), (lambda: module.canonical(b""), "SYNTAX"),
                       (lambda: module.legacy(b"x" + LONGEST, 2024), "RECORD_TOO_LONG"),
                       (lambda: module.view(LONGEST + b"x"), "RECORD_TOO_LONG")]:
        results.check(f"Python: {kind} is raised", kind_of(module, call) == kind)
    for left, right in archives(program):
        status, output, _ = program.run(["merge", folder.file("left", left), folder.file("right", right)])
        if status == 0:
            results.check(f"Python: a union of {len(left)} and {len(right)} octets", module.union(left, right) == output)
            names = folder.file("left", left), folder.file("right", right)
            for call in (module.common, module.minus):
                right_one = program.run([call.__name__, *names])[1]
                results.check(f"Python: {call.__name__} of {len(left)} and {len(right)} octets", call(left, right) == right_one)
            for period in module.Period:
                told = program.run(["digest", "--by", period.name.lower()], left)[1].decode()
                results.check(f"Python: the digest by {period.name} of {len(left)} octets", module.digest(left, period) == told)
            selected = program.run(["select", "--from", "2003-01-01", "--severity", "err"], left)[1]
            start = datetime(2003, 1, 1, tzinfo=timezone.utc)
            results.check(f"Python: what is selected of {len(left)} octets", module.select(left, start=start, severity=3) == selected)
            root = program.run(["root"], output)[1].decode()
            results.check(f"Python: the root of {len(output)} octets", f"{module.root(output)}\n" == root, root)
    python_package.package(results, module, frames, answers)
    python_arguments.arguments(results, folder, module, way)
    python_streams(results, module, some)
    python_checks(results, module, frames, answers)
    all_checked(results, module, frames, answers)
    version = run("sh", [ROOT / "scripts/version.sh"])[1].decode().strip()
    results.check("Python: the version is the program's", module.__version__ == version, f"{module.__version__} for {version}")
    python_logging(program, results, folder, module)


def all_checked(results, module, frames, answers):
    """The records of a list that are none, with line feeds and without octets too."""
    lines = b"<0>1 - - - - - -\n<0>1 - - - - - -"
    frames, answers = [b"", lines, *frames], [(1, 1, 0), (1, 8, 16), *answers]
    for name, rows in [("all", list(zip(frames, answers))), ("without line feeds", [row for row in zip(frames, answers) if b"\n" not in row[0]]),
                       ("records", [row for row in zip(frames, answers) if isinstance(row[1], bytes)])]:
        right = [(n, *answer) for n, (_, answer) in enumerate(rows) if not isinstance(answer, bytes)]
        seen = [(n, fault.kind, fault.field, fault.offset) for n, fault in module.check_all(frame for frame, _ in rows)]
        results.check(f"Python: many are checked, {name}", seen == right, f"{len(seen)} for {len(right)}")
    results.check("Python: none are checked", list(module.check_all([])) == [])
    for call in (module.check, module.is_record, module.canonical, module.view):
        for wrong in ("<0>1 - - - - - -", bytearray(b"<0>1 - - - - - -")):
            try:
                call(wrong)
                results.check(f"Python: {call.__name__} refuses a {type(wrong).__name__}", False)
            except TypeError as told:
                results.check(f"Python: {call.__name__} refuses a {type(wrong).__name__}", type(wrong).__name__ in str(told), str(told))


def python_checks(results, module, frames, answers):
    """The frames of a whole stream that are no records, and how it ends."""
    stream = reference.counted(frame for frame in frames if frame)
    some = [answer for frame, answer in zip(frames, answers) if frame]
    right = [(n, *answer) for n, answer in enumerate(some, 1) if not isinstance(answer, bytes)]
    seen = [(n, fault.kind, fault.field, fault.offset) for n, fault in module.check_stream(stream)]
    results.check("Python: a whole stream is checked", seen == right, f"{len(seen)} for {len(right)}")
    for octets, kind, at in [(b"12", "UNTERMINATED", 0), (b"12x", "BAD_COUNT", 2)]:
        try:
            fault = len(list(module.check_stream(stream + octets)))
        except module.StreamError as told:
            fault = told.kind.name, told.offset
        results.check(f"Python: {kind} of a whole stream", fault == (kind, len(stream) + at), str(fault))
    lines = [frame for frame in frames[:2_000] if b"\n" not in frame]
    count = sum(not module.is_record(line) for line in lines)
    seen = list(module.check_stream(b"".join(line + b"\n" for line in lines), module.Framing.LF))
    results.check("Python: lines are checked", len(seen) == count, f"{len(seen)} for {count}")


def kind_of(module, call):
    try:
        return call()
    except module.SyslogError as refused:
        return refused.kind.name


def same_parts(seen, right):
    """The parts of a record beside those of the second reader."""
    words = [word.encode() if word is not None else None for word in (seen.hostname, seen.app_name, seen.proc_id, seen.msg_id)]
    data = sorted((element.id.encode(), [(name.encode(), value.encode()) for name, value in element.params])
                  for element in seen.elements)
    return (seen.priority, seen.micros, words, data, seen.message, seen.bom) == parts_of(right)


def many_params(results, module):
    """A record with 12,000 parameters takes no more than a few milliseconds for each thousand."""
    record = b"<0>1 - - - - - [id" + b' k="v"' * 12_000 + b"] m"
    before = time.process_time()
    params = module.view(record).elements[0].params
    taken = time.process_time() - before
    results.check("Python: 12,000 parameters", params == (("k", "v"),) * 12_000 and taken < 0.5, f"{len(params)} in {taken:.3f} s")


def shown_as_json(program, results, module, records):
    """What `asdict` gives is what `show --json` prints, its keys in the same order."""
    some = [record for record in records if 0 < len(record) <= module.FRAME_MAX]
    rows = program.run(["show", "--json", "--framing", "counted"], reference.counted(some))[1].splitlines()
    wrong = next((f"{record!r}" for record, row in zip(some, rows) if not same_object(module.view(record).asdict(), json.loads(row))), "")
    results.check(f"Python: {len(some)} records as `show --json` has them", len(rows) == len(some) and not wrong, wrong)


def same_object(seen, right):
    return seen == right and list(seen) == list(right) and list(seen["data"]) == list(right["data"])


def timestamp_of(record):
    return None if record.micros is None else reference.timestamp(record.micros).decode()


def parts_of(record):
    bom = record.message.startswith(reference.MARK)
    words = [None if word == b"-" else word for word in record.words]
    return record.priority, record.micros, words, record.elements, record.message[3 * bom:], bom


def python_streams(results, module, records):
    some = [record for record in records[:3_000] if b"\n" not in record and record] + [b"x" * 262_144, b"y"]
    for framing, name in [(module.Framing.COUNTED, "counted"), (module.Framing.LF, "lf")]:
        stream = b"".join(reference.framed(name, record) for record in some)
        for seed in range(3):
            results.check(f"Python: frames in pieces, {name}", list(module.frames(Pieces(stream, seed), framing)) == some)
        long, told = reference.framed(name, b"z" * 300_000), []
        for seed in range(3):
            seen = list(module.frames(Pieces(stream + long + stream, seed), framing, too_long=told.append))
            results.check(f"Python: a frame that is too long is passed over, {name}", seen == some + some)
        results.check(f"Python: its position is told, {name}", told == [len(stream)] * 3, str(told))
        for octets, kind, at in [(stream + long, "TOO_LONG", len(stream)), (stream + framed_part(name), "UNTERMINATED", len(stream))]:
            fault = fault_of(module, octets, framing)
            results.check(f"Python: {kind} of a stream, {name}", fault == (kind, at), str(fault))
    fault = fault_of(module, b"1 a12x", module.Framing.COUNTED)
    results.check("Python: BAD_COUNT of a stream", fault == ("BAD_COUNT", 5), str(fault))


def framed_part(name):
    return b"9 abc" if name == "counted" else b"abc"


def fault_of(module, octets, framing):
    try:
        for _ in module.frames(io.BytesIO(octets), framing):
            pass
        return None
    except module.StreamError as fault:
        return fault.kind.name, fault.offset


def python_logging(program, results, folder, module):
    """What a logger writes is canonical, and says what was logged."""
    for framing, name in [(module.Framing.COUNTED, "counted"), (module.Framing.LF, "lf")]:
        sink = io.BytesIO()
        logger = logging.Logger("a logger=with]\"marks" * 3)
        logger.addHandler(module.Handler(sink, framing, formatter=module.Formatter("app", facility=4, hostname="höst")))
        for level in [logging.DEBUG, logging.INFO, logging.WARNING, logging.ERROR, logging.CRITICAL]:
            logger.log(level, "größe %d \"x\"\\]\n", level, extra={"structured_data": {"b@1": {"k": 'v"]\\', "k=": level}, "a": {}}})
        with contextlib.suppress(ZeroDivisionError):
            try:
                raise ZeroDivisionError
            finally:
                logger.exception("failed")
        octets = sink.getvalue()
        status, output, notes = program.run(["convert", "--framing", name], octets)
        results.check(f"Python: what is logged is canonical, {name}", (status, output, notes) == (0, octets, b""), notes)
        records = [module.view(frame) for frame in module.frames(io.BytesIO(octets), framing)]
        seen = [(record.severity, record.facility, record.app_name, record.hostname) for record in records]
        right = [(severity, 4, "app", "h_st") for severity in [7, 6, 4, 3, 2, 3]]
        results.check(f"Python: severities and names, {name}", seen == right, str(seen))
        results.check(f"Python: elements, {name}", [element.id for element in records[0].elements] == ["a", "b@1"]
                      and records[0].elements[1].params[0] == ("k", 'v"]\\'))


def installed(results, folder):
    """`pip install ./python` without network, into a folder of its own, where the module finds its library."""
    if run(sys.executable, ["-m", "pip", "--version"])[0]:
        print("SKIPPED pip install: there is no pip")
        return
    to = folder.path / "site"
    status, _, notes = run(sys.executable, ["-m", "pip", "install", "--no-index", "--quiet", "--target", to, ROOT / "python"])
    results.check("Python: pip install ./python", status == 0, notes[-300:])
    program = "import syslogbox; print(syslogbox.is_record(b'<0>1 - - - - - -'), syslogbox.IN_C)"
    for by_ctypes in ("", "1"):
        environment = {"PYTHONPATH": str(to), "SYSLOGBOX_LIBRARY": "", "SYSLOGBOX_CTYPES": by_ctypes}
        right = f"True {headers_of_python() and not by_ctypes}\n".encode()
        results.same("Python: what was installed runs", run(sys.executable, ["-c", program], environment=environment), (0, right, b""))
    status, _, notes = run(sys.executable, ["-c", program], environment={"PYTHONPATH": str(to), "SYSLOGBOX_LIBRARY": "/dev/null"})
    results.check("Python: without a library, it says how to name one", status == 1 and b"\nImportError: /dev/null" in notes, notes)


# ---- Go, and the examples

def in_go(results, folder, frames, answers):
    if not shutil.which("go"):
        results.skip("the module in Go", "there is no go")
        return
    version = run("sh", [ROOT / "scripts/version.sh"])[1].decode().strip()
    environment = {**for_go(folder), "SYSLOGBOX_ANSWERS": written(folder, "records", frames, answers), "SYSLOGBOX_VERSION": version}
    for words in (["vet", "./..."], ["test", "-count=1", "./..."]):
        status, output, notes = run("go", words, environment=environment, cwd=ROOT / "go", timeout=300)
        results.check(f"Go: go {words[0]}", status == 0, (output + notes)[-400:].decode(errors="replace"))
    go_module(results, folder, environment)


def examples(program, results, folder, frames, every):
    some = [frame for frame in frames[:3_000] if frame and b"\n" not in frame]
    path, built, said = compiled(folder, "drop_refused", [ROOT / "examples/drop_refused.c"], *SANITIZED)
    results.check("the example in C is compiled", built, said)
    for framing in ["counted", "lf"]:
        stream = b"".join(reference.framed(framing, frame) for frame in some)
        lines = program.run(["check", "--framing", framing], stream)[1].splitlines()
        right = b"".join(reference.framed(framing, frame) for frame, line in zip(some, lines) if line.endswith(b" ok"))
        status, output, notes = run(path, [framing], stream)
        refused = sum(not line.endswith(b" ok") for line in lines)
        results.check(f"the example in C drops refused frames, {framing}",
                      (status, output, notes.count(b"\n")) == (1, right, refused), f"{status} {len(output)} {notes[:100]!r}")
    archive = program.run(["archive", "--framing", "counted"], reference.counted(some))[1]
    for way in every:
        environment, told = way.environment(), way.results(results)
        script = [ROOT / "examples/archive_to_dicts.py", folder.file("archive", archive)]
        status, output, notes = run(sys.executable, script, environment=environment)
        dicts = ast.literal_eval(output.decode()) if status == 0 else []
        read = [reference.read(entry) for entry in reference.archive_read(archive)[0]]
        same = [(one["priority"], one["time"]) for one in dicts] == [(one.priority, timestamp_of(one)) for one in read]
        told.check("the example in Python reads an archive", status == 0 and len(dicts) > 100 and same, notes[-300:])
        status, _, notes = run(sys.executable, [script[0], folder.file("archive", b"x")], environment=environment)
        told.check("the example in Python tells a fault", status == 1 and b"octet 0" in notes, notes)
    wrong_arguments(results, folder, path, every[-1].environment())


def wrong_arguments(results, folder, compiled, environment):
    """Each example says how it is called, or which file it cannot read, in one line, and its status is 2."""
    root, none = "0" * 64, folder.path / "no-such-file"
    usage = {"archive_to_dicts.py": "usage: archive_to_dicts.py ARCHIVE\n", "confirm.py": "usage: confirm.py COUNT ROOT RECORDS < PROOFS\n"}
    uncounted, cut_off = folder.file("uncounted", b"x"), folder.file("cut-off", b"9 <0>1")
    rows = [("archive_to_dicts.py", words, None) for words in ([], ["a", "b"])]
    rows += [("archive_to_dicts.py", [path], path) for path in (none, folder.path)]
    rows += [("confirm.py", words, None) for words in ([], ["1", root], ["x", root, none], ["-1", root, none], ["1", "x", none],
                                                       ["1", root[1:], none], ["1", root, none, "more"])]
    rows += [("confirm.py", ["1", root, path], path) for path in (none, folder.path, uncounted, cut_off)]
    for name, words, path in rows:
        status, output, notes = run(sys.executable, [ROOT / "examples" / name, *words], environment=environment)
        said = notes.decode()
        right = said == usage[name] if path is None else said.startswith(f"{path}: ") and said.count("\n") == 1
        results.check(f"{name} with {[str(word)[-20:] for word in words]}", (status, output) == (2, b"") and right, said[-300:])
    for words in (["lines"], ["LF"], [""], ["lf", "counted"]):
        seen = run(compiled, words, b"16 <0>1 - - - - - -")
        results.same(f"the example in C with {words}", seen, (2, b"", b"usage: drop_refused [counted|lf] < IN > OUT\n"))
    results.same("the example in C without arguments", run(compiled, [], b"16 <0>1 - - - - - -"), (0, b"16 <0>1 - - - - - -", b""))


def bindings(program, results):
    status, _, notes = run("make", ["-s", "lib"], cwd=ROOT)
    results.check("make lib", status == 0, notes.decode(errors="replace"))
    if status:
        return
    frames, answers = known(program)
    interface(results)
    header(results, program.folder)
    in_c(program, results, program.folder, frames, answers)
    every = list(ways(results, program.folder))
    for way in every:
        in_python(program, way.results(results), program.folder, frames, answers, way)
    python_module.module(results, program.folder, every)
    python_package.distribution(results, program.folder)
    installed(results, program.folder)
    examples(program, results, program.folder, frames, every)
    in_go(results, program.folder, frames, answers)
    lines(program, results, program.folder, LINES)

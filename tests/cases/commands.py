"""The commands on standard input: the tables, the examples of the manual pages, and devices and calls that fail."""
import os
import re
import select
import subprocess
import time
from pathlib import Path
from random import Random

from cases.rows import ELEMENTS, EXAMPLE, HELLO, LEGACY, RECORDS, REFUSED, STREAMS, SUMMARIES, TRIMMED, WORDS
from hostile.records import ids
from lib import reference
from lib.faults import each_allocation, each_call
from lib.program import ROOT

PAGES = sorted((ROOT / "man").glob("*.[1-8]"))


def row(program, results, name, words, octets, status, output, notes):
    """A row of a table; where its notes are None any text will do, but some."""
    seen = program.run(words, octets)
    name = f"{' '.join(str(word) for word in words)}: {name}"
    if notes is None:
        results.check(name, seen[:2] == (status, output) and seen[2], str(seen)[:200])
    else:
        results.same(name, seen, (status, output, notes))


def tables(program, results):
    for name, octets, canonical in RECORDS:
        row(program, results, name, ["check"], octets, 0, b"1 ok\n", b"")
        row(program, results, name, ["convert"], octets, 0, canonical, b"")
        if len(canonical) <= 262_144:
            row(program, results, f"canonical: {name}", ["convert"], canonical, 0, canonical, b"")
        row(program, results, name, ["show"], octets, 0, reference.show(1, reference.read(octets)), b"")
    for name, octets, line in REFUSED:
        row(program, results, name, ["check"], octets, 1, b"1 " + line + b"\n", b"")
        for command in ["convert", "show"]:
            row(program, results, name, [command], octets, 1, b"", b"1 " + line + b"\n")
    for case in WORDS + STREAMS + LEGACY + TRIMMED + SUMMARIES:
        row(program, results, *case)
    for words in ["--version"], ["-V"]:
        seen = program.run(words)
        named = seen[:2] == (2, b"") and seen[2].startswith(b"syslogbox ") and b"Usage" not in seen[2]
        results.check(f"{words[0]} prints name and version on standard error", named, str(seen))
    for length in range(65):
        line = b"1 " + reference.read(EXAMPLE[:length]) + b"\n"
        right = line.endswith(b" %d\n" % length)
        results.check(f"the offset of a prefix of {length} octets, by the second reader", right, str(line))
        row(program, results, f"a prefix of {length} octets", ["check"], EXAMPLE[:length], 1, line, b"")


def usages(program, results):
    """The usage of each command begins with what is typed: the program's name and the command's."""
    listed = program.run(["--help"], b"")[2].decode()
    names = re.findall(r"^  ([a-z]+) ", listed.split("Commands:")[1].split("\n\n")[0], re.MULTILINE)
    results.check("--help lists the commands", {"check", "serve"} <= set(names), listed)
    for name in sorted({*names} - {"help"}):
        usage = f"\nUsage: syslogbox {name}[ \n]"
        for words in [["help", name], [name, "--no-such-option"]]:
            status, output, notes = program.run(words, b"")
            right = (status, output) == (2, b"") and re.search(usage, notes.decode())
            results.check(f"{' '.join(words)}: the usage", right, str((status, output, notes)))
        for words, part in [([name, "--help"], usage), ([name, "-h"], usage), ([name, "--version"], r"syslogbox.* \d+\.\d+\.\d+\n$")]:
            status, output, notes = program.run(words, b"")
            right = (status, notes) == (0, b"") and re.search(part, output.decode())
            results.check(f"{' '.join(words)}: on standard output", right, str((status, output, notes)))
    with open("/dev/full", "wb") as full:
        seen = program.run(["check", "--help"], b"", stdout=full)
    results.check("check --help on a full device", (seen[0], seen[2]) == (2, b"write fault\n"), str(seen))


def unescaped(text):
    """The lines of a literal block of a manual page as they are shown."""
    return text.replace("\\-", "-").replace("\\(aq", "'").replace("\\e", "\\").replace("\\&", "")


def manual(program, results, page):
    """Each example of a manual page, run by a shell, prints what follows it."""
    examples = page.read_text().split(".Sh EXAMPLES")[1].split(".Sh ")[0]
    blocks = [unescaped(block) for block in re.findall(r"\.Bd -literal.*?\n(.*?)\.Ed\n", examples, re.DOTALL)]
    results.check(f"{page.name} has examples", len(blocks) > 2 and len(blocks) % 2 == 0, str(len(blocks)))
    for command, output in zip(blocks[::2], blocks[1::2]):
        path = f"{Path(program.path).parent}:{os.environ['PATH']}"
        done = subprocess.run(["sh", "-c", command], env={**os.environ, "PATH": path}, capture_output=True, text=True)
        results.check(f"{page.name}: example: {command}", done.stdout == output, done.stdout)


def devices(program, results):
    """Real devices that fail."""
    with open("/dev/full", "wb") as full:
        seen = program.run(["convert"], HELLO, stdout=full)
        results.check("a full device is a write fault", (seen[0], seen[2]) == (2, b"write fault\n"), str(seen))
        seen = program.run(["convert"], b"", stderr=full)
        results.check("notes that cannot be written", seen[:2] == (2, b""), str(seen))
        seen = program.run(["konvert"], b"", stderr=full)
        results.check("usage that cannot be written", seen[:2] == (2, b""), str(seen))
    read_end, write_end = os.pipe()
    os.close(read_end)
    seen = program.run(["convert"], HELLO, stdout=write_end)
    os.close(write_end)
    results.check("a pipe without a reader is a write fault", (seen[0], seen[2]) == (2, b"write fault\n"), str(seen))
    folder = os.open("/", os.O_RDONLY)
    seen = program.run(["convert"], stdin=folder)
    os.close(folder)
    results.same("a folder is a read fault", seen, (2, b"", b"read fault\n"))
    for words in (["check"], ["check", "--framing", "counted"], ["check", "--framing", "lf"]):
        with open("/dev/zero", "rb") as zeros:
            seen = program.run(words, stdin=zeros)
        expected = (1, b"1 bad-count 0\n", b"") if "counted" in words else (2, b"", b"endless input\n")
        results.same(f"an input that does not end: {' '.join(words)}", seen, expected)


def memory(program, results):
    mixed = (EXAMPLE + b"\n") * 40 + b"x\n" + ELEMENTS + b"\n"
    for name, words, octets in [
        ("convert", ["convert"], HELLO),
        ("convert of a long record", ["convert"], HELLO + b"x" * 60_000),
        ("convert of octets that are no record", ["convert"], b"<192>1 - - - - - - x"),
        ("check of a stream", ["check", "--framing", "lf"], mixed),
        ("usage", ["konvert"], HELLO),
        ("convert of elements", ["convert"], ELEMENTS),
        ("convert of a stream", ["convert", "--framing", "lf"], mixed),
        ("convert to counted frames", ["convert", "--framing", "lf", "--to", "counted"], mixed),
        ("show", ["show"], ELEMENTS),
        ("show of a stream", ["show", "--framing", "lf"], mixed),
    ]:
        each_allocation(program, results, name, words, octets)


def calls(program, results):
    octets = HELLO + b"x" * 9_000
    made = program.counts(["convert"], octets)
    results.check("reads and writes are made", made.read > 1 and made.write > 0, str(made))
    each_call(program, results, "convert", ["convert"], octets, [0])
    for n in range(1, 3):
        seen = program.run(["convert"], b"", program.failing(fd=2, write=n))
        right = seen[:2] == (2, b"") if n == 1 else seen == (1, b"", b"1 syntax priority 0\n")
        results.check(f"write {n} of the notes fails", right, str(seen))


def pieces(program, results):
    """Output is written in large pieces, not by a call for each record."""
    stream = (EXAMPLE + b"\n") * 20_000
    for command in ["check", "convert", "show"]:
        words = [command, "--framing", "lf"]
        output = program.run(words, stream)[1]
        made = program.counts(words, stream, fd=1).write
        results.check(f"{command} writes large pieces", made <= 1 + len(output) // 32_768, f"{made} of {len(output)} octets")


def many_ids(program, results):
    """A record of 260,000 octets with 52,000 ids, in any order, costs milliseconds."""
    prefix, count = b"<0>1 - - - - - ", 52_000
    for order in "ascending", "descending", "scattered":
        data = ids(count, order, Random(5424))
        repeated = b"repeated-id %d" % (len(prefix) + 5 * count + 1)
        for ending, line in [(b"", b"ok"), (data[:5], repeated), (data[-5:], repeated)]:
            before = os.times()
            seen = program.run(["check", "--framing", "lf"], (prefix + data + ending + b"\n") * 20)
            after = os.times()
            lines = b"".join(b"%d %b\n" % (n, line) for n in range(1, 21))
            results.check(f"52,000 ids {order}, {line}", seen[1:] == (lines, b""), f"{seen[0]} {seen[1][:60]!r}")
            took = (after.children_user + after.children_system - before.children_user - before.children_system) / 20
            results.check(f"the time of 52,000 ids {order}, {line}", took < 0.15, f"{took:.3f} s a record")


def any_length(program, results):
    """With --endless, frames that stand behind 4 GiB are read too. The file has a hole, and takes no room on disk."""
    path, most = program.folder.path / "long", 1_048_576 * 4_096
    with open(path, "wb") as file:
        file.truncate(most)
        file.seek(most)
        file.write(b"\n" + EXAMPLE + b"\n")
    canonical = program.run(["convert"], EXAMPLE)[1]
    shown = program.run(["show"], EXAMPLE)[1].replace(b"record 1", b"record 2", 1)
    for command, output, notes in [("check", b"1 too-long\n2 ok\n", b""), ("convert", canonical + b"\n", b"1 too-long\n"), ("show", shown, b"1 too-long\n")]:
        words = [command, "--framing", "lf"]
        with open(path, "rb") as octets:
            results.same(f"{command} of more than 4 GiB", program.run(words, stdin=octets), (2, b"", b"endless input\n"))
        with open(path, "rb") as octets:
            results.same(f"{command} --endless of more than 4 GiB", program.run([*words, "--endless"], stdin=octets), (1, output, notes))
        each_allocation(program, results, f"{command} --endless", [*words, "--endless"], EXAMPLE + b"\n")
    path.unlink()
    stream = (EXAMPLE + b"\n") * 20_000
    made = program.counts(["check", "--framing", "lf", "--endless"], stream, fd=0).read
    results.check("--endless reads large pieces", made < len(stream) // 4_096, f"{made} of {len(stream)} octets")


def live(program, results):
    """A line that goes in is answered while the input stays open."""
    process = subprocess.Popen([program.path, "check", "--framing", "lf"], stdin=subprocess.PIPE, stdout=subprocess.PIPE)
    for number in range(1, 4):
        process.stdin.write(b"<0>1 - - - - - -\n")
        process.stdin.flush()
        ready, _, _ = select.select([process.stdout], [], [], 10)
        answer = os.read(process.stdout.fileno(), 100) if ready else b""
        results.check(f"live: line {number}", answer == b"%d ok\n" % number, repr(answer))
    process.stdin.close()
    results.check("live: the end", process.wait() == 0 and process.stdout.read() == b"")


def ago(program, results):
    """Times that count back from now, by the system's clock."""
    now = time.time_ns() // 1000
    spans = {"-2d": 172_800, "-30h": 108_000, "-61m": 3_660, "-59m": 3_540, "-10s": 10}
    records = {span: b"<14>1 %b h - - - - %b" % (reference.timestamp(now - 1_000_000 * back), span.encode()) for span, back in spans.items()}
    text = reference.archive_text(records.values())
    for words, kept in [(["--from", "-1h"], ["-59m", "-10s"]), (["--from=-1h"], ["-59m", "-10s"]), (["--to", "-60m"], ["-2d", "-30h", "-61m"]),
                        (["--from", "-1d", "--to=-1h"], ["-30h", "-61m"][1:]), (["--from=-3600s"], ["-59m", "-10s"]),
                        (["--from", "-700000d", "--to=-9s"], list(spans)), (["--from", "-0s"], [])]:
        seen = program.run(["select", *words], text)
        results.same(f"select {' '.join(words)}", seen, (0, reference.archive_text(records[it] for it in kept), b""))
    for word in "-", "-1", "-h", "-1w", "-1H", "--1h", "-+1h", "-1.5h", "-1000001s", "-1000000d", "1h", "-1h ", "- 1h":
        status, written, notes = program.run(["select", f"--from={word}"], text)
        results.check(f"select --from={word} is refused", (status, written) == (2, b"") and b"--from" in notes, f"{status} {written} {notes}")
    status, written, _ = program.run(["send", "--host=--from", "--", "-1h"])
    results.check("a text that looks so stays as it is", (status, written[-4:]) == (0, b"-1h\n"), f"{status} {written}")


def commands(program, results):
    tables(program, results)
    usages(program, results)
    results.check("there are manual pages", len(PAGES) > 1, str(PAGES))
    for page in PAGES:
        manual(program, results, page)
    devices(program, results)
    memory(program, results)
    calls(program, results)
    pieces(program, results)
    many_ids(program, results)
    any_length(program, results)
    live(program, results)
    ago(program, results)

"""What a terminal shows: how far archives and stores were read, and the colors of records."""
import errno
import os
import pty
import re
import shutil
import signal
import subprocess
import tempfile
import threading
import time
import tty
from contextlib import contextmanager

from lib.reference import SEVERITIES, read, show

SLOW = 0.05  # seconds between two pieces of an input that comes slowly
PIECES = 30
PACE = 0.5  # seconds between two lines, at least
STOPPED = 0.6  # seconds for which a program is stopped, so that a line is due

COUNT = rb"\d{1,3}(?:,\d{3})*"
DRAWN = re.compile(rb"\r(%b)(?: of (%b) octets \((\d+) %%\)| octets)(?:, %b octets/s)?\x1b\[K" % (COUNT, COUNT, COUNT))
CLEARED = b"\r\x1b[K"
SEQUENCE = re.compile(rb"\x1b\[[0-9;]*m")
BEGINNINGS = [b"\x1b[1;31m"] * 3 + [b"\x1b[31m", b"\x1b[33m", b"\x1b[1m", b"", b"\x1b[2m"]
RESET = b"\x1b[0m"

COLORS = {"TERM": "xterm", "NO_COLOR": ""}
MESSAGE = b"\x1b[31mred\x1b[0m \x07 \x9b2J"


class Terminal:
    """A pseudo-terminal, and the pieces that a program writes to it."""

    def __init__(self):
        self.reader, self.end = pty.openpty()
        tty.setraw(self.end)
        self.pieces = []
        self.began = self.ended = time.monotonic()
        self.thread = threading.Thread(target=self.take)

    def __enter__(self):
        self.thread.start()
        return self

    def __exit__(self, *_):
        self.ended = time.monotonic()
        os.close(self.end)
        self.thread.join()
        os.close(self.reader)

    def take(self):
        while True:
            try:
                piece = os.read(self.reader, 1 << 16)
            except OSError as error:
                if error.errno != errno.EIO:
                    raise
                return  # nobody has its other end any more
            self.pieces.append(piece)

    def octets(self):
        return b"".join(self.pieces)

    def drawn(self):
        """The lines that were drawn."""
        return list(DRAWN.finditer(self.octets()))

    def most(self):
        """How many lines may be drawn, in the time for which it was there."""
        return int((self.ended - self.began) / PACE)


def screen(octets):
    """The text that a terminal shows of these octets."""
    lines, column = [b""], 0
    for part in re.findall(rb"\x1b\[K|\r|\n|[^\x1b\r\n]+", SEQUENCE.sub(b"", octets)):
        if part == b"\n":
            lines.append(b"")
            column = 0
        elif part == b"\r":
            column = 0
        elif part == b"\x1b[K":
            lines[-1] = lines[-1][:column]
        else:
            lines[-1] = lines[-1][:column] + part + lines[-1][column + len(part):]
            column += len(part)
    return b"\n".join(lines)


def record(number, severity=6, message=b"text"):
    return b"<%d>1 2024-02-29T23:30:%02d.%06dZ host app - - - %b" % (16 * 8 + severity, number % 60, number, message)


def lines(count):
    return b"".join(record(number) + b"\n" for number in range(count))


@contextmanager
def started(program, words, **streams):
    """A run that is ended with the block, if it has not ended before: who waits for the terminal waits for it."""
    process = subprocess.Popen([program.path, *words], **streams)
    try:
        yield process
    finally:
        process.kill()
        process.wait()


def contents(file):
    file.seek(0)
    return file.read()


def slowly(program, words, octets, wants_output=True):
    """Status, output and the terminal on standard error of a run whose input comes slowly. Without wants_output the terminal
    is standard output too. The output goes to a file: a pipe would fill while nobody reads it."""
    size = -(-len(octets) // PIECES)
    with Terminal() as terminal, tempfile.TemporaryFile() as output:
        streams = {"stdin": subprocess.PIPE, "stdout": output if wants_output else terminal.end, "stderr": terminal.end}
        with started(program, words, **streams) as process:
            for begin in range(0, len(octets), size):
                process.stdin.write(octets[begin:begin + size])
                process.stdin.flush()
                time.sleep(SLOW)
            process.communicate(timeout=60)
        written = contents(output)
    return process.returncode, written, terminal


def on_terminal(program, words, octets, environment=None):
    """Status and output of a run whose standard output is a terminal."""
    with Terminal() as terminal:
        status, _, notes = program.run(words, octets, environment, stdout=terminal.end)
    return status, terminal.octets(), notes


# ---------------------------------------------------------------- how far an input was read

def is_drawn(results, name, terminal, size):
    """Lines were drawn at most twice a second, none of them is wider than 79 columns, and none is left."""
    octets, drawn = terminal.octets(), terminal.drawn()
    results.check(f"{name}: a line is drawn", drawn, str(octets))
    results.check(f"{name}: at most two lines a second", len(drawn) <= terminal.most(), f"{len(drawn)} for {terminal.most()}")
    results.check(f"{name}: at most 79 columns", all(len(seen.group()) <= 79 + len(CLEARED) for seen in drawn), str(octets))
    counts = [int(seen.group(1).replace(b",", b"")) for seen in drawn]
    results.check(f"{name}: the octets that were read", counts == sorted(counts) and max(counts, default=0) <= size, str(counts))
    return drawn


def is_told_of_all(results, name, drawn, whole):
    """Each line tells how many octets there are, if that is known, and what part of them was read."""
    told = [(int(seen.group(1).replace(b",", b"")), seen.group(2), int(seen.group(3) or -1)) for seen in drawn]
    if whole is None:
        right = all(total is None for _, total, _ in told)
    else:
        right = all(total == f"{whole:,}".encode() and percent == 100 * count // whole for count, total, percent in told)
    results.check(f"{name}: the percentage", right, str(told))


def progress(program, results):
    text = lines(4_000)
    archive = program.run(["archive", "--framing", "lf"], text)
    status, output, terminal = slowly(program, ["archive", "--framing", "lf"], text)
    results.same("archive of a slow input", (status, output, b""), archive)
    is_drawn(results, "archive", terminal, len(text))
    results.check("archive: nothing is left", screen(terminal.octets()) == b"", str(terminal.octets()))

    for words in [["select", "--severity", "info"], ["digest"], ["root"], ["count", "--by", "severity"]]:
        right = program.run(words, archive[1])
        status, output, terminal = slowly(program, words, archive[1])
        results.same(f"{words[0]} of a slow input", (status, output, b""), right)
        is_drawn(results, words[0], terminal, len(archive[1]))
        results.check(f"{words[0]}: nothing is left", screen(terminal.octets()) == b"", str(terminal.octets()))


def errors(program, results):
    """A line on an error stands where the line was."""
    words, text = ["archive", "--framing", "lf"], lines(2_000) + b"no record\n" + lines(10)
    right = program.run(words, text)
    status, output, terminal = slowly(program, words, text)
    results.same("archive of a slow input that is refused", (status, output, b""), (*right[:2], b""))
    is_drawn(results, "a refusal", terminal, len(text))
    results.check("a refusal stands on a line of its own", screen(terminal.octets()) == right[2], str(terminal.octets()))


def one_terminal(program, results):
    """Where standard output is the terminal too, the output takes the place of the line."""
    text = lines(200)
    right = program.run(["archive", "--framing", "lf"], text)
    status, _, terminal = slowly(program, ["archive", "--framing", "lf"], text, wants_output=False)
    results.check("archive on a terminal", status == 0 and terminal.drawn(), str(terminal.octets()))
    results.check("the archive takes the place of the line", screen(terminal.octets()) == right[1], str(terminal.octets()[:400]))


def stopped(process, terminal):
    """Stops a program again and again, so that a line is due, until one is drawn, and waits until it ends."""
    while process.poll() is None and not terminal.drawn():
        time.sleep(0.01)
        process.send_signal(signal.SIGSTOP)
        time.sleep(STOPPED)
        process.send_signal(signal.SIGCONT)
    process.wait(timeout=60)


def totals(program, results):
    """Of a file the line tells how much there is."""
    text = lines(200_000)
    path = program.folder.file("long", text)
    right = program.run(["archive", "--framing", "lf"], text)
    archive = program.folder.file("long-archive", right[1])
    for name, words, size in [("archive", ["archive", "--framing", "lf"], len(text)), ("merge", ["merge", archive, archive], 2 * len(right[1]))]:
        with Terminal() as terminal, open(path, "rb") as octets, tempfile.TemporaryFile() as output:
            with started(program, words, stdin=octets, stdout=output, stderr=terminal.end) as process:
                stopped(process, terminal)
            written = contents(output)
        results.same(f"{name} of files", (process.returncode, written, b""), (0, right[1], b""))
        drawn = is_drawn(results, f"{name} of files", terminal, size)
        is_told_of_all(results, f"{name} of files", drawn, size)


# ---------------------------------------------------------------- how far a store was read

ADDED = 12  # archives that are put into a store: more than a day may have segments
EXPIRED = ["--before", "2024-02-29T23:30:30Z"]


def store_of(program, name):
    """A store with so many segments of one day."""
    folder = program.folder.path / name
    for turn in range(ADDED):
        text = b"".join(record(number) + b"\n" for number in range(turn, 600_000, 3 * ADDED))
        program.run(["add", str(folder)], program.run(["archive", "--framing", "lf"], text)[1])
    return folder


def copied(folder, name):
    return str(shutil.copytree(folder, folder.parent / name))


def files_of(folder):
    return {name: os.stat(os.path.join(folder, name)).st_size for name in sorted(os.listdir(folder))}


def on_store(program, words, wants_output=True):
    """Status, output and the terminal on standard error of a run on a store, which is stopped until a line is drawn. Without
    wants_output the terminal is standard output too."""
    with Terminal() as terminal, tempfile.TemporaryFile() as output:
        streams = {"stdin": subprocess.DEVNULL, "stdout": output if wants_output else terminal.end, "stderr": terminal.end}
        with started(program, words, **streams) as process:
            stopped(process, terminal)
        return process.returncode, contents(output), terminal


def stores(program, results):
    """`verify`, `compact` and `expire` tell how far they are, and leave a store as they do with --quiet."""
    folder = store_of(program, "added")
    octets = sum(size for name, size in files_of(folder).items() if name != "ledger")
    for command, *words in ["verify"], ["expire", "--dry-run", *EXPIRED], ["compact"], ["expire", *EXPIRED]:
        name = " ".join([command, *words[:1]])
        one, other = copied(folder, "one"), copied(folder, "other")
        status, output, notes = program.run([command, other, *words, "--quiet"])
        seen, written, terminal = on_store(program, [command, one, *words])
        results.same(f"{name} on a terminal", (seen, written, notes), (status, output, b""))
        results.same(f"{name} on a terminal: the files", files_of(one), files_of(other))
        drawn = is_drawn(results, name, terminal, 8 * octets)
        is_told_of_all(results, name, drawn, octets if command == "verify" else None)
        results.check(f"{name}: nothing is left", screen(terminal.octets()) == b"", str(terminal.octets()))
        shutil.rmtree(one)
        shutil.rmtree(other)


def lines_of_stores(program, results):
    """A line on a file of a store stands where the line was, whether it goes to standard output or to standard error."""
    folder = program.folder.path / "added"
    words = ["expire", str(folder), "--dry-run", *EXPIRED]
    right = program.run(words)
    status, _, terminal = on_store(program, words, wants_output=False)
    results.check("expire on one terminal", status == 0 and terminal.drawn(), str(terminal.octets()))
    results.check("its lines take the place of the line", screen(terminal.octets()) == right[1], str(terminal.octets()))
    damaged = sorted(folder.glob("*.archive"))[-1]
    damaged.write_bytes(damaged.read_bytes()[:-1])
    for command, *words in ["verify"], ["compact"]:
        right = program.run([command, str(folder), *words])
        status, written, terminal = on_store(program, [command, str(folder), *words])
        results.same(f"{command} of a damaged segment", (status, written, b""), (*right[:2], b""))
        results.check(f"{command} of a damaged segment: on a line of its own", screen(terminal.octets()) == right[2], str(terminal.octets()))


def silent(program, results):
    """Not one octet where standard error is no terminal, and none with --quiet."""
    text = lines(400)
    right = program.run(["archive", "--framing", "lf"], text)
    status, output, terminal = slowly(program, ["archive", "--framing", "lf", "--quiet"], text)
    results.same("archive --quiet on a terminal", (status, output, terminal.octets()), right)
    streams = {"stdin": subprocess.PIPE, "stdout": subprocess.PIPE, "stderr": subprocess.PIPE}
    with started(program, ["archive", "--framing", "lf"], **streams) as process:
        process.stdin.write(text[:1_000])
        process.stdin.flush()
        time.sleep(2 * PACE)
        output, notes = process.communicate(text[1_000:], timeout=60)
    results.same("archive whose standard error is a pipe", (process.returncode, output, notes), right)


# ---------------------------------------------------------------- colors

def painted(plain, severity):
    """The lines of a record in the color of its severity."""
    end = RESET if BEGINNINGS[severity] else b""
    return b"".join(BEGINNINGS[severity] + line + end + b"\n" for line in plain.splitlines())


def colors(program, results):
    for severity, name in enumerate(SEVERITIES):
        octets = record(1, severity, MESSAGE)
        plain = show(1, read(octets))
        seen = program.run(["show", "--color=always"], octets)
        results.same(f"show --color=always: {name}", seen, (0, painted(plain, severity), b""))
        results.check(f"{name}: no sequence but those of colors", SEQUENCE.sub(b"", seen[1]) == plain, str(seen[1]))
        results.same(f"show --color=never: {name}", program.run(["show", "--color=never"], octets), (0, plain, b""))
        results.same(f"show: {name} to a pipe", program.run(["show"], octets, COLORS), (0, plain, b""))
        results.same(f"show: {name} on a terminal", on_terminal(program, ["show"], octets, COLORS), (0, painted(plain, severity), b""))
    packet = b"<11>Oct 11 22:14:15 host app: text"
    plain = program.run(["show", "--legacy", "2024", "--color=never"], packet)
    seen = program.run(["show", "--legacy", "2024", "--color=always"], packet)
    results.same("show --color=always: a legacy packet", seen, (0, painted(plain[1], 3), b""))
    stream = b"\n".join([record(1, 3), b"no record", record(2, 7), b""])
    plain = program.run(["show", "--framing", "lf", "--color=never"], stream)
    seen = program.run(["show", "--framing", "lf", "--color=always"], stream)
    results.same("show --color=always: what is refused has no color", (seen[0], SEQUENCE.sub(b"", seen[1]), seen[2]), plain)
    words = ["show", "--json", "--color=always"]
    results.check("show --json has no colors", b"\x1b" not in program.run(words, record(1, 3))[1])


def refused_colors(program, results):
    """NO_COLOR, unless it is empty, and a terminal that is dumb, refuse colors where nothing else is said."""
    octets = record(1, 3)
    plain = show(1, read(octets))
    for name, environment, severity in [("NO_COLOR=1", {**COLORS, "NO_COLOR": "1"}, None), ("NO_COLOR=", COLORS, 3),
                                        ("TERM=dumb", {**COLORS, "TERM": "dumb"}, None)]:
        right = plain if severity is None else painted(plain, severity)
        results.same(f"show on a terminal, {name}", on_terminal(program, ["show"], octets, environment), (0, right, b""))
    seen = on_terminal(program, ["show", "--color=always"], octets, {**COLORS, "NO_COLOR": "1"})
    results.same("show --color=always on a terminal, NO_COLOR=1", seen, (0, painted(plain, 3), b""))
    seen = on_terminal(program, ["show", "--color=never"], octets, COLORS)
    results.same("show --color=never on a terminal", seen, (0, plain, b""))


def terminal(program, results):
    progress(program, results)
    errors(program, results)
    one_terminal(program, results)
    totals(program, results)
    stores(program, results)
    lines_of_stores(program, results)
    silent(program, results)
    colors(program, results)
    refused_colors(program, results)

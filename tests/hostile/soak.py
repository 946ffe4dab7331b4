"""Runs the program on hostile input without end, beside the second reader.

Each round is made from the seed and its number: records near the grammar, as datagrams and in streams of thousands; large
records; streams that are cut, joined and changed, in both framings; archives that are; entries near their limit. Each goes
through check, convert, show, archive, merge and migrate, and the status, the output and the notes are compared, octet by
octet, with what the rules give. A case is a frame, a stream or a pair of archives. What differs is cut down to few octets
and printed. Every run has a limit of memory (`ulimit -v`) and of processor time.

Then lines and frames of a hundred megabytes are read, and, on the command line, the time per octet of streams that are
hard to read is measured beside that of plain records.
"""
import argparse
import itertools
import os
import tempfile
import time
from concurrent.futures import FIRST_COMPLETED, ProcessPoolExecutor, wait
from functools import lru_cache
from pathlib import Path

from hostile.costs import STREAMED, costs
from hostile.records import Maker
from lib import reference
from lib.program import run
from lib.results import Results
from lib.side_by_side import cores

ROOM = 48 << 20  # octets of address space, with what an archive holds on top
SECONDS = 20  # of processor time, for one run
LIMITED = 'ulimit -v "$1"; ulimit -t "$2"; shift 2; exec "$@"'


class Limited:
    """The program within limits, with files of its own for merge and migrate."""

    def __init__(self, path, folder):
        self.path = path
        self.folder = Path(folder)

    def run(self, words, inputs):
        """Status, output and notes. The inputs are standard input, or the files of merge and migrate."""
        command, stdin = [self.path, *words], b""
        if words[0] in STREAMED:
            stdin = inputs[0]
        else:
            for n, octets in enumerate(inputs):
                path = self.folder / f"{os.getpid()}.{n}"
                path.write_bytes(octets)
                command.append(str(path))
        room = ROOM + (4 * sum(map(len, inputs)) if words[0] in ("archive", "migrate") else 0)
        return run("sh", ["-c", LIMITED, "sh", str(room // 1024), str(SECONDS), *command], stdin, timeout=None)


# ---------------------------------------------------------------- what the rules give

@lru_cache(maxsize=32_768)
def outcome(frame):
    return reference.read(frame)


def framing_of(words):
    return words[words.index("--framing") + 1] if "--framing" in words else "datagram"


def expected(words, inputs, known=None):
    """Status, output and notes by the second reader."""
    if words[0] == "merge":
        return reference.merge(*inputs)
    if words[0] == "migrate":
        return reference.migrate(*inputs)
    answers = known or reference.Answers(inputs[0], framing_of(words), outcome)
    if words[0] == "convert":
        return answers.convert(words[words.index("--to") + 1] if "--to" in words else None)
    return getattr(answers, words[0])()


# ---------------------------------------------------------------- what differs, as few octets as can be

def shorter(octets):
    """The octets without a span, longest spans first."""
    size = len(octets) // 2
    while size:
        for at in range(0, len(octets), size):
            yield octets[:at] + octets[at + size:]
        size //= 2


def reduced(program, words, inputs, tries=1_500):
    """Inputs, cut down as long as the program and the rules differ."""
    inputs, spent, again = list(inputs), 0, True
    while again:
        again = False
        for n in range(len(inputs)):
            for octets in shorter(inputs[n]):
                spent += 1
                if spent > tries:
                    return inputs
                candidate = inputs[:n] + [octets] + inputs[n + 1:]
                if program.run(words, candidate) != expected(words, candidate):
                    inputs, again = candidate, True
                    break
    return inputs


def told(program, words, inputs):
    """A disagreement in one line."""
    inputs = reduced(program, words, inputs)
    seen, right = program.run(words, inputs), expected(words, inputs)

    def short(answer):
        return f"{answer[0]} {answer[1][:200]!r} {answer[2][:200]!r}"

    shown = " ".join(repr(octets) if len(octets) < 2_000 else f"{octets[:300]!r}..{octets[-300:]!r} ({len(octets)})" for octets in inputs)
    return f"{' '.join(words)}: {shown}: {short(seen)} for {short(right)}"


class Round:
    """The cases of one round, and what differed."""

    def __init__(self, program, seed, number):
        self.program = program
        self.make = Maker(seed, number)
        self.cases = {}
        self.wrong = []

    def compare(self, words, inputs, known=None):
        if len(self.wrong) < 3 and self.program.run(words, inputs) != expected(words, inputs, known):
            self.wrong.append(told(self.program, words, inputs))

    def count(self, kind, cases):
        self.cases[kind] = self.cases.get(kind, 0) + cases

    def streamed(self, frames):
        """Frames as one stream in each framing, through each command."""
        counted = reference.counted(frames)
        lines = b"".join(reference.framed("lf", frame) for frame in frames if b"\n" not in frame)
        for framing, octets in ("counted", counted), ("lf", lines):
            known = reference.Answers(octets, framing, outcome)
            for words in ["check"], ["convert"], ["convert", "--to", "lf" if framing == "counted" else "counted"], ["show"], ["archive"]:
                self.compare([*words, "--framing", framing], [octets], known)

    def records(self, count):
        frames = self.make.frames(count)
        self.streamed(frames)
        for octets in frames[:20]:
            for command in STREAMED:
                self.compare([command], [octets])
        self.count("records", count)
        return frames

    def large(self, count):
        frames = [self.make.large() for _ in range(count)]
        self.streamed(frames)
        for octets in frames[:3]:
            for command in "check", "convert", "archive":
                self.compare([command], [octets])
        self.count("large records", count)
        return frames

    def streams(self, count, frames, large):
        for _ in range(count):
            framing = self.make.pick(["counted", "lf"])
            octets = self.make.stream(frames, framing, large)
            for words in ["check"], ["convert", "--to", self.make.pick(["counted", "lf"])], ["show"], ["archive"]:
                self.compare([*words, "--framing", framing], [octets])
        self.count("streams", count)

    def archives(self, count, frames):
        """Archives of the round's records, whole and changed; old ones, whose elements stand as they came."""
        read = [one for frame in frames if not isinstance(one := outcome(frame), bytes)]
        new = [reference.canonical(one) for one in read]
        old = [reference.canonical_unsorted(one) for one in read]
        half = len(new) // 2
        self.compare(["merge"], [reference.archive_text(new[:half + 9]), reference.archive_text(new[half:])])
        self.compare(["migrate"], [reference.archive_text(old)])
        for _ in range(count):
            left, right = self.make.archive(new), self.make.archive(new)
            self.compare(["merge"], [left, right])
            self.compare(["migrate"], [self.make.archive(old)])
            self.compare([self.make.pick(["check", "archive", "convert"]), "--framing", "counted"], [left])
        self.count("archives", count)

    def entries(self, count):
        for _ in range(count):
            entry = self.make.entry()
            text = reference.counted([entry])
            other = reference.archive_text([b"<0>1 - - - - - -", b"<0>1 2024-02-29T23:30:00.123456Z - - - - -"])
            self.compare(["merge"], [text, other] if self.make.chance(0.5) else [other, text])
            self.compare(["migrate"], [text])
        self.count("large entries", count)


def play(path, seed, number, count):
    """One round, with so many records: its cases by kind, and what differed."""
    with tempfile.TemporaryDirectory() as folder:
        played = Round(Limited(path, folder), seed, number)
        frames = played.records(count)
        large = played.large(6)
        played.streams(40, frames[:500], large)
        played.archives(40, frames)
        played.entries(2)
        return played.cases, played.wrong


def rounds(path, seed, cases, seconds, jobs):
    """Rounds, until there were so many cases or seconds."""
    totals, wrong, begun = {}, [], time.monotonic()
    numbers = itertools.count()
    records = 20_000 if cases >= 1_000_000 else 4_000

    def enough():
        return wrong or (time.monotonic() - begun >= seconds if seconds else sum(totals.values()) >= cases)

    with ProcessPoolExecutor(jobs) as pool:
        running = {pool.submit(play, path, seed, next(numbers), records) for _ in range(jobs)}
        while running:
            done, running = wait(running, return_when=FIRST_COMPLETED)
            for one in done:
                played, differed = one.result()
                for kind, count in played.items():
                    totals[kind] = totals.get(kind, 0) + count
                wrong += differed
                if not enough():
                    running.add(pool.submit(play, path, seed, next(numbers), records))
    return totals, wrong


# ---------------------------------------------------------------- lines of a hundred megabytes

def huge(results, path, folder, fills, size=100_000_000):
    """Lines, frames, datagrams and entries of a hundred megabytes, in the same memory as small ones."""
    good = b"<0>1 - - - - - -"
    limited = Limited(path, folder)
    archive = reference.counted([good])
    line = b"1 too-long\n"
    for fill in fills:
        long = fill * size
        for framing, octets in [("lf", long + b"\n" + good + b"\n"), ("counted", b"%d %b%b" % (size, long, archive))]:
            for words, right in [(["check"], (1, line + b"2 ok\n", b"")), (["convert"], (1, reference.framed(framing, good), line)),
                                 (["archive"], (1, archive, line))]:
                seen = limited.run([*words, "--framing", framing], [octets])
                results.same(f"{words[0]} of a {framing} frame of {size} octets", seen, right)
        seen = limited.run(["check"], [long])
        results.same(f"a datagram of {size} octets", seen, (1, line, b""))
        seen = limited.run(["check", "--framing", "lf"], [long])
        results.same(f"an unfinished line of {size} octets", seen, (1, b"unterminated 0\n", b""))
        text = archive + b"%d %b" % (size, long)
        seen = limited.run(["merge"], [text, archive])
        results.same(f"an entry of {size} octets", seen, (1, archive, b"left entry-too-long %d\n" % len(archive)))


def endless(results, path, folder):
    """A count of ten digits with its octets, and the end at exactly the last call of the reader and one octet later. The
    files have holes, and take no room on disk."""
    for name, front, size, words, right in [
        ("a frame of a billion octets", b"1000000000 ", 1_000_000_011, ["check", "--framing", "counted"], (1, b"1 too-long\n", b"")),
        ("a line that ends at the last call", b"", 1_048_575 * 4_096, ["check"], (1, b"1 too-long\n", b"")),
        ("a line that ends one call later", b"", 1_048_576 * 4_096, ["check"], (2, b"", b"endless input\n")),
    ]:
        hole = Path(folder) / "hole"
        hole.write_bytes(front)
        os.truncate(hole, size)
        with open(hole, "rb") as octets:
            results.same(name, run(path, words, stdin=octets, timeout=None), right)
        hole.unlink()


# ---------------------------------------------------------------- the run

def hunt(results, path, cases=0, seconds=0, seed=5424, jobs=None, tries=6, whole=False):
    with tempfile.TemporaryDirectory() as folder:
        totals, wrong = rounds(path, seed, cases, seconds, jobs or cores())
        for line in wrong:
            results.check(f"soak, seed {seed}", False, line)
        for kind, count in totals.items():
            results.check(f"soak: {kind}", count > 0)
        print("cases: " + ", ".join(f"{count} {kind}" for kind, count in totals.items()), flush=True)
        huge(results, path, folder, [b"a", b"\0", b"\\"] if whole else [b"a"])
        if whole:
            endless(results, path, folder)
            for command, seen in costs(path, folder, seed, tries).items():
                for ratio, name in seen[:9]:
                    print(f"{command}: an octet costs {ratio:.2f} times that of plain records: {name}", flush=True)


def soak(program, results):
    hunt(results, program.path, cases=20_000)


def main(words):
    given = argparse.ArgumentParser(prog="tests/run.py soak", description=__doc__,
                                    formatter_class=argparse.RawDescriptionHelpFormatter)
    given.add_argument("program", type=Path)
    length = given.add_mutually_exclusive_group()
    length.add_argument("--seconds", type=int, default=0)
    length.add_argument("--cases", type=int, default=0)
    given.add_argument("--seed", type=int, default=5424)
    given.add_argument("--jobs", type=int, default=cores())
    given = given.parse_args(words)
    results = Results()
    cases = given.cases if given.cases or given.seconds else 10_000_000
    hunt(results, str(given.program.resolve()), cases, given.seconds, given.seed, given.jobs, 60, whole=True)
    return results.end()

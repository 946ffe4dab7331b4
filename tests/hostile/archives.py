"""Runs the commands on archives as sets on random archives, beside the second reader.

Each round has three archives of a few records of one small pool, so that they have some in common. Most rounds draw
them anew, half of them right and half of them hostile; one draw in two thousand is of right ones, one of which is then
broken at every octet in turn, each way a round of its own. Each round goes through merge, common, minus and diff of
two, union of three, and select, digest and show --json of one; and the status, the output and the notes are compared,
octet by octet, with what the rules give. The same seed gives the same rounds.

One process of the program makes all runs (tests/lib/resident.c), so that a round takes some milliseconds.
"""
import argparse
import itertools
import sys
import tempfile
import time
from pathlib import Path

from hostile.records import Maker
from lib import algebra as second
from lib import reference
from lib.program import Folder, Resident
from lib.reference import archive_text, canonical, read
from lib.results import Results

PAIRS = {"merge": reference.merge, "common": second.common, "minus": second.minus, "diff": second.diff}
TIMES = ["-", "0000-01-01T00:00:00.000000Z", "1969-12-31T23:59:59.999999Z", "2026-11-24T23:59:59.999999Z",
         "2026-11-25T00:00:00.000000Z", "2026-11-25T10:00:00.000000Z", "2026-11-25T10:59:59.999999Z",
         "2026-12-01T00:00:00.000000Z", "9999-12-31T23:59:59.999999Z"]
BOUNDS = [*TIMES[1:], "2026-11-25T01:00:00+01:00", "2026-11-25T10:30:00Z", "2026-11-25T10:30:00.5-00:30"]
# records of all times, with what conditions ask for
POOL = [canonical(read(f"<{priority}>1 {time} {words} {data}{message}".encode()))
        for time in TIMES for priority, words, data, message in [
            (0, "- - - -", "-", ""), (13, "h a 1 m", "[b]", " x"), (14, "h - - -", "[a k=\"v\"][b]", " \n"),
            (191, "g a - m", "-", " é"), (30, "h b 2 -", "[-]", "")]]
CONDITIONS = {"undated": [True], "severity": ["emerg", "err", "notice", "info", "debug"],
              "facility": ["kern", "user", "local7", "daemon"], "host": ["h", "g", "-", "x"], "app": ["a", "b", "-"],
              "proc": ["1", "2", "-"], "msgid": ["m", "-"], "id": ["a", "b", "-", "c"],
              "message": ["x", "é", "\n", " x", "y"], "host_like": ["*", "?", "h*", "*g", "??"], "app_like": ["a*", "?", "b"],
              "not_host": ["h", "-", "x"], "not_app": ["a", "-"], "not_message": ["x", "é"]}
SWEEP = 2_000  # of so many draws, one is broken at every octet
LONGEST = 150  # octets of a hostile record


def broken(text, at, octet):
    """The text cut off at an octet, without it, with another in its place, and with another before it."""
    return [text[:at], text[:at] + text[at + 1:], text[:at] + octet + text[at + 1:], text[:at] + octet + text[at:]]


def breaking(make):
    """An octet with a meaning in archives, or any."""
    return make.pick([make.some(b"0123456789 <>-[]\n\x00\xff", 1), make.random.randbytes(1)])


def sweep(make, texts, n):
    """The triples in which archive number n is broken at every octet."""
    for at in range(len(texts[n]) + 1):
        for text in broken(texts[n], at, breaking(make)):
            yield [*texts[:n], text, *texts[n + 1:]]


def hostile(seed):
    """Canonical records from the corners of the grammar."""
    frames = Maker(seed, "records").frames(400)
    outcomes = [read(frame) for frame in frames if len(frame) < LONGEST]
    return [canonical(one) for one in outcomes if not isinstance(one, bytes)]


def triples(seed):
    """Triples of archives without end, each with what else is drawn for it."""
    corners = hostile(seed)
    for number in itertools.count(1):
        make = Maker(seed, number)
        pool = make.random.sample(POOL, 8) + make.random.sample(corners, 3)
        right = [archive_text(make.random.sample(pool, make.below(9))) for _ in range(3)]
        if number % SWEEP == SWEEP // 2:
            texts = [archive_text(make.random.sample(pool, 2 + make.below(3))) for _ in range(3)]
            yield from ((make, some) for some in sweep(make, texts, make.below(3)))
        yield make, [make.archive(pool) if make.chance(0.5) else text for text in right]


def conditions(make):
    """Some conditions of `select`, or none."""
    given = {}
    if make.chance(0.15):
        given["only_undated"] = True
    else:
        given.update({name: make.pick(BOUNDS) for name in ("from", "to") if make.chance(0.4)})
    for name, values in CONDITIONS.items():
        if make.chance(0.15):
            given[name] = [make.pick(values) for _ in range(1 + make.below(2))] if name in second.LISTS else make.pick(values)
    if "only_undated" in given:
        given.pop("undated", None)
    return second.Conditions(**given)


def cases(make, texts, names):
    """Of each command its words, its standard input, and its answer by the second reader."""
    for name, answer in PAIRS.items():
        yield [name, *names[:2]], b"", answer(*texts[:2])
    yield ["union", *names], b"", second.union(*texts)
    given, by = conditions(make), make.pick(["month", "day", "hour"])
    yield ["select", *given.words()], texts[0], second.select(texts[0], given)
    yield ["digest", "--by", by], texts[1], second.digest(texts[1], by)
    yield ["show", "--json", "--framing", "counted"], texts[2], second.show_json(texts[2])


def rounds(program, results, folder, count, seed, told=lambda played: None):
    """So many rounds; fewer where twenty cases differ. `told` is called after each."""
    differed = results.failed + 20
    for played, (make, texts) in enumerate(itertools.islice(triples(seed), count), 1):
        names = [folder.file(f"archive{n}", text) for n, text in enumerate(texts)]
        for words, octets, right in cases(make, texts, names):
            seen = program.run(words, octets)
            results.check(f"{words[0]} of random archives, round {played} of seed {seed}", seen == right,
                          "" if seen == right else f"{words} {texts} {seen} for {right}")
        told(played)
        if results.failed >= differed:
            return


def main(words):
    given = argparse.ArgumentParser(prog="tests/run.py algebra", description=__doc__,
                                    formatter_class=argparse.RawDescriptionHelpFormatter)
    given.add_argument("program", type=Path)
    given.add_argument("--rounds", type=int, default=100_000)
    given.add_argument("--seed", type=int, default=512)
    given = given.parse_args(words)
    results, begun = Results(), time.monotonic()

    def told(played):
        if played % 1_000 == 0:
            seconds = time.monotonic() - begun
            print(f"{played} rounds: {results.passed} passed, {results.failed} failed, in {seconds:.0f} seconds",
                  file=sys.stderr, flush=True)

    with tempfile.TemporaryDirectory(dir="/dev/shm" if Path("/dev/shm").is_dir() else None) as path:
        folder = Folder(path)
        program = Resident(given.program, folder)
        rounds(program, results, folder, given.rounds, given.seed, told)
        program.end()
    return results.end()

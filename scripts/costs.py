#!/usr/bin/env python3
"""Prints the functions whose proofs cost most, of all crates that were checked, or what each crate cost.

usage: rt check --jobs 1 | scripts/costs.py --stamp > FILE
       scripts/costs.py [--first N] FILE..
       scripts/costs.py --crates FILE..

`rt check` prints `checked NAME, K of N` as it ends with a function, and no times. The first form, in a crate's folder, passes
its lines on with the seconds at which each came. The second reads such files, one for each crate, and prints the N functions
(default 20) that cost most, with their share of all. A function costs the time from the line before to its own; the lemmas that
are checked on the way count to the function that needs them first. A function that an earlier check kept has no line, so begin
with no out/, and more than one job checks functions side by side, so give --jobs 1.

The third reads what scripts/prove.py or `make proved` prints, and prints a row for each crate, the dearest first: its functions,
its lines of proof, the minutes from its beginning to its end beside others, and the processor seconds.
"""
import argparse
import re
import sys
import time
from collections import namedtuple
from pathlib import Path

STAMPED = re.compile(r"(\d+\.\d+) (.*)")
CHECKED = re.compile(r"checked (\S+), (\d+) of (\d+)$")
FAR = re.compile(r"so far: (\d+) of (\d+) functions checked")
FAR_OF_ALL = re.compile(r" *(\d+):(\d\d)  \d+ of \d+ crates proved; (\w+) ")
ENDED = re.compile(r".* is proved, (\d+) functions(?:, (\d+) processor seconds)?")
ROOT = Path(__file__).resolve().parent.parent
OWN = re.compile(r"(?:fn|struct|enum|impl|trait) (\w+)::")

# a function, and the seconds that its proof took
Cost = namedtuple("Cost", "seconds name")
# a crate, and what its proof took; the processor seconds may be unknown
Crate = namedtuple("Crate", "name functions lines seconds used")


def stamp(lines, output):
    """Passes lines on as they come, each with the seconds since the start."""
    start = time.monotonic()
    for line in lines:
        output.write(f"{time.monotonic() - start:.3f} {line}")
        output.flush()


def costs(lines):
    """The costs of a crate's functions, and how many functions were checked without a line of their own."""
    crate, before, found, count = None, 0.0, [], 0
    for line in lines:
        stamped = STAMPED.match(line)
        if not stamped:
            continue
        seconds, text = float(stamped[1]), stamped[2].rstrip()
        checked, far, own = CHECKED.match(text), FAR.match(text), OWN.match(text)
        if checked:
            found.append(Cost(seconds - before, checked[1]))
        if checked or far:
            count = max(count, int(checked[2] if checked else far[1]))
        crate = crate or own and own[1]
        before = seconds
    named = [Cost(seconds, with_crate(crate, name)) for seconds, name in found]
    return named, max(0, count - len(found))


def with_crate(crate, name):
    return name if crate is None or name.startswith(f"{crate}::") else f"{crate}::{name}"


def table(found, first):
    """The lines on the functions that cost most."""
    whole = sum(cost.seconds for cost in found)
    most = sorted(found, reverse=True)[:first]
    yield "seconds   share  function"
    for seconds, name in most:
        yield f"{seconds:7.1f}  {share(seconds, whole)}  {name}"
    yield (f"{whole:7.1f} seconds for {len(found)} functions; "
           f"these {len(most)} have {share(sum(cost.seconds for cost in most), whole).strip()}")


def crates(lines):
    """The crates that a run of scripts/prove.py has proved. One that it does not say to begin begins as the one before ends."""
    begun, before = {}, 0
    for line in lines:
        far, ended = FAR_OF_ALL.match(line), ENDED.match(line)
        if not far:
            continue
        now, name = 60 * int(far[1]) + int(far[2]), far[3]
        begun.setdefault(name, now if line.rstrip().endswith(" begins") else before)
        if ended:
            yield Crate(name, int(ended[1]), proof_lines(name), now - begun[name], ended[2] and int(ended[2]))
            before = now


def proof_lines(crate):
    """The lines of a crate's proofs."""
    return sum(file.read_bytes().count(b"\n") for file in (ROOT / "crates" / crate / "proofs").rglob("*.antt"))


def crate_table(found):
    """The rows on crates, as a document has them."""
    known = all(crate.used is not None for crate in found)
    yield "| Crate | Functions | Lines of proof | Minutes |" + " Processor seconds |" * known
    yield "|---|---|---|---|" + "---|" * known
    sums = ["all"] + [sum(column) for column in zip(*(crate[1:4] for crate in found))]
    sums.append(sum(crate.used for crate in found) if known else None)
    by_cost = sorted(found, key=lambda crate: crate.used if known else crate.seconds, reverse=True)
    for name, functions, lines, seconds, used in [*by_cost, sums]:
        row = [f"`{name}`" if name != "all" else name, functions, lines, f"{seconds // 60}:{seconds % 60:02}"]
        yield f"| {' | '.join(map(str, row + [used] * known))} |"


def share(part, whole):
    return f"{100 * part / whole if whole else 0:4.1f} %"


def main(words):
    given = argparse.ArgumentParser(description=__doc__, formatter_class=argparse.RawDescriptionHelpFormatter)
    given.add_argument("--stamp", action="store_true", help="pass lines on with the time of each")
    given.add_argument("--crates", action="store_true", help="what each crate took")
    given.add_argument("--first", type=int, default=20, metavar="N", help="so many functions (default 20)")
    given.add_argument("files", nargs="*", metavar="FILE")
    given = given.parse_args(words)
    if given.stamp == bool(given.files) or given.stamp and given.crates:
        print(__doc__, file=sys.stderr)
        return 2
    if given.stamp:
        stamp(sys.stdin, sys.stdout)
        return 0
    texts = {file: Path(file).read_text(errors="replace").splitlines() for file in given.files}
    if given.crates:
        proved = {}
        for crate in (crate for lines in texts.values() for crate in crates(lines)):
            proved.setdefault(crate.name, crate)  # a later run keeps what was proved
        if not proved:
            print("no line says that a crate was proved", file=sys.stderr)
            return 1
        print("\n".join(crate_table(proved.values())))
        return 0
    found = []
    for file, lines in texts.items():
        some, unnamed = costs(lines)
        found += some
        if unnamed:
            print(f"{file}: {unnamed} functions have no time of their own: check with --jobs 1", file=sys.stderr)
    if not found:
        print("no stamped line says that a function was checked", file=sys.stderr)
        return 1
    print("\n".join(table(found, given.first)))
    return 0


if __name__ == "__main__":
    sys.exit(main(sys.argv[1:]))

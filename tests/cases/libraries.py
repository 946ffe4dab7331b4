"""Trials of the calls of the libraries: collectors by chance and in many turns, and each growth of memory refused in turn."""
import re

# families of turns of two connections, by pieces of each size from 1 to 5 octets, and how many there are
CHANGES = {1: 11_520, 2: 3_036, 3: 1_364, 4: 816, 5: 532}
EVEN, AT_RANDOM = 128, 10_000

# what is told of a growth that was refused: nothing was changed, or a prefix was written; the call is then made again
REFUSED = re.compile(r": (memory, unchanged|memory|the writer failed after a prefix); ")

# the calls that take memory: each has to be seen refused
GROWTHS = {
    "archive": {f"{store} {call}" for store in ("sorted", "paged")
                for call in ("add", "add_view", "holds", "add_view of many", "write")} | {"read", "merge"},
    "streams": {"merge_streams", "merge_streams into memory"},
    "migrate": {"migrate", "migrate_into sorted", "migrate_into paged"},
    "collect": {f"{store} {call}" for store in ("sorted", "paged")
                for call in ("new", "open_conn", "advance", "datagram", "run")},
}

# a wrong answer in a line of a trial
WRONG = re.compile(r"Err|(is|are) false|changed;|refused|another|something else|no record|" + REFUSED.pattern)
WRONG_VALUE = re.compile(r"memory|other|another|refused|syntax")

# what is told of an allocation of a value that fails: what was there before is unchanged
FAILED_ALLOCATION = re.compile(r": (memory(, unchanged( at 7 octets)?| for .*)?|ok, memory for its copy)$")


def headline(program, results, seed=5424, rounds=1_000):
    """Random sets of records over random routes: two collectors have archives of equal octets."""
    status, output, _ = program.run(["headline", str(seed), str(rounds)])
    right = status == 0 and output.startswith(b"%d rounds are right: " % rounds)
    results.check("collectors of one set have one archive", right, f"{status} {output[-200:]!r}")


def turns(program, results, seed=5424):
    """Two connections in many turns: the log and the archive are always those of the frames."""
    status, output, _ = program.run(["turns", str(seed)])
    expected = "".join(
        f"size {size}, at most three changes: {changes} are right\n"
        f"size {size}, even turns: {EVEN} are right\n"
        f"size {size}, at random: {AT_RANDOM} are right\n" for size, changes in CHANGES.items())
    results.check("two connections in turns", (status, output.decode()) == (0, expected), output.decode())


def outcome(lines, ample):
    """The names of the calls that were refused and then gave what ample memory gives; None where a line is another."""
    if len(lines) != len(ample):
        return None
    refused = set()
    for line, right in zip(lines, ample):
        if line != right:
            if REFUSED.sub(": ", line, count=1) != right:
                return None
            refused.add(line.split(": ")[0])
    return refused


def refusals(program, results, part, wrong):
    """What the trials of a part print with ample memory, how many allocations they make, and what they print where each fails."""
    words = ["grow", part]
    status, ample, _ = program.run(words)
    ample = ample.decode().splitlines()
    results.check(f"trials of {part} run", status == 0 and not any(wrong.search(line) for line in ample), str(ample))
    allocations = program.counts(words).malloc
    seen = []
    for n in range(1, allocations + 3):
        status, output, _ = program.run(words, environment=program.failing(malloc=n))
        seen.append((n, status, output.decode().splitlines()))
    return ample, allocations, seen


def growths(program, results):
    """Each growth is refused in turn: the call answers so and leaves the set, and made again it gives all."""
    for part, calls in GROWTHS.items():
        ample, allocations, runs = refusals(program, results, part, WRONG)
        seen = set()
        for n, status, lines in runs:
            # what the trial itself cannot have ends it
            stopped = status in (2, 3) and lines == ample[:len(lines)] and n <= allocations
            refused = outcome(lines, ample) if status == 0 else set()
            right = stopped or (status == 0 and refused is not None and not (refused and n > allocations))
            results.check(f"trials of {part}: growth {n} of {allocations}", right, f"{status} {lines}")
            seen |= refused or set()
        results.check(f"trials of {part}: each call is refused once", seen == calls, str(seen ^ calls))


def values(program, results):
    """Each allocation of values, frames and the grammar fails in turn: `memory`, or what ample memory gives."""
    for part in ["frame", "value", "grammar"]:
        ample, allocations, runs = refusals(program, results, part, WRONG_VALUE)
        reported = 0
        for n, status, lines in runs:
            others = [line for line in lines if line not in ample and not FAILED_ALLOCATION.search(line)]
            reported += any("memory" in line for line in lines)
            # an allocation for the words themselves ends the program before any line
            right = not others and (status == 0 or not lines)
            results.check(f"trials of {part}: allocation {n} of {allocations}", right, f"{status} {others}")
        results.check(f"trials of {part}: an allocation that fails is reported", reported > 0)


def libraries(program, results):
    headline(program, results)
    turns(program, results)
    growths(program, results)
    values(program, results)

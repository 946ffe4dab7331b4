"""The recipes of cluster/ on this machine: GNU parallel, Slurm and Dask. No part of the gate.

64 archives of 200,000 records each (sites.py) are joined by each recipe with one, two and four workers. The result has
to be, by cmp, what `union` of all of them writes. The wall time and the processor time of each run are told, with the
load of the machine when it began; beside them those of one `union`, of a tree of unions (as many as workers side by
side, then one of their outputs), and of ranges for which each task selects from all inputs.

Then a worker is killed in the middle of a range (SIGKILL), which has to be made again by the same run, and what was
there before has to stay as it was; and with GNU parallel the whole run is killed, and run again. A task runs twice, one
behind the other and at once. Entries inside of messages have to be told and, with --walk, to be read for what they are;
and more archives are joined than a `union` opens.

Debian's packages are parallel, slurm-wlm and munge, python3-distributed and python3-dask; an engine that is not there
is skipped. The files are below --folder, some 8 GB, and are removed at the end; so are all daemons.
"""
import argparse
import os
import platform
import signal
import subprocess
import sys
import tempfile
import time
from pathlib import Path

from lib import reference
from lib.program import Program
from lib.results import Results
from peers import sites
from peers.engines import CLUSTER, Dask, Parallel, Slurm, until
from peers.joining import LATE, RANGES, Set, alone, own, table
from peers.processes import adopt, below

ENGINES = {"parallel": Parallel, "slurm": Slurm, "dask": Dask}


# ---------------------------------------------------------------- killed, and run again

def ranges_at_work(records):
    """The tasks that copy pieces or join them: the process, its range, its children and its parent."""
    processes = below()
    tasks = {pid: one for pid, one in processes.items()
             if len(one.words) > 3 and one.words[1].endswith("range.sh") and one.words[2] == str(records.work)}
    for pid, one in tasks.items():
        children = [child for child, its in processes.items() if its.parent == pid]
        if one.parent not in tasks and any({"dd", "union"} & set(processes[child].words) for child in children):
            yield pid, int(one.words[3]), children, one.parent


def in_the_middle(records):
    """Waits until two ranges are there and one is at work, and stops that task: its process, and so on."""
    found = []

    def one():
        for task in ranges_at_work(records) if len(whole(records)) >= 2 else ():
            if stopped(task[0]) and task[1] not in whole(records):
                found.append(task)
                return True
            signalled(task[0], signal.SIGCONT)

    until(one, "a range at work")
    return found[0]


def whole(records):
    """The ranges that are there, and which files they are."""
    paths = list((records.work / "ranges").glob("[0-9]*"))
    return {int(path.name): (path.stat().st_ino, path.stat().st_mtime_ns) for path in paths}


def signalled(pid, number):
    """Whether a process was there for a signal."""
    try:
        os.kill(pid, number)
        return True
    except ProcessLookupError:
        return False


def stopped(pid):
    return signalled(pid, signal.SIGSTOP)


def kill(pids):
    for pid in pids:
        signalled(pid, signal.SIGKILL)


def stays(results, name, before, after):
    results.check(f"{name}: what was there is not made again", before.items() <= after.items(), f"{before} {after}")


def killed_worker(records, results, engine):
    """A worker is killed in the middle of a range, and the run goes on."""
    name = f"{engine.name}, a worker is killed"
    engine.start(2)
    try:
        run = records.begin(engine.recipe(records.list, records.out, RANGES, 2), engine.environment)
        pid, number, children, parent = in_the_middle(records)
        before = whole(records)
        results.check(f"{name}: not behind its range", number not in before, number)
        kill([parent] if isinstance(engine, Dask) else [pid, *children])
        if isinstance(engine, Dask):  # the task goes on, beside the one that takes its place
            os.kill(pid, signal.SIGCONT)
        status = run.wait(LATE)
        stays(results, name, before, whole(records))
        records.check(results, name, status)
    finally:
        engine.stop()
    print(f"{name} in the middle of range {number}, when {len(before)} were there", flush=True)


def killed_run(records, results, engine):
    """All processes of a run are killed, and it is run again."""
    name = f"{engine.name}, the run is killed"
    run = records.begin(engine.recipe(records.list, records.out, RANGES, 2))
    in_the_middle(records)
    os.killpg(run.pid, signal.SIGKILL)
    kill(below())
    run.wait()
    results.check(f"{name}: no output", not records.out.exists())
    before = whole(records)
    status = records.run(engine.recipe(records.list, records.out, RANGES, 2))
    stays(results, name, before, whole(records))
    records.check(results, name, status)
    print(f"{name} when {len(before)} ranges were there", flush=True)


# ---------------------------------------------------------------- tasks by themselves

def step(script, *words):
    return [CLUSTER / script, *words]


def twice(records, results):
    """A task runs behind itself and beside itself."""
    results.check("the plan", records.run(step("plan.py", records.list, records.work, 3)) == 0, records.log)
    plan = {path.name: path.read_bytes() for path in (records.work / "plan").iterdir()}
    at_once = [records.begin(step("range.sh", records.work, number)) for number in (0, 1, 2, 3, 1, 2, 2)]
    results.check("ranges at once", [run.wait(LATE) for run in at_once] == [0] * 7, records.log.read_text())
    before = whole(records)
    for words in step("plan.py", records.list, records.work, 3), step("range.sh", records.work, 2):
        results.check(f"{words[0].name} twice", records.run(words) == 0, records.log.read_text())
    stays(results, "a plan twice", plan, {path.name: path.read_bytes() for path in (records.work / "plan").iterdir()})
    stays(results, "a range twice", before, whole(records))
    another = records.run(step("plan.py", records.list, records.work, 4))
    results.check("no plan of other ranges", another == 1, another)
    (records.work / "ranges" / "00002").unlink()
    early = records.run(step("concat.sh", records.work, records.out))
    results.check("no output while a range is missing", early != 0 and not records.out.exists(), early)
    concat = step("concat.sh", records.work, records.out)
    statuses = [records.run(words) for words in (step("range.sh", records.work, 2), concat, concat)]
    records.check(results, "tasks twice", max(statuses))


def by_hand(records, results, name, walk=()):
    """The union by the scripts alone, with the statuses of the ranges."""
    words = step("plan.py", records.list, records.work, 3, *walk)
    statuses = [records.run(words), *(records.run(step("range.sh", records.work, number)) for number in range(4))]
    if max(statuses) == 0:
        records.check(results, name, records.run(step("concat.sh", records.work, records.out)))
    return statuses


def archived(program, path, records):
    path.write_bytes(subprocess.run([program.path, "archive", "--framing", "counted"], input=reference.counted(records),
                                    capture_output=True, check=True).stdout)
    return path


def at(hour, message):
    return b"<13>1 2026-11-01T%02d:30:00.000000Z h a - - - %b" % (hour, message)


def imitated(program, folder, results):
    """A message that is an archive itself, of other times, misleads the search and not the check."""
    false = b"".join(reference.counted([at(23, b"false %d" % n)]) for n in range(1_000))
    true = [at(2, false), *(at(hour, b"x") for hour in range(3, 23))]
    paths = [archived(program, folder / f"imitated{n}", [at(1, b"%d" % n), *true]) for n in range(2)]
    records = Set(folder, program, paths)
    searched = by_hand(records, results, "entries in a message, searched")
    results.check("entries in a message are told", 1 in searched, searched)
    records.clear()
    walked = by_hand(records, results, "entries in a message, --walk", ["--walk"])
    results.check("entries in a message, walked over", max(walked) == 0, walked)


def many(program, folder, results):
    """More archives than a `union` opens; one is empty, one has no times, one has one instant alone."""
    paths = [archived(program, folder / f"many{n}", [at(n % 24, b"%d" % (n // 2 + k)) for k in range(3)])
             for n in range(1_100)]
    paths += [archived(program, folder / "empty", []), archived(program, folder / "undated", [b"<13>1 - h a - - - x"]),
              archived(program, folder / "instant", [at(5, b"%04d" % n) for n in range(5_000)])]
    statuses = by_hand(Set(folder, program, paths), results, f"{len(paths)} archives")
    results.check(f"{len(paths)} archives", max(statuses) == 0, statuses)


# ---------------------------------------------------------------- the whole

def engines_of(program, folder, names):
    """The engines that are there; a line for each that is not."""
    for name in names:
        place = folder / name
        place.mkdir()
        engine = ENGINES[name](place, own(program, folder))
        if engine.is_there():
            yield engine
        else:
            print(f"{engine.name} is not here (packages {engine.packages}): skipped")


def small(program, folder, results):
    """What needs no engine and few records."""
    for case in imitated, many:
        place = folder / case.__name__
        place.mkdir()
        case(program, place, results)


def large(program, folder, results, engines, records):
    """The 64 archives by each engine."""
    place = folder / "archives"
    place.mkdir()
    begun = time.monotonic()
    paths = sites.archives(program.path, place, records)
    octets = sum(path.stat().st_size for path in paths)
    records = Set(folder, program, paths)
    print(f"{', '.join(engine.version() for engine in engines)}; Linux {platform.release()}, {os.cpu_count()} cores, "
          f"load {os.getloadavg()[0]:.1f}; {len(paths)} archives of {octets:,} octets, made in "
          f"{time.monotonic() - begun:.0f} s, and their union of {records.want.stat().st_size:,}; {RANGES} ranges\n")
    alone(records, program)
    print()
    table(records, results, engines)
    print()
    twice(records, results)
    for engine in engines:
        killed_worker(records, results, engine)
        if isinstance(engine, Parallel):
            killed_run(records, results, engine)


def main(words):
    given = argparse.ArgumentParser(prog="tests/run.py cluster", description=__doc__,
                                    formatter_class=argparse.RawDescriptionHelpFormatter)
    given.add_argument("program")
    given.add_argument("--records", type=int, default=200_000, help="of each archive")
    given.add_argument("--folder", type=Path, default=Path("/var/tmp"))
    given.add_argument("--engines", nargs="*", choices=ENGINES, default=list(ENGINES))
    given = given.parse_args(words)
    program, results = Program(given.program), Results()
    signal.signal(signal.SIGTERM, lambda *_: sys.exit(1))  # daemons and files are removed then, too
    adopt()
    with tempfile.TemporaryDirectory(dir=given.folder) as path:
        folder = Path(path)
        folder.chmod(0o755)  # munged wants that others can reach its socket
        engines = list(engines_of(program, folder, given.engines))
        small(program, folder, results)
        large(program, folder, results, engines, given.records)
    return results.end()

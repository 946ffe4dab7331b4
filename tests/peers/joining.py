"""Archives that are joined in several ways, and what that takes."""
import os
import subprocess
import time
from pathlib import Path

from peers.engines import CLUSTER, Parallel
from peers.processes import processor

WORKERS = (1, 2, 4)
RANGES = 16
LATE = 900  # seconds, after which a run is given up

SELECTING = """
set -euo pipefail
select_one() {
    room=$(mktemp -d "$TMPDIR/select.XXXXXX")
    read -r -a conditions < "$WORK/plan/$(printf %05d "$1")"
    if [ "$1" = 1 ]; then conditions+=(--undated); fi
    while read -r path; do "$SYSLOGBOX" select "${conditions[@]}" < "$path" > "$room/${path##*/}"; done < "$INPUTS"
    "$SYSLOGBOX" union "$room"/* > "$WORK/$1"
    rm -r "$room"
}
export -f select_one
"$CLUSTER/plan.py" "$INPUTS" "$WORK" "$1"
seq "$1" | parallel --will-cite --jobs "$1" --halt soon,fail=1 select_one
for range in $(seq "$1"); do cat "$WORK/$range"; done > "$OUT"
"""
TREE = """
set -euo pipefail
mkdir -p "$WORK"
split --number="r/$1" --numeric-suffixes "$INPUTS" "$WORK/list."
ls "$WORK"/list.* |
    parallel --will-cite --jobs "$1" --halt soon,fail=1 'xargs "$SYSLOGBOX" union < {} > "$WORK"/joined.{#}'
"$SYSLOGBOX" union "$WORK"/joined.* > "$OUT"
"""


def union(program, want, paths):
    """Writes the union of archives, which may be more than 512."""
    groups = [paths[n:n + 512] for n in range(0, len(paths), 512)]
    for n, group in enumerate(groups) if len(groups) > 1 else ():
        union(program, want.with_name(f"want{n}"), group)
    paths = paths if len(groups) == 1 else [want.with_name(f"want{n}") for n in range(len(groups))]
    with open(want, "wb") as octets:
        subprocess.run([program.path, "union", *paths], stdout=octets, check=True)


def own(program, folder):
    """The environment of the recipes, with a folder for pieces that is below another."""
    room = folder / "room"
    room.mkdir(exist_ok=True)
    return {"SYSLOGBOX": program.path, "TMPDIR": str(room), "CLUSTER": str(CLUSTER)}


class Set:
    """Archives, a list of them, and their union."""

    def __init__(self, folder, program, paths):
        self.folder = folder
        self.list = folder / "list"
        self.list.write_text("".join(f"{path}\n" for path in paths))
        self.want = folder / "want"
        union(program, self.want, paths)
        self.out = folder / "out"
        self.work = Path(f"{self.out}.work")
        self.log = folder / "log"
        self.environment = {**own(program, folder), "WORK": str(self.work), "OUT": str(self.out),
                            "INPUTS": str(self.list)}

    def begin(self, words, environment=None):
        """Starts a recipe, in a group of its own."""
        environment = {**os.environ, **self.environment, **(environment or {})}
        with open(self.log, "ab") as log:
            return subprocess.Popen([str(word) for word in words], stdin=subprocess.DEVNULL, stdout=log, stderr=log,
                                    env=environment, start_new_session=True)

    def run(self, words, environment=None):
        return self.begin(words, environment).wait(LATE)

    def check(self, results, name, status):
        """The run ended with status 0 and the union of all, whose folder is then removed."""
        same = subprocess.run(["cmp", str(self.out), str(self.want)], capture_output=True)
        log = self.log.read_text()[-2_000:]
        results.check(f"{name}: the union of all", (status, same.returncode) == (0, 0), f"status {status}\n{log}")
        self.clear()

    def clear(self):
        """Removes what a run left."""
        subprocess.run(["rm", "-rf", self.out, self.work, self.log, *(self.folder / "room").iterdir()], check=True)


# ---------------------------------------------------------------- times

def timed(records, results, name, workers, words, environment=None):
    """Runs a recipe, and prints a row of the table."""
    load, before, begun = os.getloadavg()[0], processor(), time.monotonic()
    status = records.run(words, environment)
    wall, spent = time.monotonic() - begun, processor() - before
    print(f"| {name} | {workers} | {wall:.1f} | {spent:.1f} | {load:.1f} |", flush=True)
    records.check(results, f"{name}, {workers} workers", status)


def table(records, results, engines):
    """Wall time and processor time of each way with one, two and four workers."""
    print("| Way | workers | wall time, s | processor time, s | load before |\n|---|---:|---:|---:|---:|")
    union = 'xargs "$SYSLOGBOX" union < "$INPUTS" > "$OUT"'
    timed(records, results, "one `union`", 1, ["bash", "-c", union])
    if engines and isinstance(engines[0], Parallel):
        for name, script in ("a tree of `union`", TREE), ("ranges, each task selects from all", SELECTING):
            for workers in WORKERS:
                timed(records, results, name, workers, ["bash", "-c", script, "bash", workers])
    for engine in engines:
        for workers in WORKERS:
            engine.start(workers)
            try:
                timed(records, results, engine.name, workers, engine.recipe(records.list, records.out, RANGES, workers),
                      engine.environment)
            finally:
                engine.stop()


def count(program, path):
    """How many entries an archive has."""
    words = [program.path, "check", "--framing", "counted"]
    return subprocess.run(words, stdin=open(path, "rb"), capture_output=True).stdout.count(b"\n")


def used(program, words, source):
    """Processor seconds of one run."""
    with open(source, "rb") as octets:
        process = subprocess.Popen([program.path, *words], stdin=octets, stdout=subprocess.DEVNULL)
        _, status, usage = os.wait4(process.pid, 0)
    process.returncode = os.waitstatus_to_exitcode(status)
    if process.returncode != 0:
        raise RuntimeError(f"status {process.returncode} of {words}")
    return usage.ru_utime + usage.ru_stime


def alone(records, program):
    """What one core does: records and octets of the input a second of processor time, the more of two runs."""
    paths, shuffled = records.list.read_text().splitlines(), records.folder / "shuffled"
    with open(shuffled, "wb") as octets:
        for path in paths[:16]:
            subprocess.run([program.path, "convert", "--framing", "counted", "--to", "lf"], stdin=open(path, "rb"),
                           stdout=octets, check=True)
    subprocess.run(["shuf", "-o", shuffled, shuffled], check=True)
    want = records.want
    rows = [("`archive`, the lines of 16 archives, shuffled", paths[:16], shuffled, ["archive", "--framing", "lf"]),
            *((f"`union` of {n}", paths[:n], paths[0], ["union", *paths[:n]]) for n in (2, 8, 16, 64)),
            ("`select` of all", [want], want, ["select", "--from", "2000-01-01T00:00:00Z", "--undated"]),
            ("`select` of nothing", [want], want, ["select", "--from", "2030-01-01T00:00:00Z"])]
    print("| One core | records a second | octets a second |\n|---|---:|---:|")
    for name, inputs, source, words in rows:
        seconds = min(used(program, words, source) for _ in range(2))
        size, many = sum(map(os.path.getsize, inputs)), sum(count(program, path) for path in inputs)
        print(f"| {name} | {many / seconds:,.0f} | {size / seconds:,.0f} |", flush=True)
    shuffled.unlink()

"""Random records through the library in C, Python and Go beside `show --json` of the program, octet for octet.

A record is read as it is and in its canonical form; besides, packets are read as legacy ones, and two archives are joined.
The same seed gives the same records.
"""
import argparse
import shutil
import subprocess
import tempfile
from pathlib import Path

from bindings.building import SANITIZED, compiled, for_go, ways
from cases.legacy import changed, zone
from hostile.records import Maker
from lib import reference
from lib.program import ROOT, Folder, Program, run
from lib.results import Results

YEAR, MINUTES = 2024, 60


class Lines:
    """Files of random octets below a folder, and the lines that the program prints of what they are."""

    def __init__(self, program, folder, count, seed):
        make = Maker(seed)
        make.wrong = 0.002
        frames = [make.record() for _ in range(count)] + make.frames(count // 10)
        packets = [packet for packet in changed(make.random, count // 10) if packet]
        self.folder, self.path = folder, folder.path / "lines"
        self.path.mkdir()
        self.records, self.legacy = self.file("records", frames), self.file("legacy", packets)
        self.left, self.right = (self.archive(program, name, frames[of::3]) for of, name in enumerate(["left", "right"]))
        clock = ["--legacy", str(YEAR), "--zone", zone(MINUTES)]
        self.of = {"records": self.shown(program, "records", self.records),
                   "legacy": self.shown(program, "legacy", self.legacy, *clock),
                   "union": self.shown(program, "union", self.union(program))}

    def file(self, name, frames):
        return self.folder.file(f"lines/{name}", reference.counted(frames))

    def archive(self, program, name, frames):
        archive = program.run(["archive", "--framing", "counted"], reference.counted(frames))[1]
        return self.folder.file(f"lines/{name}", archive)

    def union(self, program):
        return self.folder.file("lines/union", program.run(["union", self.left, self.right])[1])

    def shown(self, program, name, path, *words):
        """What the program prints of a stream, which is kept for Go too."""
        output = program.run(["show", "--json", "--framing", "counted", *words], Path(path).read_bytes())[1]
        self.folder.file(f"lines/{name}.json", output)
        return output


def in_c(results, lines):
    path, built, said = compiled(lines.folder, "lines-in-c", [ROOT / "tests/bindings/lines.c"], *SANITIZED)
    results.check("C: the lines are compiled", built, said)
    for name, words in [("records", [lines.records]), ("legacy", [YEAR, MINUTES, lines.legacy]), ("union", [lines.left, lines.right])]:
        if built:
            seen = run(path, [name, *map(str, words)], timeout=600)
            results.same(f"C: lines of {name}", seen, (0, lines.of[name], b""))


def in_python(results, lines, module):
    """Records as they are and canonical, by the iterator over a file; packets and a union by the calls."""
    with open(lines.records, "rb") as stream:
        frames = list(module.frames(stream))
    with open(lines.records, "rb") as stream:
        shown = list(module.records(stream))
    read = [one for one in shown if isinstance(one, module.Record)]
    results.check("Python: each frame is a record or refused", len(frames) == len(shown), f"{len(shown)} for {len(frames)}")
    compared(results, "records", lines, read)
    of_records = [frame for frame in frames if module.is_record(frame)]
    compared(results, "records", lines, [module.view(module.canonical(frame)) for frame in of_records])
    packets = reference.counted_frames(Path(lines.legacy).read_bytes())[0]
    compared(results, "legacy", lines, [module.view(text) for text in legacy(module, packets)])
    both = module.union(Path(lines.left).read_bytes(), Path(lines.right).read_bytes())
    compared(results, "union", lines, list(module.records(both, longest=module.ENTRY_MAX)))


def compared(results, name, lines, records):
    right = lines.of[name].decode().split("\n")[:-1]
    wrong = next((f"{one.json()} for {line}" for one, line in zip(records, right) if one.json() != line), "")
    results.check(f"Python: lines of {name}", len(records) == len(right) and not wrong, wrong or f"{len(records)} for {len(right)}")


def legacy(module, packets):
    for packet in packets:
        try:
            yield module.legacy(packet, YEAR, MINUTES)
        except module.SyslogError:
            pass


def in_go(results, lines):
    if not shutil.which("go"):
        results.skip("the lines in Go", "there is no go")
        return
    environment = {**for_go(lines.folder), "SYSLOGBOX_LINES": str(lines.path)}
    status, output, notes = run("go", ["test", "-count=1", "-v", "-run", "^TestLines$", "."], environment=environment,
                                cwd=ROOT / "go", timeout=600)
    ran = status == 0 and b"--- PASS: TestLines" in output
    results.check("Go: lines", ran, (output + notes)[-400:].decode(errors="replace"))


def lines(program, results, folder, count, seed=1):
    """Tries so many records; gives how many of the frames are records, and how many are refused."""
    some = Lines(program, folder, count, seed)
    in_c(results, some)
    for way in ways(results, folder):
        in_python(way.results(results), some, way.loaded())
    in_go(results, some)
    read = some.of["records"].count(b"\n")
    results.check("most frames are records", read > count * 0.9, f"{read} of {count}")
    return read


def main(words):
    given = argparse.ArgumentParser(prog="tests/run.py bindings", description=__doc__,
                                    formatter_class=argparse.RawDescriptionHelpFormatter)
    given.add_argument("program", type=Path)
    given.add_argument("--records", type=int, default=100_000)
    given.add_argument("--seed", type=int, default=1)
    given = given.parse_args(words)
    results = Results()
    subprocess.run(["make", "-s", "lib"], cwd=ROOT, check=True)
    with tempfile.TemporaryDirectory() as path:
        folder = Folder(path)
        read = lines(Program(given.program, folder), results, folder, given.records, given.seed)
    print(f"{read} records of seed {given.seed}")
    return results.end()

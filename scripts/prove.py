#!/usr/bin/env python3
"""Proves a program, or a library for C, and the crates below it, side by side as far as they stand apart, and builds it.

usage: scripts/prove.py [--costs FOLDER] CRATE

One rt at a time works in a crate's folder and those below it, so each library is proved in a copy of what it stands on,
in TMPDIR, best on the repository's own disk. It begins with what earlier checks kept of the crate, and what is built and kept
comes into the out/ folders of the crates. Prints how far each crate is and what it took, and all that rt says of one that is not
proved. With --costs each library is proved from scratch and each crate has one job, and FOLDER/CRATE.costs has what rt says of
it with the seconds. scripts/costs.py reads both. The status is 0 exactly where the crate is built.
"""
import argparse
import functools
import os
import re
import shutil
import subprocess
import sys
import tempfile
import threading
import time
from concurrent.futures import FIRST_COMPLETED, ThreadPoolExecutor, wait
from pathlib import Path

ROOT = Path(__file__).resolve().parent.parent
PARTS = ["src", "specs", "proofs"]
CHECKED = re.compile(r"(?:so far:|checked \S+,) (\d+) of (\d+)")
PROVED = re.compile(r"logic=proved functions=(\d+)")
EVERY = 5  # seconds between two lines on one crate


def crates_below(program):
    """The lines of crates.txt of the program and those below it: by the name of a crate, the crates that it uses."""
    lines = [line.partition(":")[::2] for line in (ROOT / "crates.txt").read_text().splitlines() if ":" in line]
    listed = {name.split()[0]: words.split() for name, words in lines}
    found, left = {}, [program]
    while left:
        name = left.pop()
        if name in listed and name not in found:
            found[name] = listed[name]
            left += listed[name]
    return found


class Proof:
    """The proof of a program, and how far it is."""

    def __init__(self, program, costs=None):
        self.program = program
        self.costs = costs
        self.words = crates_below(program)
        self.proved = 0
        self.used = dict.fromkeys(self.words, 0.0)  # processor seconds
        self.start = time.monotonic()
        self.telling = threading.Lock()

    def tell(self, text, proved=0):
        seconds = int(time.monotonic() - self.start)
        with self.telling:
            self.proved += proved
            far = f"{self.proved} of {len(self.words)} crates proved"
            print(f"{seconds // 60:3}:{seconds % 60:02}  {far}; {text}", flush=True)

    @functools.lru_cache(maxsize=None)
    def below(self, crate):
        """The crates that a crate stands on, those of others too."""
        own = [name for name in self.words[crate] if name in self.words]
        return set(own).union(*(self.below(name) for name in own))

    def copy(self, crate, to):
        """Copies the crate, with what checks kept of it, and those below it, whose libraries are built."""
        names = [crate, *self.below(crate)]
        lines = [f"{name}: {' '.join(self.words[name])}\n" for name in names]
        (to / "crates.txt").write_text("".join(lines))
        shutil.copy(ROOT / "HANDLES", to)
        for name in names:
            for part in PARTS:
                if (ROOT / "crates" / name / part).is_dir():
                    shutil.copytree(ROOT / "crates" / name / part, to / "crates" / name / part)
            if name != crate:
                made = f"crates/{name}/out/rlib"
                shutil.copytree(ROOT / made, to / made, copy_function=link)
        kept = f"crates/{crate}/out/incremental"
        if not self.costs and (ROOT / kept).is_dir():
            shutil.copytree(ROOT / kept, to / kept, copy_function=link_or_copy)

    def run(self, crate, folder, *words):
        """Runs rt in a crate's folder, tells how far it is, and gives what it says, or None where it fails."""
        said, told = [], time.monotonic()
        begun, stamped = told, []
        given = folder / "stdin" if words[0] == "run" and (folder / "stdin").exists() else os.devnull
        how = {"stdout": subprocess.PIPE, "stderr": subprocess.STDOUT, "text": True, "errors": "replace"}
        with open(given) as stdin, subprocess.Popen(["rt", *words], cwd=folder, stdin=stdin, **how) as rt:
            for line in rt.stdout:
                said.append(line)
                far = CHECKED.match(line)
                if far and time.monotonic() - told > EVERY:
                    told = time.monotonic()
                    self.tell(f"{crate}: {far[1]} of {far[2]} functions")
                stamped.append(f"{time.monotonic() - begun:.3f} {line}")
            self.used[crate] += waited(rt)
        if self.costs and words[0] == "check":
            (self.costs / f"{crate}.costs").write_text("".join(stamped))
        if rt.returncode:
            print("".join(said), end="", flush=True)
            self.tell(f"{crate} is NOT PROVED")
            return None
        return "".join(said)

    def library(self, crate, is_longest):
        """Proves and builds a library, and gives whether it could."""
        jobs = [] if is_longest and not self.costs else ["--jobs", "1"]
        self.tell(f"{crate} begins")
        with tempfile.TemporaryDirectory(prefix="prove-") as room:
            self.copy(crate, Path(room))
            folder = Path(room) / "crates" / crate
            said = self.run(crate, folder, "check", *jobs)
            if said is None or self.run(crate, folder, "lib", *jobs) is None:
                return False
            out = ROOT / "crates" / crate / "out"
            out.mkdir(exist_ok=True)
            for made in (folder / "out").iterdir():
                shutil.rmtree(out / made.name, ignore_errors=True)
                shutil.move(made, out / made.name)
        self.tell(self.proof(crate, said), proved=1)
        return True

    def proof(self, crate, said):
        """What is told of a crate that is proved."""
        return f"{crate} is proved, {functions(said)} functions, {self.used[crate]:.0f} processor seconds"

    @functools.lru_cache(maxsize=None)
    def way(self, crate):
        """How many lines of proof lie between the crate's beginning and the program's."""
        above = [name for name in self.words if crate in self.words[name]]
        return lines_of(crate) + max(map(self.way, above), default=0)

    def libraries(self):
        """Proves the libraries, each as soon as those below it are built, and gives whether all are."""
        ways = {crate: self.way(crate) for crate in self.words}
        left = sorted(set(self.words) - {self.program}, key=ways.get, reverse=True)
        running, built = {}, set()
        with ThreadPoolExecutor(lanes()) as pool:
            while left or running:
                ready = [crate for crate in left if self.below(crate) <= built]
                for crate in ready[: lanes() - len(running)]:
                    # the longest way gets as many jobs as rt gives it, each other crate one
                    is_longest = ways[crate] == max(ways[name] for name in [*left, *running.values()])
                    left.remove(crate)
                    running[pool.submit(self.library, crate, is_longest)] = crate
                for done in wait(running, return_when=FIRST_COMPLETED).done:
                    built.add(running.pop(done))
                    if not done.result():
                        left.clear()
        return self.proved == len(self.words) - 1

    def build(self):
        """Proves the program, builds it and runs it as its crate says, and gives whether all passed; a library is built."""
        folder = ROOT / "crates" / self.program
        args = folder / "args"
        given = ["--", *args.read_text().splitlines()] if args.exists() else []
        words = ["run", *given] if (folder / "src/main.rt").exists() else ["lib"]
        self.tell(f"{self.program} begins")
        said = self.run(self.program, folder, "check", *(["--jobs", "1"] if self.costs else []))
        if said is None or self.run(self.program, folder, *words) is None:
            return False
        self.tell(f"{self.proof(self.program, said)}, and built", proved=1)
        return True


def lanes():
    """How many crates are proved side by side; one of them has more than one job."""
    return max(2, len(os.sched_getaffinity(0)) - 1)


def waited(process):
    """Waits for a process, and gives the processor seconds that it took, with all that it waited for."""
    _, status, used = os.wait4(process.pid, 0)
    process.returncode = os.waitstatus_to_exitcode(status)
    return used.ru_utime + used.ru_stime


def functions(said):
    """How many functions a check proved."""
    return PROVED.findall(said)[-1]


def lines_of(crate):
    """The lines of a crate's sources and proofs."""
    files = [file for part in PARTS for file in (ROOT / "crates" / crate / part).rglob("*") if file.is_file()]
    return sum(file.read_bytes().count(b"\n") for file in files)


def link(one, other):
    """Gives a file of a library, into which rt never writes, a second name."""
    try:
        os.link(one, other)
    except OSError:
        shutil.copyfile(one, other)


def link_or_copy(one, other):
    """Gives a file that a check replaces and never writes into a second name, and copies any other."""
    (link if one.endswith(".oantt") else shutil.copy2)(one, other)


def main():
    words = argparse.ArgumentParser(description=__doc__, formatter_class=argparse.RawDescriptionHelpFormatter)
    words.add_argument("--costs", type=Path, metavar="FOLDER")
    words.add_argument("program")
    words = words.parse_args()
    if words.costs:
        words.costs.mkdir(parents=True, exist_ok=True)
    proof = Proof(words.program, words.costs)
    sys.exit(0 if proof.libraries() and proof.build() else 1)


if __name__ == "__main__":
    main()

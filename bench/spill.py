#!/usr/bin/env python3
"""Measures `archive --spill` beside GNU sort over the same lines, in one run.

usage: bench/spill.py [--megabytes N] [--memory MIB] [--folder DIR] [--parts N] [--program FILE] [--spill WORDS]

So many megabytes of canonical records (default 2,000), a tenth of them twice, in random order, are written as lines into
DIR (default build/bench/spill), which needs room for twice as many and a part; `make` comes before, and gcc makes the
generator. The file is read by

    syslogbox archive --framing lf --spill DIR --memory MIB < FILE
    LC_ALL=C sort -u --parallel=1 -S MIBM -T DIR FILE

and, cut into parts (default one for each 1,000 MB), by `archive` without a spill, whose archives `union` joins. Each
writes into a pipe to sha256sum. Prints seconds of CPU (user and system) and of time, and peak memory of each, and their
ratio to sort. The status is 0 where the archive by way of the spill has the octets of the union, and at most 1.3 times
the CPU of sort; 1 where not; 2 where something did not run.
"""
import argparse
import os
import subprocess
import sys
import time
from pathlib import Path

TOP = Path(__file__).resolve().parent.parent
TARGET = 1.3


class Broken(Exception):
    """Something did not run."""


class Run:
    """A program that ran: its seconds of CPU and of time, its peak memory in MiB, and the SHA-256 of its output."""

    def __init__(self, name, words, source, environment=None):
        begun = time.monotonic()
        with subprocess.Popen(["sha256sum"], stdin=subprocess.PIPE, stdout=subprocess.PIPE) as digest:
            with open(source, "rb") as stdin:
                process = subprocess.Popen(words, stdin=stdin, stdout=digest.stdin, env=environment)
            digest.stdin.close()
            _, status, usage = os.wait4(process.pid, 0)
            self.digest = digest.stdout.read()
        if status != 0:
            raise Broken(f"{name}: status {os.waitstatus_to_exitcode(status)}")
        self.name = name
        self.cpu = usage.ru_utime + usage.ru_stime
        self.seconds = time.monotonic() - begun
        self.memory = usage.ru_maxrss / 1024

    def line(self, sort):
        return (f"{self.name:24} {self.cpu:9.1f} s CPU {self.seconds:9.1f} s {self.memory:8.0f} MiB "
                f"{self.cpu / sort.cpu:6.2f}")


def archives_of(file, parts, archive):
    """The paths of the archives of a file of lines, cut into so many parts; one part is on the disk at a time."""
    size = file.stat().st_size
    part = file.with_suffix(".part")
    paths = []
    with open(file, "rb") as lines:
        for number in range(1, parts + 1):
            with open(part, "wb") as out:
                while lines.tell() < size * number // parts:
                    out.write(lines.read(min(1 << 24, size * number // parts - lines.tell())))
                out.write(lines.readline())
            paths.append(file.with_suffix(f".{number}.archive"))
            with open(part, "rb") as stdin, open(paths[-1], "wb") as stdout:
                if subprocess.run(archive, stdin=stdin, stdout=stdout).returncode != 0:
                    raise Broken(f"archive of part {number}")
    part.unlink()
    return paths


def measure(options, folder):
    """Makes the lines, runs the three, and gives whether the octets are the same, and the ratio to sort."""
    generator, lines = folder / "spill_lines", folder / "lines"
    subprocess.run(["gcc", "-O2", "-o", generator, TOP / "bench/spill_lines.c"], check=True)
    with open(lines, "wb") as out:
        subprocess.run([generator, str(options.megabytes * 10 ** 6), "1"], stdout=out, check=True)
    archive = [options.program, "archive", "--framing", "lf"]
    spill = [*archive, *(options.spill or f"--spill {folder} --memory {options.memory}").split()]
    spilled = Run("archive --spill", spill, lines)
    sort = Run("sort -u", ["sort", "-u", "--parallel=1", "-S", f"{options.memory}M", "-T", folder, lines], os.devnull,
               {**os.environ, "LC_ALL": "C"})
    print(sort.line(sort), spilled.line(sort), sep="\n", flush=True)
    archives = archives_of(lines, options.parts or options.megabytes // 1_000 + 1, archive)
    union = Run("union", [options.program, "union", *archives], os.devnull)
    print(union.line(sort))
    for path in [lines, generator, *archives]:
        path.unlink()
    return spilled.digest == union.digest, spilled.cpu / sort.cpu


def main():
    parser = argparse.ArgumentParser(description=__doc__, formatter_class=argparse.RawDescriptionHelpFormatter)
    parser.add_argument("--megabytes", type=int, default=2_000)
    parser.add_argument("--memory", type=int, default=256)
    parser.add_argument("--folder", type=Path, default=TOP / "build/bench/spill")
    parser.add_argument("--parts", type=int)
    parser.add_argument("--program", type=Path, default=TOP / "build/syslogbox")
    parser.add_argument("--spill", help="the words behind archive, where they are others")
    options = parser.parse_args()
    options.folder.mkdir(parents=True, exist_ok=True)
    try:
        same, ratio = measure(options, options.folder)
    except (Broken, OSError, subprocess.CalledProcessError) as error:
        print(error, file=sys.stderr)
        return 2
    print(f"{'the same octets' if same else 'other octets'}, {ratio:.2f} times sort (at most {TARGET})")
    return 0 if same and ratio <= TARGET else 1


if __name__ == "__main__":
    sys.exit(main())

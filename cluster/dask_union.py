#!/usr/bin/env python3
"""The archive of the records of many archives, by the workers of Dask.

LIST, the archives, this folder and OUT are in a file system that all workers share, under the same names. What is done
is in OUT.work, and a run that was stopped goes on from there when it is run again; remove the folder when OUT is there.
A task whose worker is lost runs again on another, one that fails is tried three times more.
"""
import argparse
import subprocess
import sys
from pathlib import Path

try:
    from dask.distributed import Client, as_completed
except ImportError:
    sys.exit(f"dask_union.py: {sys.executable} has no Dask; Debian's packages are python3-distributed and python3-dask")

HERE = Path(__file__).resolve().parent


def run(script: str, *words: str) -> str:
    """Runs a script of this folder, and gives what it tells."""
    done = subprocess.run([str(HERE / script), *words], stderr=subprocess.PIPE, text=True)
    if done.returncode != 0:
        raise RuntimeError(f"{script}: status {done.returncode}: {done.stderr.strip()}")
    return done.stderr.strip()


def main() -> None:
    """Makes the plan here, the ranges on the workers, and concatenates them here."""
    words = argparse.ArgumentParser(description=__doc__, formatter_class=argparse.RawDescriptionHelpFormatter)
    words.add_argument("list", metavar="LIST", help="a file with the name of an archive in each line")
    words.add_argument("out", metavar="OUT", type=Path)
    words.add_argument("ranges", metavar="RANGES", type=int, help="best some four for each thread of a worker")
    words.add_argument("scheduler", metavar="SCHEDULER", help="its address, as tcp://192.0.2.1:8786")
    given = words.parse_args()
    out = given.out.resolve()
    work = f"{out}.work"
    with Client(given.scheduler) as client:
        run("plan.py", given.list, work, str(given.ranges))
        tasks = [client.submit(run, "range.sh", work, str(number), pure=False, retries=3)
                 for number in range(given.ranges + 1)]
        for task in as_completed(tasks):
            print(task.result(), file=sys.stderr)
    print(run("concat.sh", work, str(out)), file=sys.stderr)


if __name__ == "__main__":
    main()

#!/usr/bin/env python3
"""How even ranges of instants are, and what that costs: a simulation of days whose records are not spread evenly.

usage: bench/skew.py [--records N] [--workers N]

Each day is cut three ways: into ranges of the same length, into ranges of whole hours with about as many records, and
as cluster/plan.py cuts, by the times of 256 samples a range. For as many ranges as workers and for four times as many,
it prints the greatest range as a multiple of the mean, and the time until all ranges are done as a multiple of the time
that would be taken if all workers ended together. A worker takes the next range when it is free; a range takes as long
as it has records. Nothing here is measured.
"""
import argparse
import sys
from bisect import bisect_left
from collections.abc import Callable
from heapq import heapify, heapreplace
from pathlib import Path
from random import Random

sys.dont_write_bytecode = True
sys.path.append(str(Path(__file__).resolve().parent.parent / "cluster"))
from cuts import SAMPLES, bounds

SECOND = 1_000_000
HOUR, DAY = 3_600 * SECOND, 86_400 * SECOND
BY_DAY = [*range(24), *range(7, 20), *range(9, 17)]  # how often each hour is drawn


def even(random: Random) -> int:
    """An instant of a day on which every instant is as likely, in microseconds."""
    return random.randrange(DAY)


def daily(random: Random) -> int:
    """More by day than by night."""
    hour: int = random.choice(BY_DAY)
    return hour * HOUR + random.randrange(HOUR)


def often(part: float, length: int) -> Callable[[Random], int]:
    """The same, but that a part of all records is of `length` microseconds from ten o'clock on."""
    return lambda random: 10 * HOUR + random.randrange(length) if random.random() < part else daily(random)


DAYS = {"even": even, "more by day than by night": daily, "two of five in five minutes": often(0.4, 300 * SECOND),
        "half in one second": often(0.5, SECOND), "one of ten of one instant": often(0.1, 1)}


def by_length(times: list[int], ranges: int, random: Random) -> list[int]:
    """Ranges of the same length."""
    return [DAY * n // ranges for n in range(1, ranges)]


def by_hours(times: list[int], ranges: int, random: Random) -> list[int]:
    """Ranges of whole hours, as many records in each as hours allow."""
    return [times[len(times) * n // ranges] // HOUR * HOUR for n in range(1, ranges)]


def by_samples(times: list[int], ranges: int, random: Random) -> list[int]:
    """As cluster/plan.py cuts."""
    samples = sorted(random.choices(times, k=SAMPLES * ranges))
    return [int(bound) for bound in bounds([(b"%011d" % time, 1.0) for time in samples], ranges)[1:]]


def judged(times: list[int], begins: list[int], workers: int) -> tuple[float, float]:
    """The greatest range over the mean, and the time over that of workers that end together."""
    places = [0, *(bisect_left(times, begin) for begin in begins), len(times)]
    sizes = [end - begin for begin, end in zip(places, places[1:])]
    busy = [0] * workers
    heapify(busy)
    for size in sizes:
        heapreplace(busy, busy[0] + size)
    return max(sizes) * len(sizes) / len(times), max(busy) * workers / len(times)


def main() -> None:
    """Prints the table."""
    words = argparse.ArgumentParser(description=__doc__, formatter_class=argparse.RawDescriptionHelpFormatter)
    words.add_argument("--records", type=int, default=1_000_000)
    words.add_argument("--workers", type=int, default=100)
    given = words.parse_args()
    ways = {"same length": by_length, "whole hours": by_hours, "samples": by_samples}
    print("| Day | ranges |" + "".join(f" {way} |" for way in ways) + "\n|---|---:|" + "---:|" * len(ways))
    for day, draw in DAYS.items():
        random = Random(5424)
        times = sorted(draw(random) for _ in range(given.records))
        for ranges in (given.workers, 4 * given.workers):
            seen = [judged(times, way(times, ranges, random), given.workers) for way in ways.values()]
            print(f"| {day} | {ranges} |" + "".join(f" {greatest:.1f}, {time:.1f} |" for greatest, time in seen))


if __name__ == "__main__":
    main()

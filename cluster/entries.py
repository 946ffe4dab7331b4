"""Finds entries in an archive without reading all of it.

An entry is known by its length, its front, and FOLLOWING more behind it. A message can imitate that, so what is found
is only a guess, which range.sh has checked. Where it is wrong, `walk` passes over the archive from its first entry on:
that cannot be misled, and takes about a microsecond a record and eight octets of memory.
"""
import os
import re
from array import array
from bisect import bisect_left
from collections.abc import Iterator
from mmap import ACCESS_READ, mmap

FRONT = re.compile(rb" <[0-9]{1,3}>1 (-|[0-9]{4}-[0-9]{2}-[0-9]{2}T[0-9:]{8}\.[0-9]{6}Z) ")
LENGTH = re.compile(rb"[1-9][0-9]{0,5}(?= )")
FOLLOWING = 4
LAST = b"~"  # above all times


class Archive:
    """An archive in a file."""

    def __init__(self, path: str, walk: bool = False) -> None:
        self.size = os.path.getsize(path)
        with open(path, "rb") as file:
            self.octets: mmap | bytes = mmap(file.fileno(), 0, access=ACCESS_READ) if self.size else b""
        self.walked = array("Q", self.starts()) if walk else None

    def starts(self) -> Iterator[int]:
        """Where each entry begins, by the lengths from the first entry on, as far as there are any."""
        at = 0
        while length := LENGTH.match(self.octets, at):
            yield at
            at = length.end() + 1 + int(length[0])

    def is_entry(self, at: int) -> bool:
        """Whether an entry begins here, by its form and that of those behind it."""
        for _ in range(FOLLOWING):
            length = LENGTH.match(self.octets, at)
            if not length or not FRONT.match(self.octets, length.end()):
                return False
            at = length.end() + 1 + int(length[0])
            if at >= self.size:
                return at == self.size
        return True

    def next_entry(self, at: int) -> int:
        """Where the first entry begins from here on; the size where there is none."""
        if self.walked is not None:
            place = bisect_left(self.walked, at)
            return self.walked[place] if place < len(self.walked) else self.size
        for front in FRONT.finditer(self.octets, at):
            # a digit before may be of a message, and a length with it may lead to an entry too: shortest first
            for start in reversed(range(max(at, front.start() - 6), front.start())):
                if self.is_entry(start):
                    return start
        return self.size

    def time(self, entry: int) -> bytes:
        """The time of the entry that begins here, `-` where it has none, LAST where there is no entry."""
        front = FRONT.search(self.octets, entry)
        return front[1] if front else LAST

    def place(self, bound: bytes, low: int) -> int:
        """Where the first entry from `low` on begins whose time is `bound` or later; the size where there is none."""
        high = self.size
        while low < high:
            middle = (low + high) // 2
            entry = self.next_entry(middle)
            low, high = (entry + 1, high) if self.time(entry) < bound else (low, middle)
        return self.next_entry(low)

"""The processes below this one, also those whose parent has ended, and the processor time of all."""
import ctypes
import os
from collections import namedtuple
from pathlib import Path

SUBREAPER = 36  # PR_SET_CHILD_SUBREAPER: a process below whose parent has ended becomes a child of this one
TICKS = os.sysconf("SC_CLK_TCK")

# seconds of its own, and of its children that it has waited for
Process = namedtuple("Process", "parent own waited words")


def adopt():
    ctypes.CDLL(None).prctl(SUBREAPER, 1)


def process(pid):
    """A process, or None where it has gone."""
    try:
        stat = Path(f"/proc/{pid}/stat").read_text().rpartition(")")[2].split()
        words = Path(f"/proc/{pid}/cmdline").read_bytes().decode().split("\0")[:-1]
    except (FileNotFoundError, ProcessLookupError):
        return None
    own, waited = (sum(map(int, stat[first:first + 2])) / TICKS for first in (11, 13))
    return Process(int(stat[1]), own, waited, words)


def below():
    """The processes below this one by their numbers."""
    seen = {int(path.name): process(path.name) for path in Path("/proc").iterdir() if path.name.isdecimal()}
    found, parents = {}, {os.getpid()}
    while parents:
        level = {pid: one for pid, one in seen.items() if one and one.parent in parents}
        found.update(level)
        parents = set(level)
    return found


def processor():
    """Seconds of processor time of all processes that were ever below this one."""
    return process(os.getpid()).waited + sum(one.own + one.waited for one in below().values())

"""Parts of the tests side by side, each in a process, a folder and ports of its own."""
import os
import subprocess
import sys
import tempfile
import time
from concurrent.futures import ThreadPoolExecutor, as_completed

from lib.loopback import PORTS


def counts_of(line):
    """What a last line tells, `N passed, M failed`; None where it is another."""
    words = line.replace(",", "").split()
    if len(words) != 4 or words[1::2] != ["passed", "failed"] or not (words[0] + words[2]).isdigit():
        return None
    return int(words[0]), int(words[2])


class Parts:
    """The parts of a run, each of which a new process tries, by the words of its command."""

    def __init__(self, words, results):
        self.words, self.results = words, results

    def run(self, name, place, places):
        """The seconds, the status and the output of a part that has this place of so many."""
        begun = time.monotonic()
        with tempfile.TemporaryDirectory() as folder:
            count = len(PORTS) // places
            environment = {**os.environ, "TMPDIR": folder, "TESTS_PORTS": f"{PORTS[place * count]} {count}"}
            done = subprocess.run([*self.words, name], stdout=subprocess.PIPE, stderr=subprocess.STDOUT, stdin=subprocess.DEVNULL,
                                  text=True, errors="replace", env=environment)
        return time.monotonic() - begun, done.returncode, done.stdout

    def tell(self, name, seconds, status, output):
        """What a part has printed, and a line on it."""
        *said, last = output.splitlines() or [""]
        found = counts_of(last)
        if found is None:
            said.append(last)
        passed, failed = found or (0, 0)
        if not failed and (status or found is None):
            said.append(f"FAILED {name}: it ended with status {status}")
            failed = 1
        self.results.passed += passed
        self.results.failed += failed
        for line in said:
            print(line)
        print(f"{name}: {passed} passed, {failed} failed, {seconds:.1f} s", flush=True)

    def side_by_side(self, names, lanes):
        """Tries parts, as many at a time as there are lanes, in the order of the names."""
        with ThreadPoolExecutor(lanes) as pool:
            running = {pool.submit(self.run, name, n, len(names)): name for n, name in enumerate(names)}
            for done in as_completed(running):
                self.tell(running[done], *done.result())


def cores():
    return len(os.sched_getaffinity(0))


def python(script):
    """The words of a command that runs a script by this Python, which writes nothing beside it."""
    return [sys.executable, "-B", script]

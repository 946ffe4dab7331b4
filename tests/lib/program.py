"""A program that is tried: its runs, the same with calls that fail, and how many calls a run makes."""
import os
import select
import struct
import subprocess
from collections import namedtuple
from pathlib import Path

HERE = Path(__file__).resolve().parent
ROOT = HERE.parent.parent

# how many calls of each kind a run made, in the order in which shim.c writes them, by the names that it knows
Counts = namedtuple("Counts", "malloc read write open bind accept receive")


def run(path, words, octets=b"", environment=None, **streams):
    """Status, output and notes of one run; `not ended` in place of a status where it is ended after some time."""
    if "stdin" not in streams:
        streams["input"] = octets
    streams = {"stdout": subprocess.PIPE, "stderr": subprocess.PIPE, "timeout": 60, **streams}
    try:
        done = subprocess.run([path, *words], env={**os.environ, **(environment or {})}, **streams)
    except subprocess.TimeoutExpired as late:
        return "not ended", late.stdout or b"", late.stderr or b""
    return done.returncode, done.stdout, done.stderr


class Folder:
    """Files of a test by their names, and the shim."""

    def __init__(self, path):
        self.path = Path(path)

    def file(self, name, octets):
        path = self.path / name
        path.write_bytes(octets)
        return str(path)

    def preloaded(self, name):
        """A library of this folder that is preloaded before the program."""
        path = self.path / f"{name}.so"
        if not path.exists():
            subprocess.run(["gcc", "-shared", "-fPIC", "-O1", "-o", str(path), str(HERE / f"{name}.c"), "-ldl"], check=True)
        return str(path)

    def shim(self):
        """The library that makes calls fail."""
        return self.preloaded("shim")


class Program:
    """A program, with files for its runs."""

    def __init__(self, path, folder=None):
        self.path = str(Path(path).resolve())
        self.folder = folder

    def run(self, words, octets=b"", environment=None, **streams):
        return run(self.path, words, octets, environment, **streams)

    def failing(self, **chosen):
        """The environment in which the chosen calls fail, as `malloc=3`; shim.c has their names."""
        return {"LD_PRELOAD": self.folder.shim(), **{f"SHIM_{name.upper()}": str(value) for name, value in chosen.items()}}

    def counting(self, **chosen):
        """The environment of a run whose calls are counted, and what reads the counts after it."""
        where = self.folder.path / "counts"
        return self.failing(counts=where, **chosen), lambda: Counts(*map(int, where.read_text().split()))

    def counts(self, words, octets=b"", **chosen):
        environment, made = self.counting(**chosen)
        self.run(words, octets, environment)
        return made()


class Resident(Program):
    """A program of which one process makes all runs (resident.c), each in some microseconds."""

    SECONDS = 60  # for one run
    WORDS = 600  # of one run

    def __init__(self, path, folder):
        super().__init__(path, folder)
        self.streams = [os.memfd_create(name) for name in ("input", "output", "notes")]
        self.process = None

    def start(self):
        (asks, self.asks), (self.answers, answers) = os.pipe(), os.pipe()
        environment = {**os.environ, "LD_PRELOAD": self.folder.preloaded("resident"), "RESIDENT": f"{asks} {answers}"}
        stdin, stdout, stderr = self.streams
        self.process = subprocess.Popen([self.path, *["-"] * self.WORDS], stdin=stdin, stdout=stdout, stderr=stderr,
                                        pass_fds=(asks, answers), env=environment)
        os.close(asks)
        os.close(answers)

    def end(self):
        """Ends the process, if there is one; gives its status."""
        if not self.process:
            return None
        os.close(self.asks)
        os.close(self.answers)
        process, self.process = self.process, None
        return process.wait()

    def status(self, words):
        """The status of a run; where the process ends in its place, that of the process."""
        text = b"".join(word.encode() + b"\0" for word in [self.path, *words])
        os.write(self.asks, struct.pack("N", len(text)) + text)
        if not select.select([self.answers], [], [], self.SECONDS)[0]:
            self.process.kill()
            self.end()
            return "not ended"
        answer = os.read(self.answers, 4)
        return struct.unpack("i", answer)[0] if answer else f"ended with {self.end()}"

    def run(self, words, octets=b""):
        """Status, output and notes of one run."""
        if not self.process:
            self.start()
        for stream in self.streams:
            os.ftruncate(stream, 0)
            os.lseek(stream, 0, os.SEEK_SET)
        os.pwrite(self.streams[0], octets, 0)
        status = self.status(words)
        return status, *(os.pread(stream, os.fstat(stream).st_size, 0) for stream in self.streams[1:])

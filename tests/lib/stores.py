"""A program that keeps a store (crates/store_trial), and records for it."""
import subprocess
from pathlib import Path
from random import Random

from lib.reference import counted, framed

DAYS = ["-", "2026-11-24T23:59:59.999999Z", "2026-11-25T00:00:00.000000Z", "2026-11-25T10:00:00.000000Z",
        "2026-11-26T08:30:00.250000Z", "1969-12-31T23:59:59.999999Z"]
AFTER = b"<13>1 - - store_trial - - - after the crash"
FORGED = framed("counted", b"<13>1 2026-11-25T00:00:00.000000Z - - - - - nobody sent this")


def record(number, random, most=60):
    """A canonical record that no other number has; octets of all kinds are in it, batches and entries too."""
    head = b"<%d>1 %b h a - - - %d" % (random.randrange(192), random.choice(DAYS).encode(), number)
    message = random.choice([b"", random.randbytes(random.randrange(most)), b"\x01\x05\x00\x00\x00" + b"x" * 9, FORGED,
                             b"\x00" * random.randrange(most), b"\n" + framed("counted", head)])
    return head + b" " + message if message else head


def records(seed, first, count, most=60):
    """So many records, some of which come twice."""
    random = Random(repr((seed, first)))
    found = [record(number, random, most) for number in range(first, first + count)]
    return [random.choice(found[:n + 1]) if random.random() < 0.05 else one for n, one in enumerate(found)]


def told_committed(output):
    """How many records were told as committed."""
    counts = [int(line.split()[1]) for line in output.split(b"\n")[:-1] if line.startswith(b"committed ")]
    return max(counts, default=0)


def blocks_of(output):
    """What `store_trial crashed` says of each folder: texts by their names."""
    found, block, at = [], {}, 0
    while at < len(output):
        end = output.index(b"\n", at)
        what, _, rest = output[at:end].partition(b" ")
        at = end + 1
        if what == b"done":
            found.append(block)
            block = {}
        elif what == b"fault":
            block["fault"] = rest
        else:
            block[what.decode()] = output[at:at + int(rest)]
            at += int(rest)
    return found


class Keeper:
    """The program, which keeps a store in a folder."""

    def __init__(self, program):
        self.program = program

    def keep(self, path, sent, batch, checkpoint, environment=None, **streams):
        """Status, output and notes of a run that is given these records."""
        return self.program.run(["keep", str(path), str(batch), str(checkpoint)], counted(sent), environment, **streams)

    def start(self, path, batch, checkpoint, environment=None):
        return subprocess.Popen([self.program.path, "keep", str(path), str(batch), str(checkpoint)], stdin=subprocess.PIPE,
                                stdout=subprocess.PIPE, stderr=subprocess.PIPE, env=environment)

    def read(self, path, *words):
        return self.program.run(["read", str(path), *words])

    def tracing(self, path, log, **chosen):
        """The environment of a run whose calls are written down (trace.c)."""
        return {"LD_PRELOAD": self.program.folder.preloaded("trace"), "TRACE_FOLDER": str(path), "TRACE_LOG": str(log),
                **{f"TRACE_{name.upper()}": str(value) for name, value in chosen.items()}}

    def crashed(self, folders, environment=None):
        """Status, notes, and what is said of each of these folders."""
        lines = "".join(f"{folder}\n" for folder in folders).encode()
        status, output, notes = self.program.run(["crashed"], lines, environment, timeout=600)
        return status, notes, blocks_of(output)


def put_folder(path, files):
    """A folder with these files, octets by names."""
    path = Path(path)
    path.mkdir()
    for name, octets in files.items():
        (path / name.decode()).write_bytes(octets)
    return path

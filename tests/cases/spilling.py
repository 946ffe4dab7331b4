"""`archive --spill`: sets larger than their room, on the system's files; and want of memory."""
import os
import random
import resource
import signal
import subprocess
import tempfile
import time
from pathlib import Path

MIB = 1 << 20
RECORDS = 40_000


def lines(count, seed=42):
    """Records of some 200 octets as lines, a tenth of them twice, in random order."""
    draw = random.Random(seed)
    texts = [b"<%d>1 2026-11-26T%02d:%02d:%02d.%06dZ host%d app %d - - %s" % (
        draw.randrange(192), draw.randrange(24), draw.randrange(60), draw.randrange(60), draw.randrange(10 ** 6),
        draw.randrange(99), number, b"x" * draw.randrange(240)) for number in range(count)]
    texts += draw.sample(texts, count // 10)
    draw.shuffle(texts)
    return b"\n".join(texts) + b"\n"


def words(folder, memory):
    return ["archive", "--framing", "lf", "--spill", str(folder), "--memory", str(memory)]


def rooms(program, results, folder, octets, archive):
    """In every room the octets are the same, and the folder is empty then."""
    for memory in 1, 2, 3, 5, 8, 13, 256:
        results.same(f"archive in {memory} MiB", program.run(words(folder, memory), octets), (0, archive, b""))
        results.check(f"nothing is left of {memory} MiB", not os.listdir(folder), str(os.listdir(folder)))


def limited(size):
    """In the new process: a file has at most so many octets, and a write beyond them is an error."""
    def limit():
        signal.signal(signal.SIGXFSZ, signal.SIG_IGN)
        resource.setrlimit(resource.RLIMIT_FSIZE, (size, size))
    return limit


def full_disks(program, results, folder, octets, archive):
    """A file that takes no more is a fault of the spill: a prefix of the archive, and a line."""
    for size in 0, 1, 4_095, MIB // 2, MIB - 1, 2 * MIB:
        status, output, notes = program.run(words(folder, 1), octets, preexec_fn=limited(size))
        right = (status, notes) == (2, b"spill fault\n") and archive.startswith(output)
        results.check(f"a file of {size} octets at most", right, f"{status} {len(output)} {notes}")
        results.check(f"nothing is left of a file of {size} octets", not os.listdir(folder), str(os.listdir(folder)))


def folders(program, results, folder):
    """A folder that cannot be used."""
    file = folder.parent / "file"
    file.write_bytes(b"")
    for path in folder / "none", file, "":
        seen = program.run(words(path, 1), b"<13>1 - h a - - - x\n")
        results.check(f"a spill into {path!r}", (seen[0], seen[2]) == (2, b"spill fault\n"), str(seen))


def short_of_memory(program, results, folder):
    """Each allocation fails in turn: want of memory is told as that, whatever it was wanted for, and never as a fault of a
    file. A prefix of the archive is written then, and nothing is left."""
    octets, told = lines(3_000) * 3, 0
    octets += lines(4_000, 43)
    ample = program.run(words(folder, 1), octets)
    made = program.counts(words(folder, 1), octets).malloc
    for n in range(1, made + 2):
        seen = program.run(words(folder, 1), octets, program.failing(malloc=n))
        wanting = (seen[0], seen[2]) == (3, b"want of memory\n") and ample[1].startswith(seen[1])
        results.check(f"archive --spill, allocation {n} of {made}", wanting or seen == ample, f"{seen[0]} {len(seen[1])} {seen[2]}")
        results.check(f"nothing is left, allocation {n} of {made}", not os.listdir(folder), str(os.listdir(folder)))
        told += wanting
    results.check("archive --spill, want of memory is told", 0 < told <= made, str(told))


def spilled(process):
    """How many files without a name a process has open in its folder."""
    links = (os.readlink(link) for link in Path(f"/proc/{process.pid}/fd").iterdir())
    return sum(link.endswith("(deleted)") for link in links)


def kill(program, results, folder, octets):
    """A run that is killed once it has spilled leaves nothing."""
    with subprocess.Popen([program.path, *words(folder, 1)], stdin=subprocess.PIPE, stdout=subprocess.DEVNULL) as process:
        process.stdin.write(octets)
        process.stdin.flush()
        until = time.monotonic() + 60
        while not spilled(process) and time.monotonic() < until:
            time.sleep(0.01)
        results.check("a run spills", spilled(process) > 0)
        results.check("its files have no name", not os.listdir(folder), str(os.listdir(folder)))
        process.kill()
        process.stdin.close()
        process.wait()
    results.check("nothing is left of a run that was killed", not os.listdir(folder), str(os.listdir(folder)))


def spilling(program, results):
    octets = lines(RECORDS)
    archive = program.run(["archive", "--framing", "lf"], octets)[1]
    with tempfile.TemporaryDirectory() as room:
        folder = Path(room) / "spill"
        folder.mkdir()
        rooms(program, results, folder, octets, archive)
        full_disks(program, results, folder, octets, archive)
        folders(program, results, folder)
        short_of_memory(program, results, folder)
        kill(program, results, folder, octets)

"""The commands on archives: tables, files that cannot be read, calls that fail, and archives of random streams beside the
second reader."""
import os
import shutil
import subprocess
from random import Random

from cases.commands import row
from cases.mutated import mutations
from cases.rows import A, ARCHIVED, EXAMPLE, MERGED, MIGRATED, NIL, Y, Z, entries
from lib import reference
from lib.faults import each_allocation, each_call
from lib.program import run

STREAM = EXAMPLE + b"\nx\n" + A + b"\n" + Y + b"\n" + A + b"\n"
OTHERS = b"".join(NIL + b"[b][a n=\"%d\"]\n" % n for n in range(40))


def tables(program, results, folder):
    for case in ARCHIVED:
        row(program, results, *case)
    for name, left, right, *expected in MERGED:
        row(program, results, name, ["merge", folder.file("left", left), folder.file("right", right)], b"x", *expected)
    for name, old, *expected in MIGRATED:
        row(program, results, name, ["migrate", folder.file("old", old)], b"x", *expected)


def files(program, results, folder):
    """Names without a file, folders, and files that may not be read."""
    good, bad, none = folder.file("good", entries(A)), folder.file("bad", b"x"), str(folder.path / "missing")
    for words, status, notes in [
        (["merge", none, bad], 2, b"left no file\n"),
        (["merge", bad, none], 2, b"right no file\n"),
        (["merge", none, none], 2, b"left no file\n"),
        (["merge", good + "/x", good], 2, b"left no file\n"),
        (["merge", "-", good], 2, b"left no file\n"),
        (["merge", "", good], 2, b"left no file\n"),
        (["migrate", none], 2, b"old no file\n"),
        (["merge", str(folder.path), good], 2, b"left read fault\n"),
        (["merge", good, str(folder.path)], 2, b"right read fault\n"),
        (["migrate", str(folder.path)], 2, b"old read fault\n"),
    ]:
        results.same(f"files: {notes}", program.run(words), (status, b"", notes))
    for words in [["merge", b"\xff", good], ["merge", good, b"\xff"], ["migrate", b"\xff"]]:
        seen = program.run(words)
        results.check("a name that is no UTF-8 is a usage fault", seen[:2] == (2, b"") and seen[2] != b"", str(seen))
    results.check("a file of the name -", program.run(["merge", "-", good], cwd=dashed(folder))[:2] == (0, entries(A)))
    closed = folder.file("closed", entries(A))
    os.chmod(closed, 0)
    if os.geteuid() != 0:
        seen = program.run(["merge", closed, good])
        results.same("a file that may not be read", seen, (2, b"", b"left no file\n"))
    elif shutil.which("setpriv"):
        os.chmod(folder.path, 0o755)
        copy = shutil.copy(program.path, folder.path / "program")
        seen = run("setpriv", ["--reuid=65534", "--clear-groups", copy, "merge", closed, good])
        results.same("a file that may not be read", seen, (2, b"", b"left no file\n"))
    with open("/dev/full", "wb") as full:
        for words in ["archive"], ["merge", good, good], ["migrate", good]:
            seen = program.run(words, EXAMPLE, stdout=full)
            results.check(f"{words[0]} to a full device", (seen[0], seen[2]) == (2, b"write fault\n"), str(seen))
        seen = program.run(["merge", bad, good], stderr=full)
        results.check("a line that cannot be written", seen[:2] == (2, b""), str(seen))
    with open("/dev/zero", "rb") as zeros:
        seen = program.run(["archive", "--framing", "lf"], stdin=zeros)
        results.same("an input that does not end", seen, (2, b"", b"endless input\n"))


def dashed(folder):
    """A folder with a file whose name is a dash."""
    path = folder.path / "dashed"
    path.mkdir(exist_ok=True)
    (path / "-").write_bytes(entries(A))
    return path


def runs(program, folder):
    """Small runs of each command: a name, the words, the input, and the descriptors that are read."""
    left = folder.file("left", program.run(["archive", "--framing", "lf"], STREAM)[1])
    right = folder.file("right", program.run(["archive", "--framing", "lf"], OTHERS)[1])
    old = folder.file("old", entries(NIL + b"[b][c]", NIL + b"[c][a]"))
    bad = folder.file("bad", entries(Y, Z))
    return [
        ("archive", ["archive"], EXAMPLE, [0]),
        ("archive of a stream", ["archive", "--framing", "lf"], STREAM + OTHERS, [0]),
        ("merge", ["merge", left, right], b"", [3, 4]),
        ("merge of what is no archive", ["merge", bad, right], b"", [3, 4]),
        ("migrate", ["migrate", old], b"", [3]),
        ("migrate of what is no archive", ["migrate", bad], b"", [3]),
    ]


def calls(program, results, folder):
    """Each growth of memory is refused in turn, and each open, read and write fails, is short or is interrupted in turn."""
    for name, words, octets, inputs in runs(program, folder):
        each_allocation(program, results, name, words, octets)
        each_call(program, results, name, words, octets, inputs)


def routes(program, results, folder, frames):
    """The same records by other framings, in another order and repeated, are one archive; archives that are merged
    in any order are that of all records; both as the second reader has them."""
    random = Random(3164)
    known = [(one, read) for one in frames if not isinstance(read := reference.read(one), bytes)]
    lines = [(one, read) for one, read in known if b"\n" not in one]
    whole = reference.archive_text([reference.canonical(read) for _, read in lines])
    stream = b"".join(one + b"\n" for one, _ in lines)
    seen = program.run(["archive", "--framing", "lf"], stream)
    results.same("an archive of random lines", seen, (0, whole, b""))
    again = random.sample(lines, len(lines)) + random.choices(lines, k=500)
    seen = program.run(["archive", "--framing", "counted"], entries(*(one for one, _ in again)))
    results.same("by another route", seen, (0, whole, b""))
    parts = [known[n::5] for n in range(5)]
    archives = []
    for n, part in enumerate(parts):
        seen = program.run(["archive", "--framing", "counted"], entries(*(one for one, _ in part)))
        expected = reference.archive_text([reference.canonical(read) for _, read in part])
        results.same(f"a part of random records, {n}", seen, (0, expected, b""))
        archives.append(seen[1])
    all_of_them = reference.archive_text([reference.canonical(read) for _, read in known])
    for turn in range(3):
        random.shuffle(archives)
        left = archives[0]
        for right in archives[1:]:
            left = program.run(["merge", folder.file("l", left), folder.file("r", right)])[1]
        results.check(f"parts that are merged, {turn}", left == all_of_them, f"{len(left)} {len(all_of_them)}")
    back = program.run(["convert", "--framing", "counted", "--to", "counted"], all_of_them)
    results.same("an archive is a stream of canonical records", back, (0, all_of_them, b""))
    cuts = random.sample(range(len(all_of_them)), 60)
    right = 0
    for cut in cuts:
        seen = program.run(["merge", folder.file("l", all_of_them[:cut]), folder.file("r", b"")])
        front = seen[1]
        right += all_of_them.startswith(front) and seen in [
            (1, front, b"left bad-frame %d\n" % cut), (0, all_of_them[:cut], b"")]
    results.check("an archive that is cut is told where", right == len(cuts), f"{right} of {len(cuts)}")


PEAK = """import resource, subprocess, sys
subprocess.run([sys.argv[1], "archive", "--framing", "lf"], stdin=sys.stdin, stdout=subprocess.DEVNULL)
print(resource.getrusage(resource.RUSAGE_CHILDREN).ru_maxrss)"""


def set_alone(program, results, folder):
    """The memory is that of the set and some MiB, however often records are repeated."""
    def peak(times):
        with open(folder.file("stream", (EXAMPLE + b"\n" + A + b"\n") * times), "rb") as source:
            return int(subprocess.run(["python3", "-c", PEAK, program.path], stdin=source, capture_output=True, check=True).stdout)

    small, large = peak(10), peak(400_000)
    results.check("the memory of repeated records", large < small + 49_152, f"{small} and {large} KiB")


def archives(program, results):
    folder = program.folder
    tables(program, results, folder)
    files(program, results, folder)
    calls(program, results, folder)
    routes(program, results, folder, mutations(5_000))
    set_alone(program, results, folder)

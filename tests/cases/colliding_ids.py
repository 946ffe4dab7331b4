"""Ids that were chosen against the program: what an octet of them costs, the stack that they take, and what is told of them.

The ids of the first kind share a place in the table of hashes, 135 of them for the multiplier that it has and for each of two
others, which is more than it looks through. The others are hard to sort.
"""
import itertools
import os
import random
import resource
import subprocess

from lib.quiet import bound
from lib.reference import ENTRY_MAX, FRAME_MAX, counted

FRONT = b"<34>1 2003-10-11T22:14:15.003Z host app 1 id "
PLAIN = (b"<165>1 2024-02-29T23:30:00.%06d+01:00 host%d.example.com sshd %d ID47 - Accepted publickey for root from 192.0.2.1 port %d "
         b"ssh2: session opened, all is well on this side of the line")
OCTETS = bytes(octet for octet in range(33, 127) if octet not in b'="]')  # those of an id (RFC 5424, 6.3.2)
MULTIPLIERS = 0x9E3779B97F4A7C15, 0xBF58476D1CE4E5B9, 0x94D049BB133111EB
WORD = 2 ** 64
ROOM = 8192  # places of a table for 4,097 to 16,384 octets
WINDOW = 135  # ids that have one place
STREAM = 3_000_000  # octets of a run that is timed
RUNS = 12  # of a shape; four times as many where the least is still too much, as beside other work
MOST = bound(10, 16)  # times what an octet of a plain record costs
BOTH = 16  # the same where many ids follow those that a table cannot tell apart, and all are sorted
STACK = 1024 * 1024


def place(octets, multiplier):
    """Where a table of hashes has an id of fewer than eight octets."""
    product = int.from_bytes(b"\1" + octets, "big") * multiplier % WORD
    return (product + product // 2 ** 32) % WORD // 2 ** 47 % ROOM


def ids(length):
    """All ids of so many octets, in an order that has nothing to do with theirs."""
    every = [bytes(octets) for octets in itertools.product(OCTETS, repeat=length)]
    random.Random(20261128).shuffle(every)
    return every


def colliding():
    """405 ids: for each multiplier 135 that have one place."""
    found = []
    every = (b"i" + bytes(octets) for octets in itertools.product(OCTETS, repeat=4))
    for multiplier in MULTIPLIERS:
        found += itertools.islice((one for one in every if place(one, multiplier) == 5), WINDOW)
    return found


def data(names):
    return b"".join(b"[" + name + b"]" for name in names)


def repeated(names):
    """A record of these ids, the last of them repeated, and what is told of it."""
    text = FRONT + data(names)
    return text + b"[" + names[-1] + b"]", b"repeated-id %d" % (len(text) + 1)


def fitting(names, room):
    """As many of the ids as fit elements of so many octets in all."""
    size = 0
    for n, name in enumerate(names):
        size += len(name) + 2
        if size > room:
            return names[:n]
    return names


def most(room):
    """As many distinct ids as so many octets can hold: those of one octet, of two, and of three."""
    short = ids(1) + ids(2) + ids(3)
    names = fitting(short, room)
    random.Random(20261128).shuffle(names)
    return names


def shapes():
    """Ids that are hard for a table or a sort, by names; all fit a record, with one more element."""
    room = FRAME_MAX - len(FRONT) - 40
    scattered = ids(3)
    yield "405 that collide", colliding()
    yield "405 that collide, and others", colliding() + fitting(scattered, 2 * ROOM - 3_000)
    yield "as many as fit", most(room)
    yield "all of three octets", fitting(scattered, room)
    yield "all of three octets, descending", sorted(fitting(scattered, room), reverse=True)
    yield "one front for all", fitting([b"abcd" + name for name in scattered], room)
    yield "fronts in pairs", fitting([name + end for name in itertools.islice(map(b"d".__add__, scattered), 40_000) for end in (b"b", b"a")], room)
    yield "fronts in groups", fitting([b"%b-%b" % (name[:1], name) for name in scattered], room)
    yield "the longest, which differ at the end", fitting([b"a" * 29 + name for name in scattered], room)
    yield "the longest, which differ in all parts", fitting([name * 8 + name + b"---" + name[:2] for name in scattered], room)


class Clock:
    """Processor time an octet of `check`, the least of several runs."""

    def __init__(self, program):
        self.program = program

    def once(self, path):
        with open(path, "rb") as octets:
            child = subprocess.Popen([self.program.path, "check", "--framing", "lf"], stdin=octets, stdout=subprocess.DEVNULL,
                                     stderr=subprocess.DEVNULL)
            _, status, used = os.wait4(child.pid, 0)
            child.returncode = os.waitstatus_to_exitcode(status)
        return used.ru_utime + used.ru_stime

    def ratio(self, plain, name, record, limit):
        """The least cost of the record's octets beside the least of plain ones, in runs that take turns."""
        stream = (record + b"\n") * (STREAM // len(record) + 1)
        path = self.program.folder.file(name, stream)
        least, base = [], []
        for n in range(4 * RUNS):
            least.append(self.once(path) / len(stream))
            base.append(self.once(plain[0]) / plain[1])
            ratio = min(least) / min(base)
            if ratio <= MOST / 2 or n + 1 >= RUNS and ratio <= limit:
                break
        return ratio


def on_little_stack():
    resource.setrlimit(resource.RLIMIT_STACK, (STACK, resource.getrlimit(resource.RLIMIT_STACK)[1]))


def on_costs(program, results, hard):
    lines = b"".join(PLAIN % (n * 41 % 1_000_000, n % 97, n % 65_536, n * 7 % 65_536) + b"\n" for n in range(2_000))
    lines *= STREAM // len(lines) + 1
    plain = program.folder.file("plain", lines), len(lines)
    for name, names in hard:
        record, told = repeated(names)
        limit = BOTH if "others" in name else MOST
        ratio = Clock(program).ratio(plain, "stream", record, limit)
        results.check(f"an octet of ids, {name}", ratio <= limit, f"costs {ratio:.1f} times one of a plain record")


def on_answers(program, results, hard):
    for name, names in hard:
        record, told = repeated(names)
        right = 1, b"1 " + told + b"\n", b""
        results.same(f"ids, {name}: the last repeated", program.run(["check", "--framing", "lf"], record + b"\n"), right)
        middle = len(names) // 2
        text = FRONT + data(names[:middle])
        again = text + b"[" + names[0] + b"]" + data(names[middle:])
        right = 1, b"1 repeated-id %d\n" % (len(text) + 1), b""
        results.same(f"ids, {name}: the first repeated", program.run(["check", "--framing", "lf"], again + b"\n"), right)
        results.same(f"ids, {name}: none repeated", program.run(["check", "--framing", "lf"], FRONT + data(names) + b"\n"), (0, b"1 ok\n", b""))


def on_stack(program, results):
    """The record, and the entry of an archive, with the most elements take little stack."""
    words = ["check", "--framing", "lf"]
    names = most(FRAME_MAX - len(FRONT) - 40)
    record, told = repeated(names)
    results.same("a little stack: the most ids, one repeated", program.run(words, record + b"\n", preexec_fn=on_little_stack),
                 (1, b"1 " + told + b"\n", b""))
    whole = FRONT + data(names)
    results.same("a little stack: the most ids", program.run(words, whole + b"\n", preexec_fn=on_little_stack), (0, b"1 ok\n", b""))
    for command in "convert", "archive", "show":
        words = [command, "--framing", "lf"]
        seen = program.run(words, whole + b"\n", preexec_fn=on_little_stack)
        results.same(f"a little stack: {command} the most ids", seen, program.run(words, whole + b"\n"))
    names = most(ENTRY_MAX - len(FRONT) - 40)
    canonical = FRONT.replace(b".003Z", b".003000Z")
    old = program.folder.file("old", counted([canonical + data(names)]))
    seen = program.run(["migrate", old], preexec_fn=on_little_stack)
    results.check("a little stack: the entry with the most ids", seen[0] == 0 and seen == program.run(["migrate", old]), str(seen)[:300])
    bad = program.folder.file("bad", counted([repeated(names)[0]]))
    seen = program.run(["merge", bad, bad], preexec_fn=on_little_stack)
    results.check("a little stack: the entry with the most ids, one repeated", seen[0] == 1 and seen == program.run(["merge", bad, bad]), str(seen)[:300])


def colliding_ids(program, results):
    """What ids cost that were chosen against the program."""
    hard = list(shapes())
    on_answers(program, results, hard)
    on_stack(program, results)
    on_costs(program, results, hard)

"""Random and mutated records and streams, beside the second reader."""
from random import Random

from cases.rows import ELEMENTS, EXAMPLE, HELLO, LARGEST, MARK, NIL
from hostile.records import MARKS
from lib import reference

SEEDS = [
    EXAMPLE, HELLO, ELEMENTS, b"<13>1 - h a - - [a k=\"v\\\\]\"][b x=\"\xc3\xa9\"] hi",
    b"<34>1 1999-12-31T23:59:60Z host - - - - leap", b"<0>1 0000-01-01T00:00:00+00:01 - - - - [a][b][a]",
    b"<191>1 9999-12-31T23:59:59.9-00:00 h su 17 ID [c][b a=\"\"][a b=\"1\" b=\"2\"] " + MARK + "größe €𝄞".encode(),
    b"<165>1 2024-02-29T12:30:00.25+05:30 h.example.com app 1 ID1 [id@32473 k=\"\\\\n\" l=\"say \\\"x\\\"\"] text",
    b"<7>1 - - - - - - " + MARK + "été".encode(), b"<86>1 2023-11-30T00:00:00-08:00 - - - - - \x00\xff",
]


def mutations(count):
    """As many frames: random octets, seeds, and seeds with one or two changes."""
    random = Random(5424)
    draw = random.random
    frames = []
    for _ in range(count):
        kind = draw()
        if kind < 0.1:
            frames.append(random.randbytes(1 + int(draw() * 39)))
            continue
        octets = bytearray(SEEDS[int(draw() * len(SEEDS))])
        for _ in range(int(kind * 3)):
            at = int(draw() * len(octets))
            octet = MARKS[int(draw() * len(MARKS))] if draw() < 0.7 else int(draw() * 256)
            change = draw()
            if change < 0.5:
                octets[at] = octet
            elif change < 0.75:
                octets.insert(at, octet)
            elif change < 0.9:
                del octets[at]
            elif change < 0.95:
                del octets[max(1, at):]
            else:
                end = at + int(draw() * 12)
                octets[at:at] = octets[at:end]
            if not octets:
                octets.append(octet)
        frames.append(bytes(octets))
    return frames


def first_difference(seen, expected, frames):
    """The first line that is another than expected, with its frame."""
    for n, (one, other) in enumerate(zip(seen.splitlines(), expected.splitlines())):
        if one != other:
            return f"{one!r} for {other!r}, frame {frames[n]!r}"
    return f"{len(seen)} octets for {len(expected)}"


def records(program, results, count=1_000_000):
    """A million random and mutated records as one stream: each line, each offset and each canonical record is that
    of the second reader, and what was written is converted to itself."""
    frames = mutations(count)
    known = {frame: reference.read(frame) for frame in set(frames)}
    read = [known[frame] for frame in frames]
    stream = reference.counted(frames)
    status, output, notes = program.run(["check", "--framing", "counted"], stream)
    lines = b"".join(b"%d %b\n" % (n, one if isinstance(one, bytes) else b"ok") for n, one in enumerate(read, 1))
    results.check("the line of each mutated record", output == lines, first_difference(output, lines, frames))
    results.check("mutated records are refused and no more", (status, notes) == (1, b""), f"{status} {notes[:60]!r}")
    refusals = b"".join(b"%d %b\n" % (n, one) for n, one in enumerate(read, 1) if isinstance(one, bytes))
    canonical = reference.counted([reference.canonical(one) for one in read if not isinstance(one, bytes)])
    status, output, notes = program.run(["convert", "--framing", "counted"], stream)
    results.check("mutated records are converted", status == 1 and output == canonical, f"{status} {len(output)}")
    results.check("mutated records that are refused are reported", notes == refusals, notes[:60])
    seen = program.run(["convert", "--framing", "counted", "--to", "counted"], output)
    results.same("what was converted converts to itself", seen, (0, output, b""))
    status, lines, notes = program.run(["check", "--framing", "counted"], output)
    right = status == 0 and notes == b"" and lines.count(b" ok\n") == sum(not isinstance(one, bytes) for one in read)
    results.check("what was converted is accepted", right, f"{status} {notes[:60]!r}")
    few = read[:count // 10]
    fields = b"".join(reference.show(n, one) for n, one in enumerate(few, 1) if not isinstance(one, bytes))
    status, output, _ = program.run(["show", "--framing", "counted"], reference.counted(frames[:count // 10]))
    results.check("mutated records are shown", status == 1 and output == fields, f"{status} {len(output)}")


def streams(program, results, count=400):
    """Streams with changes anywhere, in their counts too."""
    random = Random(6587)
    long = [NIL + b"- " + b"a" * (reference.FRAME_MAX - 16), LARGEST, b"x" * 300_000]
    pool = mutations(5_000)
    good = {"check": 0, "convert": 0}
    for _ in range(count):
        framing = random.choice(["counted", "lf"])
        to = random.choice(["counted", "lf"])
        frames = random.choices(pool, k=random.randrange(8))
        if random.random() < 0.1:
            frames.insert(random.randrange(len(frames) + 1), random.choice(long))
        octets = bytearray(b"".join(reference.framed(framing, frame) for frame in frames))
        for _ in range(random.randrange(3)):
            at = random.randrange(len(octets) + 1)
            change = random.randrange(4)
            if change == 0:
                octets[at:at + 1] = bytes([random.choice(b"0123456789 \n<x")])
            elif change == 1:
                octets[at:at] = bytes([random.choice(b"0123456789 \n<x")])
            elif change == 2:
                del octets[at:at + 1]
            else:
                del octets[at:]
        answers = reference.Answers(bytes(octets), framing)
        good["check"] += program.run(["check", "--framing", framing], octets) == answers.check()
        good["convert"] += program.run(["convert", "--framing", framing, "--to", to], octets) == answers.convert(to)
    results.check("each changed stream is checked as by the second reader", good["check"] == count, str(good))
    results.check("each changed stream is converted as by the second reader", good["convert"] == count, str(good))


def mutated(program, results):
    records(program, results)
    streams(program, results)

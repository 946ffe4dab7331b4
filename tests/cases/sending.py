"""`send`: random texts and options are read back, and its calls fail in turn."""
from datetime import datetime, timedelta, timezone
from random import Random

from lib.faults import each_allocation
from lib.reference import FACILITIES, MARK, SEVERITIES, framed

WORDS = [("--host", 255), ("--app", 48), ("--proc", 128), ("--msgid", 32)]
CHARACTERS = "ab -[]\"\\\t\r\n=é€\U0001f600\ufeff"


def time_text(micros):
    return (datetime(1970, 1, 1, tzinfo=timezone.utc) + timedelta(microseconds=micros)).strftime("%Y-%m-%dT%H:%M:%S.%fZ")


def event(random):
    """The words of a call, and the record that it asks for, or None where the mask holds it back."""
    words, facility, severity, mask = ["send"], 1, 5, 7
    if random.random() < 0.5:
        facility = random.randrange(24)
        words += ["--facility", FACILITIES[facility]]
    if random.random() < 0.5:
        severity = random.randrange(8)
        words += ["--severity", SEVERITIES[severity]]
    if random.random() < 0.3:
        mask = random.randrange(8)
        words += ["--up-to", SEVERITIES[mask]]
    time = "-"
    if random.random() < 0.5:
        micros = random.randrange(4_102_444_800_000_000)
        words += ["--micros", str(micros)]
        time = time_text(micros)
    fields = []
    for option, most in WORDS:
        fields.append("-")
        if random.random() < 0.5:
            fields[-1] = "".join(chr(random.randint(33, 126)) for _ in range(random.randint(2, most)))
            words.append(f"{option}={fields[-1]}")
    text = "".join(random.choice(CHARACTERS) for _ in range(random.randrange(30)))
    words += ["--", text]
    message = text.encode() if text.isascii() else MARK + text.encode()
    record = f"<{(facility or 1) * 8 + severity}>1 {time} {' '.join(fields)} -".encode() + (b" " + message if message else b"")
    return words, record if severity <= mask else None


def read_back(program, results):
    random, streams = Random(5424), {"lf": [], "counted": []}
    for number in range(1_000):
        words, record = event(random)
        framing = random.choice(["lf", "counted"])
        words[1:1] = ["--framing", framing]
        right = 0, b"", b""
        if record and framing == "lf" and b"\n" in record:
            right = 1, b"", b"has-lf\n"
        elif record:
            right = 0, framed(framing, record), b""
            streams[framing].append(right[1])
        results.same(f"send: call {number}, {words}", program.run(words), right)
    for framing, frames in streams.items():
        lines = b"".join(b"%d ok\n" % n for n in range(1, len(frames) + 1))
        seen = program.run(["check", "--framing", framing], b"".join(frames))
        results.same(f"send: {len(frames)} {framing} frames are records", seen, (0, lines, b""))


def calls(program, results):
    """Each growth is refused in turn, and each write fails and comes short in turn."""
    words = ["send", "--host", "h", "--micros", "1", "--framing", "counted", "é" * 50]
    each_allocation(program, results, "send", words, refused=lambda seen, _: seen == (3, b"", b"want of memory\n"))
    whole = program.run(words)
    fault = b"write fault\n"
    for chosen, right in [({"write": 1}, (2, b"", fault)), ({"write_short": 1}, whole),
                          ({"write_short": 1, "write": 2}, (2, whole[1][:1], fault))]:
        results.same(f"send: {chosen}", program.run(words, b"", program.failing(fd=1, **chosen)), right)
    with open("/dev/full", "wb") as full:
        results.same("send: a full device", program.run(words, stdout=full), (2, None, fault))


def sending(program, results):
    read_back(program, results)
    calls(program, results)

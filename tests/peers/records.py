"""The records that senders are given."""
import re

from lib.reference import MARK


def record(message=b"message", time=b"2024-02-29T23:30:00.123456Z", host=b"host.example.com", app=b"app", proc=b"4711",
           msgid=b"ID47", data=b"-", priority=165):
    front = b"<%d>1 %b %b %b %b %b %b" % (priority, time, host, app, proc, msgid, data)
    return front if message is None else front + b" " + message


def filled(size):
    """A record of so many octets."""
    front = record(b"")
    return front + (b"0123456789 abcdefghijklmnopqrstuvwxyz " * (1 + size // 37))[:size - len(front) - 1] + b"."


PLAIN = [
    ("plain", record()),
    *[(f"priority {n}", record(priority=n)) for n in (0, 13, 191)],
    *[(f"fraction of {len(digits)}", record(time=b"2024-02-29T23:30:00%bZ" % (b"." + digits if digits else b"")))
      for digits in (b"", b"1", b"12", b"123", b"1234", b"12345", b"000000", b"500000")],
    *[(f"zone {zone.decode()}", record(time=b"2024-02-29T23:30:00.123456" + zone))
      for zone in (b"+00:00", b"-00:00", b"+01:00", b"-07:00", b"+05:30", b"+12:45", b"-03:30", b"+23:59")],
    *[(f"year {year.decode()}", record(time=year + b"-01-02T03:04:05.678901Z"))
      for year in (b"0001", b"1969", b"1999", b"2038", b"2107", b"9999")],
    ("no time", record(time=b"-")),
    ("no host", record(host=b"-")),
    ("no app", record(app=b"-")),
    ("no proc", record(proc=b"-")),
    ("no msgid", record(msgid=b"-")),
    ("no field", b"<0>1 - - - - - -"),
    ("host of IPv6", record(host=b"2001:db8::1")),
    ("long words", record(host=b"h" * 255, app=b"a" * 48, proc=b"p" * 128, msgid=b"m" * 32)),
    ("app with signs", record(app=b"a/b[1]:")),
    ("one element", record(data=b'[a@1 k="v"]')),
    ("element alone", record(None, data=b'[a@1 k="v"]')),
    ("no parameter", record(data=b"[a@1]")),
    ("elements that descend", record(data=b'[c@1 k="1"][b@1 k="2"][a@1 k="3"]')),
    ("repeated names", record(data=b'[a@1 k="1" b="2" k="3" k="4"]')),
    ("names that descend", record(data=b'[a@1 z="1" y="2" x="3"]')),
    ("empty value", record(data=b'[a@1 k=""]')),
    ("escapes", record(data=b'[a@1 q="\\"" b="\\\\" c="\\]"]')),
    ("other backslash", record(data=b'[a@1 k="C:\\new"]')),
    ("value in UTF-8", record(data='[a@1 k="größe 接続"]'.encode())),
    ("value with a tab", record(data=b'[a@1 k="x\ty"]')),
    ("ids of the registry", record(data=b'[timeQuality tzKnown="1" isSynced="1"][origin ip="192.0.2.1"][meta sequenceId="7"]')),
    ("names with dots", record(data=b'[a.b@1.2 k.l="1" .m="2"]')),
    ("longest names", record(data=b'[%b %b="v"]' % (b"i" * 32, b"n" * 32))),
    ("40 elements", record(data=b"".join(b'[e%02d@1 k="%d"]' % (n, n) for n in range(40)))),
    ("value of 4,000", record(data=b'[a@1 k="%b"]' % (b"v" * 4_000))),
    ("no message", record(None)),
    ("empty message", record(b"")),
    ("BOM", record(MARK + b"message")),
    ("BOM and UTF-8", record(MARK + "größe 接続 \U0001F600".encode())),
    ("BOM alone", record(MARK)),
    ("UTF-8 without BOM", record("größe 接続".encode())),
    ("octets beyond UTF-8", record(b"x\xff\xfe\x80y")),
    ("leading spaces", record(b"  message")),
    ("trailing spaces", record(b"message  ")),
    ("tab", record(b"a\tb")),
    ("control characters", record(b"a\x01\x07\x1b[1m\x7fb")),
    ("C1 control character", record("a\x85b".encode())),
    ("backslashes and percents", record(b"a\\nb #011 %msg% ${MSG} 100%")),
    ("message like an element", record(b'[a@1 k="v"] x')),
    ("message like a record", record(b"<13>1 - h a - - - x")),
    ("message like a count", record(b"19 <13>1 - h a - - - x")),
    *[(f"{size:,} octets", filled(size)) for size in (1_024, 2_048, 8_096, 8_192, 16_000, 60 * 1_024, 65_400)],
]
CR = ("CR at the end", record(b"message\r"))
SPECIAL = [
    CR,
    ("LF inside", record(b"a\nb")),
    ("LF at the end", record(b"message\n")),
    ("CR LF at the end", record(b"message\r\n")),
    ("LF alone", record(b"\n")),
    ("LF in a value", record(data=b'[a@1 k="x\ny"]')),
    ("NUL inside", record(b"a\x00b")),
    ("NUL at the end", record(b"message\x00")),
    ("NUL in a value", record(data=b'[a@1 k="x\x00y"]')),
]


def mark(n):
    """The record that follows case n."""
    return b"<14>1 2024-01-01T00:00:00.000001Z mark.example.com mark - MARK - mark %04d" % n


MARKED = re.compile(rb" mark (\d{4})\s*$")


def marked(cases):
    """The records of the cases, each followed by its mark."""
    return [octets for n, (_, one) in enumerate(cases) for octets in (one, mark(n))]


def sorted_out(cases, frames):
    """The frames that came for each case: those before its mark."""
    seen, gathered = [[] for _ in cases], []
    at = 0
    for frame in frames:
        found_mark = MARKED.search(frame or b"")
        if not found_mark:
            gathered.append(frame)
            continue
        at = int(found_mark.group(1))
        if at < len(seen):
            seen[at] += gathered
        gathered = []
    if gathered and seen:
        seen[min(at + 1, len(seen) - 1)] += gathered
    return seen

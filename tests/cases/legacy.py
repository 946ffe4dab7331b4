"""Legacy packets (RFC 3164) under a clock: the tables of packets of crates/legacy_tests, and random and changed packets beside
the second reader, in both dialects."""
import ast
import re
from random import Random

from cases.rows import entries
from lib import reference
from lib.program import ROOT

FORMS = ROOT / "crates/legacy_tests/src/forms.rt"
# a clock's year and offset in minutes, a packet, and its canonical octets
FORM = re.compile(r'\(\s*(\d+),\s*(-?\d+),\s*(b"(?:[^"\\]|\\.)*"),\s*(b"(?:[^"\\]|\\.)*"),?\s*\)')
WIDE = ROOT / "crates/legacy_tests/src/wide.rt"
# a packet, and its canonical octets in the dialects bsd and wide, under a clock of 2024 that is an hour ahead of UTC
ROW = re.compile(r'\(\s*(b"(?:[^"\\]|\\.)*"),\s*(b"(?:[^"\\]|\\.)*"),\s*(b"(?:[^"\\]|\\.)*"),?\s*\)')

SEEDS = [
    b"<34>Oct 11 22:14:15 mymachine su: 'su root' failed for lonvick on /dev/pts/8", b"Use the BFG!",
    b"<13>Feb  5 17:32:18 10.0.0.99 cron[42]: x", b"<189>Jan 10 00:00:01 sw1 %LINK-3-UPDOWN: Interface Gi0/1",
    b"<4>Jan 10 00:00:01 host1 kernel:[12.345] usb 1-1", b"<13>Feb 29 01:02:03 h t: m", b"<13>Dec 31 23:59:59 - -[-]: m",
    b"<13>Feb  5 17:32:18 h t: \xef\xbb\xbfgr\xc3\xbcn", b"\xef\xbb\xbfA\xff", b"<13>\xef\xbb\xbf\xe2\x82", b"<0>1 - - - - - -",
    b"<13>1", b"<13>1 x", b"<191>Jun 30 00:00:00 " + b"h" * 255 + b" " + b"a" * 48 + b"[" + b"1" * 128 + b"]: m",
    b"<22>Jan 10 00:00:01 mx postfix/smtpd[99]: connect from unknown", b"<13>Mar 01 00:00:00 h", b"<13>Apr 30 12:34:56 h ",
]
MARKS = b'<>[]:" -_./%=0123456789JanFebMarDec\xef\xbb\xbf\xc3\x80\xff\t\r\n\x00'
# what marks, separates and ends the parts of a packet, and parts themselves
PIECES = [b":", b"::", b" ", b"  ", b"*", b".", b",", b".1", b".123456", b".1234567", b"[", b"]", b"[1]", b"[12]:", b"[1] ", b"-",
          b"Z", b"+01:00", b"-23:59", b"+24:00", b"T", b"2024", b"2023 ", b"0000", b"9999", b"Feb 29 ", b"Dec 31 ", b" 1 ", b"00",
          b"23:59:59", b":60", b"<13>", b"<0>", b"\t", b"\n", b"\x00", b"\xff", b"\xef\xbb\xbf", b"\xc3", b"/", b"%", b"a", b"9"]
# hosts, names and process ids at their limits and past them
LONG = [b"<13>Jan 10 10:00:01 " + text for text in [
    b"a" * 48 + b"[" + b"1" * 128 + b"] m", b"a" * 49 + b"[1] m", b"a[" + b"1" * 129 + b"] m", b"a" * 48 + b": m",
    b"a" * 49 + b": m", b"a" * 254 + b": m", b"a" * 255 + b": m", b"h" * 255 + b" a[1] m", b"h" * 256 + b" a[1] m"]]
ZONES = [(None, 0), ("E0000", 0), ("W0500", -300), ("E0530", 330), ("E2359", 1_439), ("W2359", -1_439), ("W0001", -1)]


def zone(minutes):
    """The value of --zone for an offset ahead of UTC."""
    return f"{'W' if minutes < 0 else 'E'}{abs(minutes) // 60:02d}{abs(minutes) % 60:02d}"


def source(path):
    """A file of Rattle whose texts are each on one line."""
    return re.sub(r"\\\n *", "", path.read_text())


def forms():
    return [(int(year), int(minutes), ast.literal_eval(packet), ast.literal_eval(form))
            for year, minutes, packet, form in FORM.findall(source(FORMS))]


def table(program, results):
    """Each packet of the library's tests, through each command that reads frames."""
    known = forms()
    results.check("the library's packets are found", len(known) == 81, str(len(known)))
    for year, minutes, packet, form in known:
        clock = ["--legacy", str(year), "--zone", zone(minutes)]
        for words, right in [
            (["check", *clock], (0, b"1 ok\n", b"")),
            (["convert", *clock], (0, form, b"")),
            (["archive", *clock], (0, entries(form), b"")),
            (["show", *clock], (0, reference.show(1, reference.legacy(packet, year, minutes)), b"")),
        ]:
            results.same(f"{' '.join(words)}: {packet!r}", program.run(words, packet), right)
        # without a clock it is no record
        right = 1, b"1 %b\n" % reference.read(packet), b""
        results.same(f"without a clock: {packet!r}", program.run(["check"], packet), right)


def rows():
    return [tuple(ast.literal_eval(text) for text in row) for row in ROW.findall(source(WIDE))]


def wide_table(program, results):
    """Each packet of devices and programs in both dialects, through each command that reads frames."""
    known = rows()
    results.check("the packets of devices and programs are found", len(known) == 58, str(len(known)))
    for packet, *forms_of_packet in known:
        for dialect, form in zip(["bsd", "wide"], forms_of_packet):
            clock = ["--legacy", "2024", "--zone", "E0100", "--dialect", dialect]
            for words, right in [
                (["check", *clock], (0, b"1 ok\n", b"")),
                (["convert", *clock], (0, form, b"")),
                (["archive", *clock], (0, entries(form), b"")),
                (["show", *clock], (0, reference.show(1, reference.legacy(packet, 2024, 60, dialect)), b"")),
            ]:
                results.same(f"{' '.join(words)}: {packet!r}", program.run(words, packet), right)


def cut_up(random, octets, seeds):
    """A packet with one change: a piece in place of octets or among them, octets left out, or the end of another packet."""
    at, end = sorted(random.randrange(len(octets) + 1) for _ in range(2))
    piece = random.choice(PIECES) if random.random() < 0.9 else bytes([random.randrange(256)])
    kind = random.randrange(8)
    if kind < 2:
        return octets[:at] + piece + octets[at + len(piece):]
    if kind < 5:
        return octets[:at] + piece + octets[at:]
    if kind == 5:
        return octets[:at] + octets[at + 1:]
    if kind == 6:
        return octets[:at] + octets[min(end, at + 8):]
    other = random.choice(seeds)
    return octets[:at] + other[random.randrange(len(other) + 1):]


def wide_streams(program, results, count=200_000):
    """Streams of changed packets of devices and programs in the wide dialect, beside the second reader."""
    random = Random(5424)
    seeds = [packet for packet, _, _ in rows()] + LONG + SEEDS
    packets = []
    for _ in range(count):
        octets = random.choice(seeds)
        for _ in range(random.choice([0, 1, 1, 1, 2, 2, 3])):
            octets = cut_up(random, octets, seeds)
        packets.append(octets)
    for year, (name, minutes) in [(2024, ZONES[3]), (1, ZONES[4]), (9_998, ZONES[5])]:
        some = packets if year == 2024 else packets[:count // 10]
        clock = ["--legacy", str(year), "--zone", name, "--dialect", "wide"]
        for framing in ["counted", "lf"]:
            octets = b"".join(reference.framed(framing, one) for one in some
                              if (one if framing == "counted" else b"\n" not in one))
            answers = reference.Answers(octets, framing, lambda frame: reference.legacy(frame, year, minutes, "wide"))
            for words, right in [(["check"], answers.check()), (["convert"], answers.convert())]:
                words = [*words, "--framing", framing, *clock]
                results.same(f"changed packets: {' '.join(words)}", program.run(words, octets), right)


def changed(random, count):
    """Packets with up to three changes."""
    packets = []
    for _ in range(count):
        octets = random.choice(SEEDS)
        for _ in range(random.randrange(4)):
            at = random.randrange(len(octets) + 1)
            octet = bytes([random.choice(MARKS) if random.random() < 0.8 else random.randrange(256)])
            kind = random.randrange(5)
            if kind < 2:
                octets = octets[:at] + octet + octets[at + 1:]
            elif kind == 2:
                octets = octets[:at] + octet + octets[at:]
            elif kind == 3:
                octets = octets[:at] + octets[at + 1:]
            else:
                other = random.choice(SEEDS)
                octets = octets[:at] + other[random.randrange(len(other)):]
        packets.append(octets)
    return packets


def streams(program, results, count=20_000):
    """Streams of changed packets, among them records of RFC 5424, in both framings under many clocks."""
    random = Random(3164)
    for year in [1, 1900, 2000, 2001, 2004, 9_998]:
        name, minutes = random.choice(ZONES)
        clock = ["--legacy", str(year), *(["--zone", name] if name else [])]
        packets = changed(random, count)
        for framing in ["counted", "lf"]:
            octets = b"".join(reference.framed(framing, one) for one in packets if framing == "counted" or b"\n" not in one)
            answers = reference.Answers(octets, framing, lambda frame: reference.legacy(frame, year, minutes))
            for words, right in [(["check"], answers.check()), (["convert"], answers.convert()), (["show"], answers.show()),
                                 (["convert", "--to", "lf"], answers.convert("lf")), (["archive"], answers.archive())]:
                words = [*words, "--framing", framing, *clock]
                results.same(f"changed packets: {' '.join(words)}", program.run(words, octets), right)


def legacy(program, results):
    table(program, results)
    streams(program, results)
    wide_table(program, results)
    wide_streams(program, results)

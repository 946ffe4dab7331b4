"""`count`: its table beside that of the second reader, its JSON by Python's json, its bars, what it refuses, and devices that fail."""
import json
import re
from random import Random

from hostile.archives import POOL
from lib import algebra as second
from lib.faults import each_allocation, each_call
from lib.reference import archive_text

# the ways in which records are counted
WAYS = [(), ("host",), ("app",), ("proc",), ("msgid",), ("facility",), ("severity",), ("day",), ("hour",), ("minute",),
        ("host", "app"), ("severity", "host", "day"), ("minute", "facility"), tuple(second.KEYS)]
# words that ask for nothing
REFUSED = [["--by", "hosts"], ["--by", ""], ["--by", "host,"], ["--by", "host, app"], ["--by", "HOST"], ["--top", "0"], ["--top", "x"],
           ["--json", "--bars"], ["--by", "host", "--by", "app"], ["more"]]
# a line with a bar: its count and the bar
BAR = re.compile(rb"(#*)")


def words_of(keys, *more):
    return ["count", *(["--by", ",".join(keys)] if keys else []), *more]


def tables(random, program, results):
    """Random archives, counted in each way."""
    for size in (0, 1, 2, 7, 20, len(POOL)):
        text = archive_text(random.sample(POOL, size))
        for keys in WAYS:
            name = f"{size} records by {','.join(keys) or 'nothing'}"
            results.same(name, program.run(words_of(keys), text), second.count(text, keys))
            lines = program.run(words_of(keys, "--json"), text)
            results.same(f"{name}, as JSON", lines, second.count(text, keys, json_lines=True))
            results.check(f"{name}: its JSON has the keys in their order", [[*json.loads(line)] for line in lines[1].splitlines()]
                          == [["count", "octets", "first", "last", *keys]] * lines[1].count(b"\n"))
        for top in 1, 3, 4_294_967_295:
            results.same(f"{size} records, the first {top}", program.run(words_of(("host",), "--top", str(top)), text),
                         second.count(text, ("host",), top))


def odd_words(program, results):
    """Hosts of all characters, the longest words, and many of them."""
    odd = [b"<13>1 - %b - - - -" % bytes([octet]) for octet in range(33, 127)]
    odd += [b"<13>1 - %b %b %b %b -" % (b"h" * 255, b"a" * 48, b"p" * 128, b"m" * 32), b'<13>1 - "\\ \\" / - -']
    for keys in ("host",), ("host", "app", "proc", "msgid"):
        for form in [], ["--json"]:
            text = archive_text(odd)
            results.same(f"odd words by {','.join(keys)} {form}", program.run(words_of(keys, *form), text),
                         second.count(text, keys, json_lines=bool(form)))
    many = archive_text(b"<13>1 - host%d - - - - %d" % (n % 20_000, n) for n in range(50_000))
    results.same("20,000 hosts", program.run(words_of(("host",)), many), second.count(many, ("host",)))


def bars(program, results):
    """Bars are as long as their counts say, and no line is wider than the terminal unless its words are."""
    text = archive_text(b"<13>1 2026-11-25T%02d:00:00.000000Z h%d - - - - %d" % (n % 5, n % 3, n) for n in range(60) if n % 5 or n < 20)
    for columns in "40", "80", "200", "", "x":
        width = int(columns) if columns.isdigit() else 80
        for keys in ("hour",), ("host",), ("day", "host"):
            name = f"bars by {','.join(keys)}, COLUMNS={columns}"
            status, drawn, notes = program.run(words_of(keys, "--bars"), text, {"COLUMNS": columns})
            rows = second.count_rows(second.archive_read(text)[0], keys)
            if keys == ("hour",):
                rows.sort(key=lambda row: row[4])
            lines = drawn.splitlines()
            results.check(f"{name}: a line each", (status, notes, len(lines)) == (0, b"", len(rows)), f"{status} {notes} {drawn}")
            lengths = [line.count(b"#") for line in lines]
            results.check(f"{name}: within the width", all(len(line) <= width for line in lines), str(drawn))
            results.check(f"{name}: in their order, with their counts",
                          all(str(row[0]).encode() in line.split() and b" ".join(row[4]) in line for row, line in zip(rows, lines)), str(drawn))
            most = max(row[0] for row in rows)
            results.check(f"{name}: as long as the counts say",
                          all(abs(length - row[0] * max(lengths) / most) <= 1 for row, length in zip(rows, lengths)), f"{lengths}")


def counting(program, results):
    random = Random(62)
    tables(random, program, results)
    odd_words(program, results)
    bars(program, results)
    text = archive_text(POOL[:6])
    for words in REFUSED:
        status, written, notes = program.run(["count", *words], text)
        results.check(f"count {words} is refused", (status, written) == (2, b"") and notes.startswith(b"error: "), f"{status} {written} {notes}")
    for wrong in text[:-1], b"x", text + b"1", text[:40] + text:
        results.same(f"no archive of {len(wrong)} octets", program.run(["count", "--by", "host"], wrong), second.count(wrong, ("host",)))
    each_call(program, results, "count", words_of(("host", "day")), text, [0])
    each_allocation(program, results, "count", words_of(("host", "day")), text)
    each_allocation(program, results, "count, as JSON", words_of(("app",), "--json"), text)

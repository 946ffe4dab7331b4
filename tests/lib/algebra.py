"""What the commands on archives as sets answer, by the second reader: `union`, `common`, `minus`, `diff`, `select`, `digest`,
and the lines of `show --json`. Each answers status, output and notes."""
import base64
import hashlib
import json
import re
from functools import lru_cache

from lib.reference import (FACILITIES, MARK, SEVERITIES, Answers, Record, answer, archive_read, archive_text, instant, is_utf8, lines_of,
                           place, read, shown, timestamp)


# what is known of records, which random archives have again and again
reading, showing = lru_cache(maxsize=1_024)(read), lru_cache(maxsize=1_024)(shown)


def met(texts):
    """The fronts of archives, the greatest place up to which they are written, and which fault is met first, if one is."""
    fronts, faults = zip(*(archive_read(text) for text in texts))
    last = [place(front[-1]) if front else None for front in fronts]
    faulty = [n for n, fault in enumerate(faults) if fault]
    if not faulty:
        return fronts, None, None
    # an empty front is below all; of equal ones the first input is met first
    n = min(faulty, key=lambda n: (last[n] is not None, last[n] or (), n))
    cut = [[one for one in front if last[n] is not None and place(one) <= last[n]] for front in fronts]
    return cut, n, faults[n]


def joined(texts, kept, names, refused=1):
    """The answer where `kept` says what is written of the fronts, and `names` how the inputs are told."""
    fronts, n, fault = met(texts)
    output = kept(*map(set, fronts))
    if fault is None:
        return 0, output, b""
    return refused, output, f"{names(n)}{fault}\n".encode()


def sides(n):
    return ["left ", "right "][n]


def union(*texts):
    return joined(texts, lambda *sets: archive_text(set().union(*sets)), lambda n: f"file {n + 1} ")


def common(left, right):
    return joined((left, right), lambda xs, ys: archive_text(xs & ys), sides)


def minus(left, right):
    return joined((left, right), lambda xs, ys: archive_text(xs - ys), sides)


def diff_lines(xs, ys):
    return b"".join((b"< " if one in xs else b"> ") + showing(one) + b"\n" for one in sorted(xs ^ ys, key=place))


def diff(left, right):
    status, output, notes = joined((left, right), diff_lines, sides, 2)
    return (status or int(output != b""), output, notes)


# ---------------------------------------------------------------- one archive

WORDS = ["host", "app", "proc", "msgid"]
# options that may be given several times
LISTS = ["facility", *WORDS, "id", "message", "host_like", "app_like", "not_host", "not_app", "not_message"]


def is_like(word, pattern):
    """Whether a word is like a pattern, in which `*` is any octets and `?` any one octet."""
    parts = {ord("*"): b".*", ord("?"): b"."}
    return re.fullmatch(b"".join(parts.get(one) or re.escape(bytes([one])) for one in pattern), word, re.DOTALL) is not None


def passes(record, name, value):
    """Whether a record passes the test of one value of an option. A word that is `-` means none."""
    octets = value.encode()
    if name == "facility":
        return record.priority // 8 == FACILITIES.index(value)
    if name in WORDS:
        return record.words[WORDS.index(name)] == octets
    if name.endswith("_like"):
        word = record.words[WORDS.index(name[:-5])]
        return word != b"-" and is_like(word, octets)
    return octets in record.message.removeprefix(MARK) if name == "message" else octets in [id for id, _ in record.came]


class Conditions:
    """The conditions of `select`: the values of those that may be given several times in a list, True for a flag."""

    def __init__(self, **given):
        self.given = given

    def words(self):
        """The words of the command line, with = before a value, which may begin with a hyphen."""
        words = []
        for name, values in self.given.items():
            option = f"--{name.replace('_', '-')}"
            words += [option] if values is True else [f"{option}={it}" for it in (values if name in LISTS else [values])]
        return words

    def hold(self, octets):
        record, given = reading(octets), self.given
        assert isinstance(record, Record)
        begin, end = (instant(given[name].encode()) if name in given else None for name in ("from", "to"))
        if record.micros is None:
            if (begin is not None or end is not None) and not given.get("undated"):
                return False
        elif given.get("only_undated") or begin is not None and record.micros < begin or end is not None and record.micros >= end:
            return False
        if "severity" in given and record.priority % 8 > SEVERITIES.index(given["severity"]):
            return False
        met = {name: any(passes(record, name.removeprefix("not_"), value) for value in given[name]) for name in LISTS if name in given}
        return all(holds != name.startswith("not_") for name, holds in met.items())


def select(text, conditions):
    return joined([text], lambda xs: archive_text(one for one in xs if conditions.hold(one)), lambda n: "")


def period_of(octets, by):
    time = octets.split(b" ", 2)[1]
    return "undated" if time == b"-" else time[:{"month": 7, "day": 10, "hour": 13}[by]].decode()


def digest_line(name, records):
    text = archive_text(records)
    return f"{name} {len(records)} {len(text)} {hashlib.sha256(text).hexdigest()}\n".encode()


def digest(text, by="day"):
    records, fault = archive_read(text)
    periods = {}
    for one in records:
        periods.setdefault(period_of(one, by), []).append(one)
    if fault and periods:
        del periods[period_of(records[-1], by)]
    lines = b"".join(digest_line(name, part) for name, part in periods.items())
    return (1, lines, f"{fault}\n".encode()) if fault else (0, lines + digest_line("total", records), b"")


# ---------------------------------------------------------------- counts

KEYS = ["host", "app", "proc", "msgid", "facility", "severity", "day", "hour", "minute"]
TIME_LENGTHS = {"day": 10, "hour": 13, "minute": 16}


def key_of(record, key):
    """The text of a key of a record."""
    if key in TIME_LENGTHS:
        return b"undated" if record.micros is None else timestamp(record.micros)[:TIME_LENGTHS[key]]
    if key == "facility":
        return FACILITIES[record.priority // 8].encode()
    if key == "severity":
        return SEVERITIES[record.priority % 8].encode()
    return record.words[KEYS.index(key)]


def count_rows(records, keys):
    """Of each key its records' number, octets, first and last time, and texts: the most first, then by their texts."""
    table = {}
    for one in records:
        record = read(one)
        table.setdefault(tuple(key_of(record, key) for key in keys), []).append((one, record.micros))
    if not keys:
        table.setdefault((), [])
    rows = []
    for texts, entries in table.items():
        times = [micros for _, micros in entries if micros is not None]
        first, last = (timestamp(pick(times)) if times else b"-" for pick in (min, max))
        rows.append((len(entries), len(archive_text(one for one, _ in entries)), first, last, texts))
    return sorted(rows, key=lambda row: (-row[0], row[4]))


def count_json(row, keys):
    number, octets, first, last, texts = row
    pairs = [("count", str(number)), ("octets", str(octets)), ("first", word_json(first)), ("last", word_json(last))]
    pairs += [(key, word_json(text)) for key, text in zip(keys, texts)]
    return "{" + ",".join(f'"{name}":{value}' for name, value in pairs) + "}"


def count(text, keys=(), top=None, json_lines=False):
    records, fault = archive_read(text)
    if fault:
        return 1, b"", f"{fault}\n".encode()
    rows = count_rows(records, keys)[:top]
    if json_lines:
        return 0, b"".join(count_json(row, keys).encode() + b"\n" for row in rows), b""
    return 0, b"".join(b" ".join([b"%d %d" % row[:2], *row[2:4], *row[4]]) + b"\n" for row in rows), b""


# ---------------------------------------------------------------- JSON

ESCAPES = {'"': '\\"', "\\": "\\\\", "\b": "\\b", "\t": "\\t", "\n": "\\n", "\f": "\\f", "\r": "\\r"}


def text_json(text):
    return '"' + "".join(ESCAPES.get(one) or (f"\\u{ord(one):04x}" if ord(one) < 32 else one) for one in text) + '"'


def word_json(word):
    return "null" if word == b"-" else text_json(word.decode())


@lru_cache(maxsize=1_024)
def record_json(record):
    """The line of a record."""
    pairs = [("priority", str(record.priority)), ("facility", text_json(FACILITIES[record.priority // 8])),
             ("severity", text_json(SEVERITIES[record.priority % 8])),
             ("time", "null" if record.micros is None else text_json(timestamp(record.micros).decode()))]
    pairs += zip(["host", "app", "proc", "msgid"], map(word_json, record.words))
    data = ",".join(text_json(name.decode()) + ":[" + ",".join(
        f"[{text_json(param.decode())},{text_json(value.decode())}]" for param, value in params) + "]"
        for name, params in record.elements)
    pairs.append(("data", "{" + data + "}"))
    marked = record.message.startswith(MARK)
    message = record.message[3:] if marked else record.message
    if is_utf8(message):
        pairs.append(("message", text_json(message.decode())))
    else:
        pairs.append(("message_base64", text_json(base64.b64encode(message).decode())))
    if marked:
        pairs.append(("bom", "true"))
    line = "{" + ",".join(f'"{name}":{value}' for name, value in pairs) + "}"
    json.loads(line)
    return line.encode() + b"\n"


def show_json(octets, framing="counted"):
    """What `show --json` answers."""
    answers = Answers(octets, framing, reading)
    refused = answers.refused()
    return answer(b"".join(record_json(one) for _, one in answers.records()), lines_of(refused), refused)

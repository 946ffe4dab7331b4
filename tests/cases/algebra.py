"""The commands on archives as sets: tables, files that cannot be read, calls that fail, and random archives, whole and broken,
beside the second reader."""
import resource
from functools import partial
from random import Random

from cases.commands import row
from cases.mutated import mutations
from cases.rows import A, EXAMPLE, HELLO, MARK, NIL, TIME, entries, invalid
from hostile.archives import POOL, TIMES, rounds
from lib import algebra as second
from lib.faults import each_allocation, each_call
from lib.reference import archive_text, canonical, read

PAIRS = {"common": second.common, "minus": second.minus, "diff": second.diff}

NOT_TIMES = ["", "-", "2026-11", "2026-11-25T10", "2026-11-25T10:00Z", "2026-11-25T10:00:00Zx", " 2026-11-25T10:00:00Z", "2026-02-29T10:00:00Z",
             "9999-12-31T23:59:59-00:01", "0000-01-01T00:00:00+00:01", "2026-11-25t10:00:00z", "2026-11-25T10:00:60Z"]
LATE = entries(canonical(read(b"<13>1 2026-11-25T10:30:00Z - - - - -")))
# records of two hosts, of a third without a program, and of none
FW, WEB, DB, NOBODY = (canonical(read(one)) for one in [
    b"<13>1 - fw-1 sshd 1 m [a] Failed password", b"<30>1 - web nginx - - - GET /", b"<2>1 - db - - - - slow query",
    b"<13>1 - - cron 7 - - \xef\xbb\xbfend of \xe2\x82\xac"])
ALL = [FW, WEB, DB, NOBODY]

# conditions, and which of these records meet them
SELECTED = [
    (["--host", "fw-1"], [FW]), (["--host", "fw-1", "--host", "db"], [FW, DB]), (["--host", "-"], [NOBODY]),
    (["--host", "-", "--host", "web"], [WEB, NOBODY]), (["--host", "FW-1"], []), (["--host", "fw"], []),
    (["--host", "fw-1", "--app", "nginx"], []), (["--host", "fw-1", "--app", "nginx", "--app", "sshd"], [FW]),
    (["--proc", "1", "--proc", "7"], [FW, NOBODY]), (["--msgid", "m", "--msgid", "-"], ALL), (["--id", "b", "--id", "a"], [FW]),
    (["--facility", "user", "--facility", "kern"], [FW, DB, NOBODY]), (["--facility", "daemon", "--severity", "notice"], []),
    (["--not-host", "fw-1"], [WEB, DB, NOBODY]), (["--not-host", "fw-1", "--not-host", "web"], [DB, NOBODY]),
    (["--not-host", "-"], [FW, WEB, DB]), (["--host", "web", "--host", "db", "--not-host", "db"], [WEB]),
    (["--not-app", "-"], [FW, WEB, NOBODY]), (["--not-app", "sshd", "--not-app", "cron"], [WEB, DB]),
    (["--host-like", "*"], [FW, WEB, DB]), (["--host-like", "fw-*"], [FW]), (["--host-like", "??", "--host-like", "*e*"], [WEB, DB]),
    (["--host-like", "w"], []), (["--app-like", "*n*", "--not-host", "-"], [WEB]), (["--app-like=-*"], []),
    (["--message", "pass"], [FW]), (["--message", "Pass"], []), (["--message", "e", "--host", "db"], [DB]),
    (["--message", "slow", "--message", "GET /"], [WEB, DB]), (["--message", "\u20ac"], [NOBODY]), (["--message", "\ufeff"], []),
    (["--not-message", " "], []), (["--not-message", "query", "--not-message", "password"], [WEB, NOBODY]),
]

# words, standard input, status, standard output, standard error (None: any text, but some)
ON_INPUT = [
    ("nothing is selected of the empty archive", ["select"], b"", 0, b"", b""),
    ("all is selected without a condition", ["select"], entries(A), 0, entries(A), b""),
    ("what begins at the instant", ["select", "--from", "2026-11-25T10:30:00Z"], LATE, 0, LATE, b""),
    *[(f"what begins at {time}", ["select", "--from", time], LATE, 0, LATE, b"")
      for time in ["2026-11-25", "2026-11-25T10:30", "2026-11-25T10:30:00", "2026-11-25T10:30:00.000000"]],
    *[(f"what begins before {time}", ["select", "--to", time], LATE, 0, b"", b"")
      for time in ["2026-11-25", "2026-11-25T10:30", "2026-11-25T10:30:00", "2026-11-25T10:30:00.000000"]],
    ("what begins behind it", ["select", "--from", "2026-11-25T10:30:00.000001Z"], LATE, 0, b"", b""),
    ("what ends at the instant", ["select", "--to", "2026-11-25T10:30:00Z"], LATE, 0, b"", b""),
    ("what ends behind it", ["select", "--to", "2026-11-25T10:30:00.000001Z"], LATE, 0, LATE, b""),
    ("an empty range", ["select", "--from", TIMES[5], "--to", TIMES[4]], LATE, 0, b"", b""),
    ("the digest of the empty archive", ["digest"], b"", 0, second.digest(b"")[1], b""),
    *[("a time that is none", ["select", f"{bound}={time}"], b"x", 2, b"", invalid(bound, time, TIME))
      for bound in ["--from", "--to"] for time in NOT_TIMES],
    *[("a condition given twice", ["select", *(option * 2)], b"x", 2, b"", None)
      for option in [["--from", TIMES[4]], ["--to", TIMES[4]], ["--undated"], ["--only-undated"], ["--severity", "err"]]],
    *[(" ".join(words), ["select", *words], archive_text(ALL), 0, archive_text(chosen), b"") for words, chosen in SELECTED],
    *[("a word that no record can have", ["select", f"{option}={word}"], b"x", 2, b"", invalid(option, word))
      for option, most in [("--host", 255), ("--app", 48), ("--proc", 128), ("--msgid", 32), ("--id", 32), ("--not-host", 255), ("--not-app", 48)]
      for word in ["", "a b", "\x7f", "\u20ac", "w" * (most + 1)]],
    *[("an id that is none", ["select", "--id", word], b"x", 2, b"", invalid("--id", word)) for word in ["a=", "a]", 'a"']],
    *[("a pattern that is none", ["select", f"{option}={word}"], b"x", 2, b"", invalid(option, word))
      for option in ["--host-like", "--app-like"] for word in ["", "*" * 1_025]],
    *[("an empty text", ["select", f"{option}="], b"x", 2, b"", invalid(option, "")) for option in ["--message", "--not-message"]],
    *[("undated alone, with a range", ["select", "--only-undated", bound, TIMES[4]], b"x", 2, b"",
       f"error: --only-undated cannot be used with {bound}\n".encode()) for bound in ["--from", "--to"]],
    *[("a name that is none", ["select", option, name], b"x", 2, b"", invalid(option, name))
      for option in ["--severity", "--facility"] for name in ["", "Err", "16", "error", "none"]],
    *[("a period that is none", ["digest", "--by", name], b"x", 2, b"", invalid("--by", name))
      for name in ["", "Day", "year", "week", "minute", "days"]],
    *[("superfluous words", [command, "x"], b"x", 2, b"", None) for command in ["select", "digest"]],
    *[("no archive", [command], b"x", 1, b"", b"bad-frame 0\n") for command in ["select", "digest"]],
    *[("no archive behind an entry", [command], entries(A) + b"1 x", 1, output, b"bad-entry %d syntax priority 0\n" % len(entries(A)))
      for command, output in [("select", entries(A)), ("digest", b"")]],
]

NOT_JSON = [["show", "--json=true"], ["show", "--json", "--json"], ["check", "--json"], ["convert", "--json"]]


def tables(program, results, folder):
    for case in ON_INPUT:
        row(program, results, *case)
    good = folder.file("good", entries(A))
    for words in [["union"], ["union", *[good] * 513], *([name] for name in PAIRS), *([name, good] for name in PAIRS),
                  *([name, good, good, good] for name in PAIRS), *([name, "--framing", "lf", good, good] for name in PAIRS)]:
        seen = program.run(words)
        results.check(f"words that are none: {words[:3]}", seen[:2] == (2, b"") and seen[2] != b"", str(seen))
    for count in (1, 2, 3, 511, 512):
        seen = program.run(["union", *[good] * count])
        results.same(f"the union of {count} times one archive", seen, (0, entries(A), b""))
    for words in NOT_JSON:
        row(program, results, "JSON is asked for by a flag of show", words, HELLO, 2, b"", None)


def few_descriptors(program, results, good):
    """Too many files for the descriptors that there are: the first that cannot be opened, and why."""
    for most, number in (4, 2), (12, 10):  # three are open already
        told = f"file {number} no file\n{good}: Too many open files (os error 24)\n".encode()
        limited = partial(resource.setrlimit, resource.RLIMIT_NOFILE, (most, most))
        seen = program.run(["union", *[good] * 20], preexec_fn=limited)
        results.same(f"union with {most} descriptors", seen, (2, b"", told))


def files(program, results, folder):
    """Names without a file, folders, and devices that are full."""
    good, bad, none, folded = folder.file("good", entries(A)), folder.file("bad", b"x"), str(folder.path / "missing"), str(folder.path)
    why = f"{none}: No such file or directory (os error 2)\n".encode()
    for name in PAIRS:
        for words, notes in [([none, bad], b"left no file\n" + why), ([bad, none], b"right no file\n" + why), ([none, none], b"left no file\n" + why),
                             ([folded, good], b"left read fault\n"), ([good, folded], b"right read fault\n")]:
            results.same(f"{name}: {notes}", program.run([name, *words]), (2, b"", notes))
    for words, notes in [([none], b"file 1 no file\n" + why), ([bad, good, none], b"file 3 no file\n" + why), ([good] * 511 + [none], b"file 512 no file\n" + why),
                         ([folded, bad], b"file 1 read fault\n"), ([good, folded, bad], b"file 2 read fault\n")]:
        results.same(f"union: {notes}", program.run(["union", *words]), (2, b"", notes))
    few_descriptors(program, results, good)
    with open("/dev/full", "wb") as full:
        other = folder.file("other", entries(canonical(read(EXAMPLE))))
        for words, octets in [(["union", good, other], b""), (["common", good, good], b""), (["minus", good, other], b""),
                              (["diff", good, other], b""), (["select"], entries(A)), (["digest"], entries(A))]:
            seen = program.run(words, octets, stdout=full)
            results.check(f"{words[0]} to a full device", (seen[0], seen[2]) == (2, b"write fault\n"), str(seen))


def calls(program, results, folder):
    """Each growth of memory is refused in turn, and each open, read and write fails, is short or is interrupted in turn."""
    random = Random(1)
    left, right, third = (folder.file(name, archive_text(random.sample(POOL, 20))) for name in ("left", "right", "third"))
    whole = archive_text(POOL)
    runs = [(" ".join([name, "of two"]), [name, left, right], b"", [3, 4]) for name in PAIRS]
    runs += [("union of three", ["union", left, right, third], b"", [3, 4, 5]),
             ("union with what is none", ["union", left, folder.file("bad", b"x")], b"", [3, 4]),
             ("select", ["select", "--host", "h", "--from", TIMES[3]], whole, [0]), ("digest", ["digest", "--by", "hour"], whole, [0]),
             ("digest of what is none", ["digest"], whole + b"x", [0]), ("show --json", ["show", "--json", "--framing", "counted"], whole, [0])]
    for run in runs:
        each_allocation(program, results, *run[:3])
        each_call(program, results, *run)


def at_every_octet(program, results, folder):
    """Two archives that are cut, and changed, at every octet."""
    left, right = archive_text(POOL[2:12:3]), archive_text(POOL[3:13:2])
    other = folder.file("other", right)
    for at in range(len(left) + 1):
        for text in (left[:at], left[:at] + b"~" + left[at + 1:]):
            name = folder.file("changed", text)
            for command, answer in PAIRS.items():
                for words, texts in (([name, other], (text, right)), ([other, name], (right, text))):
                    seen = program.run([command, *words])
                    results.check(f"{command}, changed at {at}", seen == answer(*texts), f"{texts} {seen}")
            for words, answer in (["select"], second.select(text, second.Conditions())), (["digest"], second.digest(text)):
                results.check(f"{words[0]}, changed at {at}", program.run(words, text) == answer, str(text))


def laws(program, results, folder):
    """The laws on the program itself, over archives of many records."""
    random = Random(7)
    many = [canonical(read(b"<%d>1 2026-11-%02dT%02d:00:00Z h%d a - - - %d" % (n % 192, 1 + n % 28, n % 24, n % 7, n))) for n in range(6_000)]
    texts = [archive_text(random.sample(many + POOL, 3_000)) for _ in range(3)]
    a, b, c = (folder.file(f"law{n}", text) for n, text in enumerate(texts))

    def of(*words):
        status, output, notes = program.run(list(words))
        results.check(f"{words[0]} of many ends well", status in (0, int(words[0] == "diff")) and notes == b"", f"{status} {notes}")
        return folder.file(f"of{len(list(folder.path.iterdir()))}", output), output

    both, alone = of("common", a, b), of("minus", a, b)
    results.check("common and minus have nothing in common", of("common", both[0], alone[0])[1] == b"")
    results.check("common and minus together are the left", of("union", both[0], alone[0])[1] == texts[0])
    results.check("union is merge", of("union", a, b)[1] == of("merge", a, b)[1])
    whole = of("union", a, b, c)[1]
    results.check("in any order and grouping", {of("union", *some)[1] for some in [(c, b, a), (b, a, c), (of("union", a, b)[0], c), (a, of("union", c, b)[0])]} == {whole})
    results.check("minus of equal archives is empty", of("minus", a, a)[1] == b"" == of("diff", a, a)[1])
    results.check("diff tells each record of one", of("diff", a, b)[1] == second.diff(*texts[:2])[1])
    for words in (["--host", "h3"], ["--from", TIMES[4], "--to", TIMES[7]], ["--severity", "err", "--undated", "--to", TIMES[5]]):
        chosen = {name: folder.file(f"chosen{name}", program.run(["select", *words], text)[1]) for name, text in zip("ab", texts)}
        for command in ("union", "common", "minus"):
            apart = of(command, chosen["a"], chosen["b"])[1]
            results.check(f"select distributes over {command}", program.run(["select", *words], of(command, a, b)[1])[1] == apart)
    parts = [["--to", TIMES[4], "--undated"], ["--from", TIMES[4], "--to", TIMES[6]], ["--from", TIMES[6]]]
    pieces = [b"".join(program.run(["select", *part], text)[1] for part in parts) for text in texts]
    results.check("ranges one after the other are the archive", pieces == texts)
    for by, name, words in [("month", "2026-11", ["--from", "2026-11-01T00:00:00Z", "--to", "2026-12-01T00:00:00Z"]),
                            ("day", "2026-11-25", ["--from", "2026-11-25T00:00:00Z", "--to", "2026-11-26T00:00:00Z"]),
                            ("hour", "2026-11-25T10", ["--from", TIMES[5], "--to", "2026-11-25T11:00:00Z"]), ("day", "undated", ["--only-undated"])]:
        lines = program.run(["digest", "--by", by], whole)[1].splitlines(keepends=True)
        chosen = program.run(["select", *words], whole)[1]
        right = [line for line in lines if line.startswith(name.encode() + b" ")]
        count = len(second.archive_read(chosen)[0])
        results.check(f"the digest of {name} is that of its selection", right == [second.digest_line(name, second.archive_read(chosen)[0])], f"{right} {count}")


def as_json(program, results, frames):
    """Each record is one line of JSON; refused frames are told as `show` tells them."""
    octets = entries(*frames)
    outcomes = [read(frame) for frame in frames]
    right = b"".join(second.record_json(one) for one in outcomes if not isinstance(one, bytes))
    notes = b"".join(b"%d %b\n" % (n, one) for n, one in enumerate(outcomes, 1) if isinstance(one, bytes))
    seen = program.run(["show", "--json", "--framing", "counted"], octets)
    results.same("random records as JSON", seen, (int(notes != b""), right, notes))


NOTHING = NIL + b"-"
JSON_FRAMES = [
    HELLO, EXAMPLE, A, NOTHING, NOTHING + b" ", NOTHING + b" \"\\/", NOTHING + b" " + bytes(range(128)), NOTHING + b" \xff\x00",
    NOTHING + b" " + MARK, NOTHING + b" " + MARK + b"\xf0\x9d\x84\x9e\x7f", NIL + b"[b][a n=\"\" n=\"\\\"\\\\\\]\\x\" o=\"\x01\n\"] m",
    NIL + b"[-] \xc3"]


def algebra(program, results):
    folder = program.folder
    tables(program, results, folder)
    files(program, results, folder)
    calls(program, results, folder)
    at_every_octet(program, results, folder)
    rounds(program, results, folder, 700, seed=512)
    laws(program, results, folder)
    as_json(program, results, [frame for frame in JSON_FRAMES + mutations(20_000) if frame])

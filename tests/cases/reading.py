"""`read` with conditions, `--last`, `--as` and `--color`, beside the second reader: random words over random stores, which `add`
and the trial program have made; long records, undated ones, and those with a line feed; damaged files, told or left out, devices that are full,
readers that leave, and each allocation failing in turn; and words that are none."""
import os
import subprocess
import tempfile
import time
from pathlib import Path

from cases.algebra import ON_INPUT
from cases.damaged_journals import place_of
from cases.terminal import COLORS, on_terminal, painted
from hostile.archives import POOL, conditions
from hostile.records import Maker
from lib import algebra as second
from lib.faults import each_allocation
from lib.loopback import NEVER
from lib.reference import ENTRY_MAX, SEVERITIES, Answers, archive_read, archive_text, counted, show, timestamp
from lib.store_format import damage, held, open_batch, seal_of, segment_name
from lib.stores import Keeper, put_folder, records

SEED, STORES, RUNS = 44, 14, 40
FORMS = ["archive", "lines", "json", "show"]
ALL = second.Conditions()
DAYS = [b"2026-11-24", b"2026-11-25", b"2026-11-26"]


def dated(day, word):
    return b"<14>1 %bT10:00:00.000000Z h reading - - - %b" % (day, word)


# ---------------------------------------------------------------- what is right

def chosen(text, given, last=None):
    """The records of an archive that meet conditions, or the last of them."""
    found = [one for one in archive_read(text)[0] if given.hold(one)]
    return found[-last:] if last else found


def written(found, form):
    """The answer that has these records in a form: what `convert` and `show` make of their archive."""
    text = counted(found)
    if form == "archive":
        return 0, text, b""
    if form == "json":
        return second.show_json(text)
    answers = Answers(text, "counted", second.reading)
    return answers.show() if form == "show" else answers.convert("lf")


class Store:
    """A store, and the archive of the records that it holds."""

    def __init__(self, program, results, path, sent):
        self.program, self.results, self.path, self.text = program, results, str(path), archive_text(sent)
        results.same(f"{Path(path).name}: all of it", program.run(["read", self.path]), (0, self.text, b""))

    def read(self, *words, **streams):
        return self.program.run(["read", self.path, *map(str, words)], **streams)

    def answers(self, name, given=ALL, last=None, form="archive"):
        """One run gives what the second reader does."""
        words = [*given.words(), *([f"--last={last}"] if last else []), f"--as={form}"]
        right = written(chosen(self.text, given, last), form)
        self.results.same(f"{name}: {' '.join(words)}", self.read(*words), right)


def added(program, path, sent, parts=1):
    """The folder of a store to which records were added, in so many archives."""
    for n in range(parts):
        program.run(["add", str(path)], archive_text(sent[n::parts]))
    return path


# ---------------------------------------------------------------- random stores and words

def random_store(program, keeper, results, path, make):
    """A store that `add`, the trial program or both have made."""
    sent = make.random.sample(POOL, make.below(len(POOL) + 1)) + records((SEED, str(path)), 0, make.below(60))
    sent = make.random.sample(sent, len(sent))
    kept = sent[:make.pick([0, len(sent) // 2, len(sent)])]
    if kept:
        keeper.keep(path, kept, make.pick([1, 5, 100]), make.pick([0, 800, 4_000, 10 ** 9]))
    path.mkdir(exist_ok=True)
    added(program, path, sent[len(kept):], make.pick([1, 2, 4]))
    return Store(program, results, path, sent)


def random_words(make):
    """Conditions, how many of the last records, and a form."""
    last = make.pick([None, None, 1, 2, 1 + make.below(80), 1_000_000])
    return conditions(make) if make.chance(0.8) else ALL, last, make.pick(FORMS)


def rounds(program, trial, results, folder):
    keeper = Keeper(trial)
    for n in range(STORES):
        make = Maker("reading", SEED, n)
        store = random_store(program, keeper, results, folder / f"random{n}", make)
        for _ in range(RUNS):
            store.answers(f"store {n} of seed {SEED}", *random_words(make))


# ---------------------------------------------------------------- edges

def edges(program, results, folder):
    """As many records as are asked for, one fewer and one more; none; records without a time."""
    sent = [*POOL, *records("edges", 0, 40)]
    store, count = Store(program, results, added(program, folder / "edges", sent, 3), sent), len(set(sent))
    for form in FORMS:
        for last in 1, count - 1, count, count + 1, 1_000_000:
            store.answers("as many as there are", ALL, last, form)
        for given in [{"host": ["nobody"]}, {"from": "9999-01-01T00:00:00Z", "to": "0001-01-01T00:00:00Z"}, {"only_undated": True, "host": ["nobody"]},
                      {"only_undated": True}, {"undated": True}, {"undated": True, "from": "2026-11-25T00:00:00Z"},
                      {"from": "2026-11-25T00:00:00Z"}, {"undated": True, "to": "2026-11-25T00:00:00Z"}, {"not_message": ["\n"]}]:
            for last in None, 2:
                store.answers("edges", second.Conditions(**given), last, form)
    seen = [program.run(["read", *words]) for words in (["--as=lines", "--last=3", store.path], ["--last", "3", store.path, "--as", "lines"])]
    results.check("options stand where they like", seen[0] == seen[1] == store.read("--last=3", "--as=lines"), str(seen))
    results.same("the form of an archive, where no other is asked for", store.read("--last=3"), store.read("--last=3", "--as=archive"))
    empty = Store(program, results, added(program, folder / "empty", []), [])
    for form in FORMS:
        for last in None, 1:
            empty.answers("an empty store", ALL, last, form)


def long_ones(program, results, folder):
    """Records of 262,144 octets, and of more, which their canonical form may have."""
    front = dated(DAYS[1], b"long ")
    sent = [front + b"%d " % n + b"x" * (size - len(front) - 2) for n, size in enumerate([262_143, 262_144, 262_145, 300_000, ENTRY_MAX])]
    sent += [dated(DAYS[0], b"short"), dated(DAYS[2], b"short"), dated(DAYS[2], b"with\na line feed")]
    store = Store(program, results, added(program, folder / "long", sent), sent)
    for form in FORMS:
        for last in None, 1, 3, 6:
            store.answers("long records", ALL, last, form)
        store.answers("long records", second.Conditions(message=["x" * 100]), 2, form)
    seen = store.read("--as=lines", "--from=2026-11-26")
    results.same("a line feed in a line", seen, (1, dated(DAYS[2], b"short") + b"\n", b"2 has-lf\n"))


def many(program, results, folder):
    """Of many records the last ones, of which all are written."""
    sent = [b"<14>1 %b h many - - - %d" % (timestamp(1_795_600_800_000_000 + 1_000_003 * n), n) for n in range(40_000)]
    store = Store(program, results, added(program, folder / "many", sent), sent)
    for last in 1, 20_000, 1_000_000:
        seen = store.read(f"--last={last}", "--as=lines")
        results.same(f"{last} of many", seen, (0, b"".join(one + b"\n" for one in sent[-last:]), b""))
    seen = store.read("--as=lines", "--message=999", "--last=3")
    results.same("of many the last that have a text", seen, (0, b"".join(one + b"\n" for one in [one for one in sent if b"999" in one.split(b"- - - ")[1]][-3:]), b""))


def ago(program, results, folder):
    """Times that count back from now."""
    now = time.time_ns() // 1_000
    sent = [b"<14>1 %b h ago - - - %d" % (timestamp(now - 60_000_000 * back), back) for back in (180, 90, 30, 1)]
    store = Store(program, results, added(program, folder / "ago", sent), sent)
    for words, kept in [(["--from=-1h"], sent[2:]), (["--from", "-2h", "--to", "-10m"], sent[1:3]), (["--to=-1h", "--last=1"], sent[1:2])]:
        results.same(f"read {' '.join(words)}", store.read(*words), (0, archive_text(kept), b""))


# ---------------------------------------------------------------- colors

def colors(program, results, folder):
    """Records are colored as `show` colors them where that is asked for, and on a terminal unless NO_COLOR or TERM refuse it."""
    sent = [b"<%d>1 2026-11-25T10:00:0%d.000000Z h color - - - %b" % (8 + n, n, name.encode()) for n, name in enumerate(SEVERITIES)]
    store = Store(program, results, added(program, folder / "colors", sent), sent)
    for form in FORMS:
        right = written(chosen(store.text, ALL), form)
        for words in [f"--as={form}"], [f"--as={form}", "--color=never"], [f"--as={form}", "--color=auto"]:
            results.same(f"no color: {words}", store.read(*words), right)
        if form != "show":
            results.same(f"no color but for people: {form}", store.read(f"--as={form}", "--color=always"), right)
    plain = written(chosen(store.text, ALL), "show")[1]
    colored = b"".join(painted(show(n + 1, second.reading(one)), n) for n, one in enumerate(sent))
    results.same("records are colored", store.read("--as=show", "--color=always"), (0, colored, b""))
    for name, words, environment, right in [("auto", [], {}, colored), ("always", ["--color=always"], {}, colored), ("never", ["--color=never"], {}, plain),
                                            ("NO_COLOR", [], {"NO_COLOR": "1"}, plain), ("TERM=dumb", [], {"TERM": "dumb"}, plain),
                                            ("always and NO_COLOR", ["--color=always"], {"NO_COLOR": "1"}, colored)]:
        seen = on_terminal(program, ["read", store.path, "--as=show", *words], b"", {**COLORS, **environment})
        results.same(f"on a terminal, {name}", seen, (0, right, b""))
    few = chosen(store.text, ALL, 2)
    seen = store.read("--as=show", "--color=always", "--last=2")
    results.same("the last ones are colored", seen, (0, b"".join(painted(show(n + 1, second.reading(one)), 6 + n) for n, one in enumerate(few)), b""))


# ---------------------------------------------------------------- what goes wrong

def damaged(program, results, folder):
    """A damaged segment is told with status 1, behind a front of what is right; of the last records none is written then."""
    files = {}
    for day in DAYS:
        text = archive_text([dated(day, b"%d" % n) for n in range(30)])
        files[segment_name(day, text)] = text
    whole = Store(program, results, put_folder(folder / "whole", files), archive_read(b"".join(files.values()))[0])
    for day in DAYS:
        name = next(one for one in files if one.startswith(day))
        for kind, octets in ("an octet more", files[name] + b"4"), ("an octet less", files[name][:-1]), ("empty", b""):
            path = put_folder(folder / f"damaged {day.decode()}, {kind}", {**files, name: octets})
            status, output, notes = program.run(["read", str(path)])
            results.check(f"{path.name}: read", status == 1 and whole.text.startswith(output) and notes.startswith(name), f"{status} {notes}")
            for form in FORMS:
                for words in [], ["--host=h"], ["--not-message=7"]:
                    right = whole.read(f"--as={form}", *words)
                    seen = program.run(["read", str(path), f"--as={form}", *words])
                    results.check(f"{path.name}: {form} {words}", seen[0] == 1 and right[1].startswith(seen[1]) and seen[2] == notes, str(seen)[:600])
                    seen = program.run(["read", str(path), f"--as={form}", *words, "--last=5"])
                    results.same(f"{path.name}: {form} {words} --last", seen, (1, b"", notes))
            of_other_days = [f"--from={DAYS[0].decode()}", f"--to={DAYS[1].decode()}"]
            plain = program.run(["read", str(path), *of_other_days])
            seen = program.run(["read", str(path), *of_other_days, "--host=h"])
            results.same(f"{path.name}: a range", (seen[0], seen[2]), (plain[0], plain[2]))


def whole_files():
    """Files of a store by their names, each with records of its own: segments of days, a mixed one, and a journal of two batches."""
    files = {}
    for day in DAYS:
        text = archive_text([dated(day, b"%d" % n) for n in range(9)])
        files[segment_name(day, text)] = text
    mixed = archive_text([dated(day, b"mixed") for day in DAYS] + [b"<14>1 - h reading - - - undated"])
    files[segment_name(b"mixed", mixed)] = mixed
    bodies = [archive_text([dated(day, b"journal")]) for day in DAYS[:2]]
    files[b"journal.1"] = b"".join(open_batch(body + seal_of(body)) for body in bodies)
    return files


def line_on(name, octets):
    """The line on a file that is damaged; nothing of one that is whole."""
    wrong = place_of(octets) if name.startswith(b"journal.") else damage(name, octets)
    return name + b" " + wrong.encode() + b"\n" if wrong else b""


def flipped(octets, at):
    return octets[:at] + bytes([octets[at] ^ 1]) + octets[at + 1:]


def partial(program, results, folder):
    """With --partial each damaged file is told, and what the others hold is written, in each form; without damage it changes nothing."""
    files = whole_files()
    rows = [("no file", {})]
    for name, octets in files.items():
        rows += [(f"{name.decode()} at {at}", {name: flipped(octets, at)}) for at in (9, len(octets) // 2, len(octets) - 1)]
    rows.append(("all files", {name: flipped(octets, len(octets) // 2) for name, octets in files.items()}))
    for n, (kind, others) in enumerate(rows):
        found = {**files, **others}
        path = str(put_folder(folder / f"partial {n}", found))
        notes = b"".join(line_on(name, found[name]) for name in sorted(found))
        text = archive_text(sorted(held({name: octets for name, octets in found.items() if not line_on(name, octets)})))
        results.same(f"partial, {kind}: as many lines as damaged files", notes.count(b"\n"), len(others))
        for form in FORMS:
            for given, last in (ALL, None), (ALL, 5), (second.Conditions(host=["h"]), None):
                words = [*given.words(), *([f"--last={last}"] if last else []), f"--as={form}"]
                right = written(chosen(text, given, last), form)[1]
                seen = program.run(["read", path, "--partial", *words])
                results.same(f"partial, {kind}: {words}", seen, (1 if others else 0, right, notes))
        if not others:
            results.same("partial, no file: as without it", program.run(["read", path, "--partial"]), program.run(["read", path]))
    name = next(one for one in files if one.startswith(DAYS[2]))
    path = str(put_folder(folder / "partial, a range", {**files, name: flipped(files[name], 9)}))
    of_other_days = [f"--from={DAYS[0].decode()}", f"--to={DAYS[2].decode()}"]
    seen = program.run(["read", path, "--partial", *of_other_days])
    results.same("partial: a day outside the range is not told", seen, program.run(["read", path, *of_other_days]))
    results.same("partial: and ends it as whole", (seen[0], seen[2]), (0, b""))


def devices(program, results, folder):
    """A full device, a reader that has left, and one that leaves."""
    sent = [dated(DAYS[1], b"%06d %b" % (n, b"x" * 200)) for n in range(3_000)]
    store = Store(program, results, added(program, folder / "devices", sent), sent)
    for form in FORMS:
        for words in [f"--as={form}"], [f"--as={form}", "--last=2000"], [f"--as={form}", "--host=h"]:
            with open("/dev/full", "wb") as full:
                seen = store.read(*words, stdout=full)
            results.check(f"a full device: {words}", (seen[0], seen[2]) == (2, b"write fault\n"), str(seen))
            source, sink = os.pipe()
            os.close(source)
            seen = store.read(*words, stdout=sink)
            os.close(sink)
            results.check(f"a reader that has left: {words}", (seen[0], seen[2]) == (2, b""), str(seen))
            reading = subprocess.Popen([program.path, "read", store.path, *words], stdout=subprocess.PIPE, stderr=subprocess.PIPE)
            front = os.read(reading.stdout.fileno(), 1_000)
            reading.stdout.close()
            notes, status = reading.stderr.read(), reading.wait(NEVER)
            results.check(f"a reader that leaves: {words}", front and (status, notes) == (2, b""), f"{status} {notes}")
            reading.stderr.close()


def memory(program, results, folder):
    """Each allocation fails in turn."""
    sent = [dated(day, b"%d" % n) for day in DAYS for n in range(4)] + [dated(DAYS[2], b"a\nb"), POOL[1]]
    store = Store(program, results, added(program, folder / "memory", sent), sent)
    for words in ["--host=h"], ["--partial"], ["--last=3"], *(["--as=" + form, "--not-message=2"] for form in FORMS[1:]), ["--as=json", "--last=5", "--host-like=*"]:
        each_allocation(program, results, f"read {' '.join(words)}", ["read", store.path, *words])


def usage(program, results, folder):
    """Words that are none: of conditions as `select` has it, and of the other options."""
    store = str(put_folder(folder / "usage", {}))
    for name, words, _, status, _, notes in ON_INPUT:
        if words[0] == "select" and status == 2:
            seen = program.run(["read", store, *words[1:]])
            right = seen[2] == notes if notes is not None else seen[2]
            results.check(f"read {' '.join(words[1:])[:80]}: {name}", seen[:2] == (2, b"") and right, str(seen)[:300])
    for words in [["--last"], ["--last="], ["--last=0"], ["--last=00"], ["--last=1000001"], ["--last=-1"], ["--last=1.5"], ["--last=x"], ["--last=+1"],
                  ["--last=1", "--last=1"], ["--last=18446744073709551617"], ["--as"], ["--as="], ["--as=xml"], ["--as=Lines"], ["--as=lines,json"],
                  ["--as=json", "--as=json"], ["--json"], ["--lines"], ["--color"], ["--color="], ["--color=red"], ["--color=Always"],
                  ["--color=never", "--color=never"], ["--partial=yes"], ["--partial", "--partial"], ["--quiet"], ["--framing=lf"], [store], ["--top=1"]]:
        seen = program.run(["read", store, *words])
        results.check(f"words that are none: read {words}", seen[:2] == (2, b"") and seen[2], str(seen))
    for words in ["read"], ["read", "--last=1"], ["read", "--as=lines"]:
        seen = program.run(words)
        results.check(f"no store: {words}", seen[:2] == (2, b"") and seen[2], str(seen))
    for path in store, str(folder / "missing"):
        plain = program.run(["read", path])
        results.check(f"no store is told: {Path(path).name}", plain[:2] == (2, b"") and path.encode() in plain[2], str(plain))
        for words in ["--last=1"], ["--as=json"], ["--host=h"]:
            results.same(f"no store: {Path(path).name}, {words}", program.run(["read", path, *words]), plain)


def reading(program, trial, results):
    with tempfile.TemporaryDirectory() as path:
        folder = Path(path)
        rounds(program, trial, results, folder)
        edges(program, results, folder)
        long_ones(program, results, folder)
        many(program, results, folder)
        ago(program, results, folder)
        colors(program, results, folder)
        damaged(program, results, folder)
        partial(program, results, folder)
        devices(program, results, folder)
        memory(program, results, folder)
        usage(program, results, folder)

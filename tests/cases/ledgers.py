"""The ledger of a store: what each command writes into it, its chain, seals, and what `verify` says of it; each call that writes
it fails or is the last of the process, and two processes write into it at once."""
import fcntl
import shutil
import subprocess
import tempfile
import threading
import time
from pathlib import Path
from random import Random

from hostile.stores import room
from lib.ledger import NOTHING, continued, is_right, listed, lines_of, root_of, sealed, segments_in
from lib.reference import archive_text, framed
from lib.server import SOON, Server, any_port, until
from lib.store_format import segment_name
from lib.stores import put_folder, records

DAY = b"<13>1 2026-11-%02dT%02d:00:00.000000Z h a - - - %d"


def of_day(day, first, count):
    """So many records of a day in November 2026."""
    return [DAY % (day, n % 24, n) for n in range(first, first + count)]


def whats(lines):
    return [line.split(b" ")[2] for line in lines]


class Ledgers:
    """Commands on one store, whose ledger is read after each."""

    def __init__(self, program, results, store):
        self.program, self.results, self.store = program, results, Path(store)

    def lines(self):
        return lines_of((self.store / "ledger").read_bytes())[0]

    def run(self, *words, octets=b"", **streams):
        return self.program.run([words[0], str(self.store), *words[1:]], octets, **streams)

    def add(self, sent):
        self.results.same("add", self.run("add", octets=archive_text(sent)), (0, b"", b""))

    def is_listed(self, name):
        """The ledger lists the segments that there are, and `verify` finds nothing."""
        self.results.same(f"{name}: the ledger", is_right(self.store), "")
        self.results.same(f"{name}: verify", self.run("verify"), (0, b"", b""))

    def finds(self, name, *lines, status=1, words=()):
        """`verify` finds these lines."""
        self.results.same(name, self.run("verify", *words), (status, b"".join(line + b"\n" for line in lines), b""))


def lives(ledgers):
    """A store is filled, compacted, sealed, and some of it expires."""
    results = ledgers.results
    for part in range(10):
        ledgers.add(of_day(20, 100 * part, 40))
    ledgers.add(of_day(21, 0, 30) + of_day(22, 0, 30))
    ledgers.is_listed("added")
    results.same("each segment has a line", whats(ledgers.lines()), [b"add"] * 12)
    results.same("compact", ledgers.run("compact"), (0, b"", b""))
    ledgers.is_listed("compacted")
    results.same("a join has its line, and then those that go", whats(ledgers.lines())[12:], [b"join"] + [b"gone"] * 10)
    joined = ledgers.lines()[12]
    number = joined.split(b" ")[0]
    results.check("they name the line of the join", all(b" joined " + number + b" " in line for line in ledgers.lines()[13:]))
    first = seals(ledgers)
    late(ledgers, first)
    return first


def seals(ledgers):
    """Days that are over are sealed, each as one segment, with its root; gives the line that was printed."""
    results = ledgers.results
    status, output, notes = ledgers.run("seal", "--before", "2026-11-22")
    lines = ledgers.lines()
    results.same("seal prints the last line of the ledger", (status, output, notes), (0, lines[-1] + b"\n", b""))
    found = sealed(lines)
    results.same("two days are sealed", sorted(name[:10] for name in found), [b"2026-11-20", b"2026-11-21"])
    for name, root in found.items():
        results.same(f"the root of {name[:10].decode()}", root, root_of((ledgers.store / name.decode()).read_bytes()))
        told = ledgers.program.run(["root"], (ledgers.store / name.decode()).read_bytes())[1].split()
        results.same("`root` has the same", told[1], root)
    ledgers.is_listed("sealed")
    again = ledgers.run("seal", "--before", "2026-11-22")
    results.same("sealed days are not sealed again", again, (0, lines[-1] + b"\n", b""))
    results.same("the ledger is the same", ledgers.lines(), lines)
    ledgers.finds("against the line", status=0, words=("--against", output.strip().decode()))
    other = output.strip().decode()[:-1] + ("0" if output.strip()[-1:] != b"0" else "1")
    ledgers.finds("against another line", b"ledger lacks the line", words=("--against", other))
    for words in ["x"], ["1 2 3"], [""]:
        status, output, notes = ledgers.run("verify", "--against", *words)
        results.check(f"against no line: {words}", status == 2 and not output and notes.startswith(b"error: "), str(notes))
    return lines[-1]


def late(ledgers, first):
    """Records that come late for a sealed day are a segment of their own, sealed by the next run; sealed segments stay."""
    results, before = ledgers.results, sealed(ledgers.lines())
    for part in range(12):
        ledgers.add(of_day(20, 5_000 + 10 * part, 5))
    results.same("compact beside seals", ledgers.run("compact"), (0, b"", b""))
    results.check("sealed segments stay", set(before) <= segments_in(ledgers.store))
    ledgers.is_listed("late records")
    status, output, _ = ledgers.run("seal", "--before", "2026-11-22T00:00:00Z")
    lines = ledgers.lines()
    results.same("they are sealed", (status, output), (0, lines[-1] + b"\n"))
    results.same("one more seal", len(sealed(lines)), len(before) + 1)
    results.check("sealed segments stay as they are", before.items() <= sealed(lines).items())
    ledgers.finds("the first line is still there", status=0, words=("--against", first.decode()))
    ledgers.is_listed("sealed late")


def expires(ledgers, first):
    """What expires has its line before it goes, and seals with it."""
    results, before = ledgers.results, len(ledgers.lines())
    dry = ledgers.run("expire", "--before", "2026-11-21", "--dry-run")
    results.same("a dry run writes no line", len(ledgers.lines()), before)
    results.same("expire", ledgers.run("expire", "--before", "2026-11-21"), dry)
    more = ledgers.lines()[before:]
    results.check("gone lines", len(more) > 1 and all(b" gone 2026-11-20." in line and b" expired " in line for line in more), str(more))
    ledgers.is_listed("expired")
    ledgers.finds("the chain goes on", status=0, words=("--against", first.decode()))


def is_seen(ledgers):
    """A segment that was removed, renamed, packed or planted is seen, and a ledger that was changed at any octet."""
    store = ledgers.store
    name = sorted(segments_in(store))[0].decode()
    octets = (store / name).read_bytes()
    (store / name).unlink()
    ledgers.finds("a segment was removed", name.encode() + b" missing")
    (store / f"{name}.zst").write_bytes(octets)
    ledgers.finds("a segment was packed", name.encode() + b" missing", name.encode() + b".zst foreign")
    (store / f"{name}.zst").unlink()
    (store / name).write_bytes(octets)
    (store / f"damaged.{name}").write_bytes(octets)
    (store / name).unlink()
    lost = [name.encode() + b" missing"] if name.encode() in sealed(ledgers.lines()) else []
    ledgers.finds("a segment was set aside", *lost, status=len(lost))
    (store / f"damaged.{name}").rename(store / name)
    planted = archive_text(of_day(23, 0, 3))
    other = segment_name(b"2026-11-23", planted)
    (store / other.decode()).write_bytes(planted)
    ledgers.finds("a segment was planted", other + b" unlisted")
    (store / other.decode()).unlink()
    (store / "with\x1b[2J and \n").write_bytes(b"")
    ledgers.finds("a name that is no text for a terminal", b"with\\x1b[2J and \\x0a foreign")
    (store / "with\x1b[2J and \n").unlink()
    ledgers.is_listed("as it was")


def is_changed(ledgers):
    """An octet of the ledger that is changed, and lines that are left out, are seen at the line."""
    results, file = ledgers.results, ledgers.store / "ledger"
    octets = file.read_bytes()
    for at in range(0, len(octets), max(37, len(octets) // 40)):
        file.write_bytes(octets[:at] + bytes([octets[at] ^ 1]) + octets[at + 1:])
        _, broken = lines_of(file.read_bytes())
        status, output, notes = ledgers.run("verify")
        right = status == 1 and not notes and (broken is None or output == b"ledger %d\n" % broken)
        results.check(f"octet {at} of the ledger is changed", right, f"{status} {output} {broken}")
    lines = octets.split(b"\n")
    for n in 0, len(lines) // 2:
        file.write_bytes(b"\n".join(lines[:n] + lines[n + 1:]))
        ledgers.finds(f"line {n + 1} is left out", b"ledger %d" % len(b"".join(line + b"\n" for line in lines[:n])))
        status, output, notes = ledgers.run("compact")
        results.same("a ledger that is damaged is told, and nothing is changed", (status, output, notes[:7]), (1, b"", b"ledger "))
    file.write_bytes(b"\n".join(lines[:-2]) + b"\n")
    status, output, _ = ledgers.run("verify", "--against", lines[-2].decode())
    results.check("the last line is left out", status == 1 and b"ledger lacks the line\n" in output, str(output))
    file.write_bytes(octets)
    ledgers.is_listed("as it was")


def is_joined_away(ledgers, line):
    """A sealed segment that was taken away is missing, whatever lines that follow the published one tell of a join."""
    results, store, file = ledgers.results, ledgers.store, ledgers.store / "ledger"
    octets, lines = file.read_bytes(), ledgers.lines()
    name = sorted(sealed(lines))[0]
    count, size, _ = listed(lines)[name]
    old, changed = (store / name.decode()).read_bytes(), archive_text(of_day(20, 0, 7))
    other = segment_name(name[:10], changed)
    file.write_bytes(continued(octets, b"join %s 7 %d" % (other, len(changed)),
                               b"gone %s %d %d joined %d" % (name, count, size, len(lines) + 1)))
    results.same("the lines are chained", lines_of(file.read_bytes())[1], None)
    (store / other.decode()).write_bytes(changed)
    (store / name.decode()).unlink()
    ledgers.finds("a sealed segment is told joined", name + b" missing", words=("--against", line.decode()))
    results.check("the second reader misses it", name.decode() in is_right(store))
    (store / name.decode()).write_bytes(old)
    ledgers.finds("it is there, and told joined", status=0, words=("--against", line.decode()))
    (store / other.decode()).unlink()
    file.write_bytes(octets)
    ledgers.is_listed("as it was")


def is_torn(ledgers):
    """A last line without its end counts for nothing, and the next that writes cuts it off."""
    file = ledgers.store / "ledger"
    whole = file.read_bytes()
    for torn in b"9", b"14 2026-11-30T", whole.split(b"\n")[-2][:-1]:
        file.write_bytes(whole + torn)
        ledgers.finds("a torn line is no fault", status=0)
    ledgers.add(of_day(24, 0, 3))
    ledgers.is_listed("behind a torn line")
    ledgers.results.check("it goes on where the last whole line ended", file.read_bytes().startswith(whole))


def send_for_checkpoint(server, name, part):
    """Sends records of more than 1 MiB, so that a checkpoint comes; those of each part are others."""
    server.send("counted", *(framed("counted", one) for one in records(name, 9_000 * part, 9_000, 800)))


def is_caught_up(program, results, path):
    """A store from before gets its ledger by the first command that writes, and a server leaves that to it."""
    files = {segment_name(b"2026-11-%02d" % day, text): text
             for day in (20, 21) for text in [archive_text(of_day(day, 0, 9))]}
    for words, octets in (["compact"], b""), (["add"], archive_text(of_day(25, 0, 2))), (["seal", "--before", "2026-11-01"], b""):
        ledgers = Ledgers(program, results, put_folder(Path(path) / "before", files))
        ledgers.finds("no ledger, nothing to compare", status=0)
        ledgers.run(*words, octets=octets)
        ledgers.is_listed(f"a store from before, by {words[0]}")
        shutil.rmtree(ledgers.store)
    ledgers = Ledgers(program, results, put_folder(Path(path) / "before", files))
    with Server(program, ledgers.store, *any_port("counted"), *SOON, "--checkpoint", 1) as server:
        send_for_checkpoint(server, "before", 0)
        results.check("a checkpoint is made", until(lambda: len(segments_in(ledgers.store)) > 2))
    results.check("a server makes no ledger beside segments without one", not (ledgers.store / "ledger").exists())
    results.same("verify", ledgers.run("verify"), (0, b"", b""))


def is_beside(program, results, path):
    """A server, additions and compactions write into one ledger."""
    store, answers = Path(path) / "beside", []
    ledgers = Ledgers(program, results, store)
    with Server(program, store, *any_port("counted"), *SOON, "--checkpoint", 1) as server:
        def adds():
            for n in range(12):
                answers.append(program.run(["add", str(store)], archive_text(of_day(20, 10 * n, 4))))
                answers.append(program.run(["compact", str(store)]))
        other = threading.Thread(target=adds)
        other.start()
        for part in range(4):
            server.send("counted", *(framed("counted", one) for one in records("beside", 3_000 * part, 3_000, 800)))
            answers.append(program.run(["verify", str(store)]))
        other.join()
        until(lambda: not is_right(store))
    results.same("all of them are done", [one for one in answers if one != (0, b"", b"")], [])
    ledgers.is_listed("beside each other")
    results.check("a server lists its segments", len(ledgers.lines()) > 12)


def is_killed(program, results, path):
    """A server that is killed leaves segments that are not listed at most, and the next command that writes lists them."""
    store = Path(path) / "killed"
    ledgers = Ledgers(program, results, store)
    for round_ in range(8):
        with Server(program, store, *any_port("counted"), *SOON, "--checkpoint", 1) as server:
            server.send("counted", *(framed("counted", one) for one in records("killed", 3_000 * round_, 1_500 + 300 * round_, 800)))
        status, output, notes = ledgers.run("verify")
        right = status in (0, 1) and not notes and all(line.endswith(b" unlisted") for line in output.splitlines())
        results.check(f"killed {round_} times", right, f"{status} {output} {notes}")
        results.same("compact", ledgers.run("compact"), (0, b"", b""))
        ledgers.is_listed(f"caught up {round_} times")


def is_sealed_whole(ledgers, line):
    """A run of `seal` that comes to its end seals what killed ones left, and the first seal still stands."""
    results = ledgers.results
    status, output, notes = ledgers.run("seal", "--before", "2026-11-13")
    results.check("then all days are sealed", (status, notes) == (0, b""), f"{status} {output} {notes}")
    results.same("each day has a seal", len(sealed(ledgers.lines())), 12)
    results.same("the first seal still stands", ledgers.run("verify", "--against", line), (0, b"", b""))
    ledgers.is_listed("killed while days are sealed")


def kills_sealing(ledgers, line, seconds, random):
    """Some runs of `seal` are killed within so many seconds. How many of them had not ended."""
    kills = 0
    for _ in range(5):
        words = [ledgers.program.path, "seal", str(ledgers.store), "--before", "2026-11-13"]
        with subprocess.Popen(words, stdout=subprocess.DEVNULL) as one:
            time.sleep(random.uniform(0, seconds))
            one.kill()
            kills += one.wait() != 0
        status, output, notes = ledgers.run("verify", "--against", line)
        right = status in (0, 1) and not notes and all(told.endswith(b" unlisted") for told in output.splitlines())
        ledgers.results.check("killed while days are sealed", right, f"{status} {output} {notes}")
    return kills


def is_killed_sealing(program, results, path):
    """A run of `seal` that is killed leaves segments that are not listed at most; what it sealed stays sealed, and the next
    run seals the rest."""
    ledgers, random = Ledgers(program, results, Path(path) / "sealing"), Random(64)
    for part in range(3):
        ledgers.add([one for day in range(1, 13) for one in of_day(day, 100 * part, 3)])
    ledgers.run("seal", "--before", "2026-11-02")
    line, kills = ledgers.lines()[-1].decode(), 0
    for copy in range(12):
        killed = Ledgers(program, results, Path(path) / f"sealing{copy}")
        shutil.copytree(ledgers.store, killed.store)
        begun = time.monotonic()
        is_sealed_whole(killed, line)
        seconds = time.monotonic() - begun
        shutil.rmtree(killed.store)
        shutil.copytree(ledgers.store, killed.store)
        kills += kills_sealing(killed, line, seconds / 2, random)
        is_sealed_whole(killed, line)
    results.check("some runs are killed", kills > 5, str(kills))


def in_turns(seconds, *jobs):
    """Calls each of these again and again, side by side, for so long; gives what each of them gave."""
    finish, given = time.monotonic() + seconds, [[] for _ in jobs]

    def repeat(job, answers):
        while time.monotonic() < finish:
            answers.append(job(len(answers)))

    threads = [threading.Thread(target=repeat, args=pair) for pair in zip(jobs, given)]
    for thread in threads:
        thread.start()
    for thread in threads:
        thread.join()
    return given


def is_shared(program, results, path):
    """Commands that make, join, seal and remove segments at once: each segment is listed once it is there, and none that
    went is; each command ends well; and no look finds what passes."""
    for name, words in [("compact", ["compact"]), ("expire", ["expire", "--before", "2026-11-21"]), ("seal", ["seal", "--before", "2026-11-22"])]:
        ledgers = Ledgers(program, results, Path(path) / f"shared{name}")
        ledgers.add(of_day(20, 0, 1))
        begun = time.monotonic()
        added, changed, looked = in_turns(6, lambda n: ledgers.run("add", octets=archive_text(of_day(20, n, 1) + of_day(21, n, 1))),
                                          lambda n: ledgers.run(*words), lambda n: ledgers.run("verify"))
        results.check(f"add beside {name}", all(one == (0, b"", b"") for one in added), str([one for one in added if one[0]][:2]))
        results.check(f"{name} beside add", all(status == 0 and not notes for status, _, notes in changed), str([one for one in changed if one[0]][:2]))
        results.check(f"verify beside add and {name}", all(one == (0, b"", b"") for one in looked), str([one for one in looked if one[0]][:2]))
        results.same(f"{name} and add in the end", ledgers.run("compact"), (0, b"", b""))
        ledgers.is_listed(f"{name} and add at once, {len(added)} and {len(changed)} times in {time.monotonic() - begun:.0f} s")


def is_refused(program, results, path):
    """A lock that is no file is told by its name, by each command that writes lines."""
    ledgers = Ledgers(program, results, Path(path) / "refused")
    for part in range(9):
        ledgers.add(of_day(20, 100 * part, 2))
    lock = ledgers.store / "lock.ledger"
    lock.unlink()
    lock.mkdir()
    for words in ["compact"], ["seal", "--before", "2026-11-22"], ["expire", "--before", "2026-11-22"]:
        status, _, notes = ledgers.run(*words)
        results.check(f"{words[0]} without its lock", status == 2 and notes.startswith(b"lock.ledger: ") and notes.count(b"lock.ledger") == 1, f"{status} {notes}")
    status, _, notes = ledgers.run("add", octets=archive_text(of_day(21, 0, 2)))
    results.check("add without its lock", status == 2 and b"lock.ledger: " in notes, f"{status} {notes}")
    lock.rmdir()
    results.same("compact with its lock", ledgers.run("compact"), (0, b"", b""))
    ledgers.is_listed("with its lock")


def is_broken_beside_a_server(program, results, path):
    """A server goes on where its ledger is damaged or cannot be locked: it tells so once, and lists what came meanwhile once
    it can. Where the ledger was set aside, the next compaction does."""
    def damage(store):
        (store / "kept").write_bytes((store / "ledger").read_bytes())
        (store / "ledger").write_bytes(b"none\n")

    def put_back(store):
        (store / "ledger").write_bytes((store / "kept").read_bytes())
        (store / "kept").unlink()

    def lock_out(store):
        (store / "lock.ledger").unlink()
        (store / "lock.ledger").mkdir()

    def set_aside(store):
        (store / "kept").unlink()
        (store / "ledger").rename(store / "damaged.ledger")

    broken = b"ledger: damaged at octet 0: new segments are not listed"
    for name, breaks, told, mends in ("a ledger that is put back", damage, broken, put_back), ("a ledger that is set aside", damage, broken, set_aside), \
            ("a lock that is a folder", lock_out, b"lock.ledger: Is a directory (os error 21): new segments are not listed", lambda store: (store / "lock.ledger").rmdir()):
        ledgers = Ledgers(program, results, Path(path) / name)
        ledgers.add(of_day(20, 0, 3))
        breaks(ledgers.store)
        with Server(program, ledgers.store, *any_port("counted"), *SOON, "--checkpoint", 1) as server:
            for part in range(3):
                send_for_checkpoint(server, name, part)
                results.check(f"{name}: checkpoint {part}", until(lambda: len(segments_in(ledgers.store)) > 1 + part))
            results.same(f"{name}: it is told once", server.lines(), [told])
            mends(ledgers.store)
            send_for_checkpoint(server, name, 3)
            again = mends is set_aside or server.until_told(b"ledger: new segments are listed again")
            results.check(f"{name}: it lists again", again, str(server.lines()))
            results.check(f"{name}: it serves", server.process.poll() is None)
        results.same(f"{name}: compact", ledgers.run("compact"), (0, b"", b""))
        ledgers.is_listed(f"{name}: caught up")


def is_kept_from_a_server(program, results, path):
    """A server does not wait for whoever keeps the ledger's lock: its checkpoints and commits go on."""
    store = Path(path) / "kept"
    ledgers = Ledgers(program, results, store)
    ledgers.add(of_day(20, 0, 3))
    with open(store / "lock.ledger", "wb") as lock, Server(program, store, *any_port("counted"), *SOON, "--checkpoint", 1) as server:
        fcntl.flock(lock, fcntl.LOCK_EX)
        begun = time.monotonic()
        send_for_checkpoint(server, "kept", 0)
        results.check("a checkpoint is made", until(lambda: len(segments_in(store)) > 1))
        sent = records("behind", 0, 1, 100)
        server.send("counted", *(framed("counted", one) for one in sent))
        results.check("what comes then is committed", until(lambda: set(sent) <= server.held()))
        results.check("neither waits for the lock", time.monotonic() - begun < 8, f"{time.monotonic() - begun:.1f} s")
        results.same("it is told once", server.lines(), [b"lock.ledger: the lock is held by another process: new segments are not listed"])
        fcntl.flock(lock, fcntl.LOCK_UN)
        send_for_checkpoint(server, "kept", 1)
        results.check("it lists again", server.until_told(b"ledger: new segments are listed again"))
        results.same("the segments of both checkpoints are listed", until(lambda: not is_right(store)), True)


def waits(program, results, path):
    """Whoever writes into the ledger waits for another one that does."""
    ledgers = Ledgers(program, results, Path(path) / "waits")
    ledgers.add(of_day(20, 0, 3))
    with open(ledgers.store / "lock.ledger", "wb") as lock:
        fcntl.flock(lock, fcntl.LOCK_EX)
        timer = threading.Timer(0.5, lambda: fcntl.flock(lock, fcntl.LOCK_UN))
        timer.start()
        ledgers.add(of_day(21, 0, 3))
        timer.join()
    ledgers.is_listed("behind another one")


def ledgers(program, results):
    results.same("the first chain", NOTHING, b"0" * 64)
    with tempfile.TemporaryDirectory(dir=room()) as path:
        one = Ledgers(program, results, Path(path) / "store")
        first = lives(one)
        is_seen(one)
        is_changed(one)
        is_joined_away(one, first)
        is_torn(one)
        expires(one, first)
        is_caught_up(program, results, path)
        is_beside(program, results, path)
        is_killed(program, results, path)
        is_killed_sealing(program, results, path)
        is_shared(program, results, path)
        is_refused(program, results, path)
        is_broken_beside_a_server(program, results, path)
        is_kept_from_a_server(program, results, path)
        waits(program, results, path)

"""`reconcile` and `answer`: stores that differ in all sorts of ways, the program beside a second implementation of both sites,
all of their options, folders that are empty, missing or damaged, full disks, sites that are killed, and sites that are silent."""
import itertools
import os
import subprocess
import tempfile
import threading
import time
from random import Random

from hostile.kills_of_sites import kills
from lib.program import ROOT
from lib.reference import LEAST, archive_text, instant
from lib.results import difference
from lib.site_stores import KINDS, LARGE_KINDS, Stores, apart, beyond_frames, in_turn, records_of, some, undated
from lib.sites import (ALL, ANSWERED, FIRST, WOULD, Answerer, Asker, Site, Wrong, answering, asking, exchange, place_of, reconciled, referee,
                       speaking, told_traffic)

SEED = 42
SIZES = [0, 1, 2, 3, 16, 17, 63, 64, 65, 130, 400, 1_025, 2_000]
PAIRS, LARGE = 26, 4  # rounds of each kind, and of 20,000 records
KILLS = 30
LIMITED = ["sh", "-c", "trap '' XFSZ; ulimit -f 4; exec \"$@\"", "sh"]  # a disk that takes no file of more than 2 KiB
TIMEOUT = 1


class Sites:
    """Stores that meet, and what is checked of them."""

    def __init__(self, program, results, path):
        self.program, self.results, self.stores = program, results, Stores(path)

    def read(self, store):
        return self.program.run(["read", str(store)])

    def holds(self, name, store, records):
        """A store is read as just these records, and nothing of it is damaged."""
        self.results.same(f"{name}: read", self.read(store), (0, archive_text(records), b""))
        self.results.same(f"{name}: verify", self.program.run(["verify", str(store)]), (0, b"", b""))

    def ended(self, name, outcome, asked=0, answered=0):
        seen = outcome.asker, outcome.answerer
        self.results.check(f"{name}: statuses", seen == (asked, answered), f"{seen} for {asked, answered}: {outcome.asked} {outcome.told}"[:600])

    def crossed(self, name, outcome, told=None):
        """What crossed is an exchange, of which the asker told what it carried; gives that."""
        try:
            seen = referee(outcome.requests, outcome.answers)
        except Exception as error:  # the octets are the program's
            self.results.check(f"{name}: what crosses", False, f"{error!r}: {outcome.requests[:300]} {outcome.answers[:300]}")
            return None
        told = told or told_traffic(outcome.asked)
        self.results.check(f"{name}: what the asker tells", told == seen, f"{told or outcome.asked} for {seen}")
        if outcome.told:
            answered = told_traffic(outcome.told, ANSWERED)
            self.results.check(f"{name}: what the answerer tells", answered == seen, f"{outcome.told} for {seen}")
        return seen


# ---------------------------------------------------------------- pairs of stores

def sites_of(tried, random, who, one, other):
    """Two sites of a kind: the program on a store of these records, or one of lib/sites.py. Gives what begins them, what they
    hold then, and what the asker of lib/sites.py carried."""
    short, stores = random.random() < 0.7, tried.stores
    own, their = Site(one, short), Site(other, short)
    asker = Asker(own)
    folders = [stores.of(random, records) if is_program else None for records, is_program in zip((one, other), who)]
    begins = [asking(tried.program, folders[0]) if who[0] else speaking(asker),
              answering(tried.program, folders[1]) if who[1] else speaking(Answerer(their))]
    return begins, folders, (own, their), asker


def meets(tried, random, name, who, one, other):
    """Two sites come to hold the union, and nothing crosses the next time."""
    begins, folders, sites, asker = sites_of(tried, random, who, one, other)
    union = set(one) | set(other)
    for round_ in "the first time", "again":
        label = f"{name}, {round_}"
        outcome = exchange(*begins)
        tried.ended(label, outcome)
        traffic = tried.crossed(label, outcome, None if who[0] else asker.traffic())
        if traffic:
            right = (len(union - set(other)), 0) if round_ == "the first time" else (0, 1)
            seen = traffic.sent, 0 if round_ == "the first time" else traffic.requests
            tried.results.check(f"{label}: what is sent", seen == right, f"{seen} for {right}, {traffic}")
        for folder, site in zip(folders, sites):
            if folder:
                tried.holds(label, folder, union)
            else:
                tried.results.check(f"{label}: what the other holds", site.records() == union)
        asker = Asker(sites[0])
        begins = [begins[0] if who[0] else speaking(asker), begins[1] if who[1] else speaking(Answerer(sites[1]))]
    tried.stores.drop(*filter(None, folders))


WHO = [(True, True), (True, False), (False, True)]  # the program asks and answers, asks, answers


def pairs(tried, seed, count):
    """Random pairs of each kind, in turn by the program alone and beside the other implementation."""
    for n in range(count):
        random = Random(repr(("sites", seed, n)))
        kind, size = KINDS[n % len(KINDS)], random.choice(SIZES)
        one, other = apart(random, some(random, kind, size), random.choice([0, 1, 3, size // 10, size]))
        for who in WHO:
            meets(tried, random, f"pair {n} of {kind.__name__}, {size} records, {who}", who, one, other)


def large_pairs(tried, seed, count):
    """Many records, and long ones."""
    for n in range(count):
        random = Random(repr(("large", seed, n)))
        one, other = apart(random, some(random, in_turn, 20_000), [0, 1, 10, 3_000][n % 4])
        meets(tried, random, f"pair {n} of 20,000", WHO[n % 3], one, other)
    for n, (kind, who) in enumerate(itertools.product(LARGE_KINDS, WHO)):
        random = Random(repr(("long", seed, n)))
        count = 20 if kind is beyond_frames else 150
        one, other = apart(random, some(random, kind, count), random.choice([2, count // 5, count]))
        meets(tried, random, f"{kind.__name__}, {who}", who, one, other)


def much(tried):
    """More than any message may carry crosses to a store without records, and from one."""
    random = Random("much")
    records = {b"<14>1 - h a - - - %d " % n + bytes([97 + n % 26]) * 200_000 for n in range(400)}
    for name, one, other in ("all is put", records, set()), ("all is got", set(), records):
        meets(tried, random, name, (True, True), one, other)


def few_differ(tried):
    """A few records that differ among many cost few requests and little of them crosses."""
    random = Random("few")
    one, other = apart(random, some(random, in_turn, 20_000), 10)
    stores = [tried.stores.of(random, records) for records in (one, other)]
    outcome = exchange(asking(tried.program, stores[0]), answering(tried.program, stores[1]))
    tried.ended("ten of 20,000 differ", outcome)
    crossed, whole = len(outcome.requests) + len(outcome.answers), len(archive_text(one | other))
    tried.results.check("ten of 20,000 differ: what crosses", crossed < whole / 4, f"{crossed} of {whole} octets")
    traffic = tried.crossed("ten of 20,000 differ", outcome)
    tried.results.check("ten of 20,000 differ: requests", traffic and traffic.requests <= 40, str(traffic))
    tried.stores.drop(*stores)


# ---------------------------------------------------------------- options

def times(tried, random):
    """Conditions: the words, and which places are in the range."""
    def at(word):
        return instant(word.encode())

    half, end = "2026-11-25T00:00:00Z", "2026-11-26T08:30:00.250000Z"
    return [
        (["--from", half], lambda place: place[0] >= at(half)),
        (["--to", half], lambda place: LEAST <= place[0] < at(half)),
        (["--from", half, "--to", end], lambda place: at(half) <= place[0] < at(end)),
        (["--to", half, "--undated"], lambda place: place[0] < at(half)),
        (["--from", half, "--undated"], lambda place: place[0] < LEAST or place[0] >= at(half)),
        (["--undated"], lambda place: True),
    ]


def ranges(tried, seed):
    """Only what is in the range of the times comes or goes."""
    for n, (words, is_in) in enumerate(times(tried, Random(seed))):
        random = Random(repr(("range", seed, n)))
        one, other = apart(random, some(random, KINDS[0], 300), 100)
        union = {octets for octets in one | other if is_in(place_of(octets))}
        for who in (True, True), (True, False):
            name = f"{' '.join(words)}, {who}"
            stores = [tried.stores.of(random, records) for records in (one, other)]
            site = Site(other)
            outcome = exchange(asking(tried.program, stores[0], *words),
                               answering(tried.program, stores[1]) if who[1] else speaking(Answerer(site)))
            tried.ended(name, outcome)
            tried.crossed(name, outcome)
            tried.holds(f"{name}: the asker", stores[0], one | union)
            if who[1]:
                tried.holds(f"{name}: the answerer", stores[1], other | union)
            else:
                tried.results.check(f"{name}: the answerer", site.records() == other | union)
            tried.stores.drop(*stores)


# words of both, and what the asker and the answerer hold after: of one, other and both
WAYS = [
    (["--pull"], [], "both", "other"),
    (["--push"], [], "one", "both"),
    (["--pull", "--push"], [], "both", "both"),
    (["--dry-run"], [], "one", "other"),
    (["--dry-run", "--pull"], [], "one", "other"),
    (["--dry-run", "--push"], ["--read-only"], "one", "other"),
    ([], ["--read-only"], "both", "other"),
    (["--pull"], ["--read-only"], "both", "other"),
    (["--push"], ["--read-only"], "one", "other"),
]


def told_of_way(tried, name, outcome, asks, answers, lacks, has_more):
    """The statuses and the lines: what was sent, what would be, or what is not taken."""
    if "--dry-run" in asks:
        seen, pulls, pushes, takes = told_traffic(outcome.asked, WOULD), "--push" not in asks, "--pull" not in asks, not answers
        tried.ended(name, outcome, 0 if takes else 1)
        right = (lacks if pushes and takes else 0, has_more if pulls else 0)
        tried.results.check(f"{name}: told", seen and (seen.sent, seen.got) == right, f"{outcome.asked} for {right}")
        tried.results.check(f"{name}: not taken", takes or b"%d records not taken" % lacks in outcome.asked, str(outcome.asked))
    elif "--read-only" in answers and asks != ["--pull"]:
        tried.ended(name, outcome, 1)
        right = b"%d records not taken" % lacks
        tried.results.check(f"{name}: told", told_traffic(outcome.asked) and right in outcome.asked, f"{outcome.asked} without {right}")
    else:
        tried.ended(name, outcome)
        tried.crossed(name, outcome)


def ways(tried, seed):
    """Only got, only put, neither, and a site that takes nothing."""
    for n, (asks, answers, first, second) in enumerate(WAYS):
        random = Random(repr(("ways", seed, n)))
        one, other = apart(random, some(random, KINDS[n % 2], 500), 60)
        held = {"one": one, "other": other, "both": one | other}
        name = f"reconcile {' '.join(asks)}, answer {' '.join(answers)}"
        stores = [tried.stores.of(random, records) for records in (one, other)]
        outcome = exchange(asking(tried.program, stores[0], *asks), answering(tried.program, stores[1], *answers))
        told_of_way(tried, name, outcome, asks, answers, len(one - other), len(other - one))
        tried.holds(f"{name}: the asker", stores[0], held[first])
        tried.holds(f"{name}: the answerer", stores[1], held[second])
        tried.stores.drop(*stores)
    nothing_to_put(tried)


def nothing_to_put(tried):
    """A site that takes nothing is asked by one that has nothing for it: status 0."""
    random = Random("none")
    records = some(random, undated, 100)
    stores = [tried.stores.of(random, those) for those in (records[:50], records)]
    outcome = exchange(asking(tried.program, stores[0]), answering(tried.program, stores[1], "--read-only"))
    tried.ended("nothing is put to a site that takes nothing", outcome)
    tried.holds("nothing is put to a site that takes nothing", stores[0], records)
    tried.stores.drop(*stores)


def room(tried):
    """More than there is room for is a fault; what came before stays, and nothing else."""
    random = Random("room")
    records = [b"<14>1 - h a - - - %d " % n + b"r" * 100_000 for n in range(60)]
    half = set(records[:30])
    for name, one, other, asks, answers in [
            ("an asker's room", half, set(records), ["--room", 1], []), ("an answerer's room", set(records), half, [], ["--room", 1])]:
        stores = [tried.stores.of(random, those) for those in (one, other)]
        outcome = exchange(asking(tried.program, stores[0], *asks), answering(tried.program, stores[1], *answers))
        tried.results.check(f"{name}: statuses", 2 in (outcome.asker, outcome.answerer) and outcome.asker != 0, str(outcome)[:300])
        for store, before in zip(stores, (one, other)):
            held = records_of(store)
            tried.results.check(f"{name}: what is held", held is not None and before <= held <= set(records))
            taken = len(archive_text((held or set()) - before))
            tried.results.check(f"{name}: what was taken", taken <= 1 << 20, str(taken))
        tried.stores.drop(*stores)


def usage(tried):
    """Words that are wrong: status 2, a line, and nothing is read or written."""
    store = tried.stores.of(Random("usage"), [b"<14>1 - h a - - - x"])
    before = sorted(os.listdir(store))
    for command, words in [("reconcile", []), ("answer", []), ("reconcile", [store, store]), ("reconcile", [store, "--from", "yesterday"]),
                           ("reconcile", [store, "--to", "2026-11-31"]), ("reconcile", [store, "--timeout", "soon"]),
                           ("reconcile", [store, "--room", "-1"]), ("reconcile", [store, "--read-only"]), ("answer", [store, "--pull"]),
                           ("answer", [store, "--from", "2026-11-25"]), ("answer", [store, "--timeout", "0x"])]:
        seen = tried.program.run([command, *map(str, words)], b"syslogbox reconcile 1\nend\n")
        name = f"{command} {' '.join(map(str, words))}"
        tried.results.check(f"{name}: refused", seen[0] == 2 and not seen[1] and seen[2], str(seen))
    tried.results.same("wrong words change nothing", sorted(os.listdir(store)), before)
    tried.stores.drop(store)


# ---------------------------------------------------------------- folders

def folders(tried):
    """An empty folder is a store without records; one that is missing is made or told, and one without a parent is told."""
    random = Random("folders")
    records = set(some(random, KINDS[0], 200))
    for who in "asker", "answerer":
        for kind in "empty", "missing", "without a parent":
            name = f"the {who}'s folder is {kind}"
            full, none = tried.stores.of(random, records), tried.stores.folder()
            if kind == "empty":
                none.mkdir()
            elif kind == "without a parent":
                none = none / "none"
            pair = (none, full) if who == "asker" else (full, none)
            outcome = exchange(asking(tried.program, pair[0]), answering(tried.program, pair[1]))
            if kind == "empty" or kind == "missing" and outcome.asker == 0:
                tried.ended(name, outcome)
                tried.holds(name, none, records)
            else:
                tried.results.check(f"{name}: statuses", outcome.asker == 2 and outcome.answerer == 2, str(outcome)[:500])
                tried.results.check(f"{name}: nothing is made", not none.exists())
            tried.holds(f"{name}: the other", full, records)
            tried.stores.drop(full, none)
    both_empty(tried)


def both_empty(tried):
    stores = [tried.stores.folder() for _ in range(2)]
    for store in stores:
        store.mkdir()
    outcome = exchange(asking(tried.program, stores[0]), answering(tried.program, stores[1]))
    tried.ended("two empty folders", outcome)
    seen = tried.crossed("two empty folders", outcome)
    tried.results.check("two empty folders: what crosses", seen and (seen.sent, seen.got, seen.requests) == (0, 0, 1), str(seen))
    tried.results.check("two empty folders: nothing is written", not any(records_of(store) for store in stores))
    tried.stores.drop(*stores)


def damaged(tried):
    """A store with a damaged file is told by its name, and neither site changes."""
    random = Random("damaged")
    one, other = apart(random, some(random, KINDS[3], 300), 100)
    for who in 0, 1:
        stores = [tried.stores.of(random, records) for records in (one, other)]
        segment = next(path for path in sorted(stores[who].iterdir()) if path.name.endswith(".archive"))
        octets = bytearray(segment.read_bytes())
        octets[-1] ^= 1
        segment.write_bytes(octets)
        before = [sorted(path.name for path in store.iterdir() if not path.name.startswith("lock")) for store in stores]
        outcome = exchange(asking(tried.program, stores[0]), answering(tried.program, stores[1]))
        name = f"a damaged store of the {['asker', 'answerer'][who]}"
        statuses, notes = (outcome.asker, outcome.answerer), (outcome.asked, outcome.told)
        tried.results.check(f"{name}: statuses", statuses[who] in (1, 2) and statuses[1 - who] in (1, 2), str(outcome)[:500])
        tried.results.check(f"{name}: told", segment.name.encode() in notes[who], str(notes[who]))
        after = [sorted(path.name for path in store.iterdir() if not path.name.startswith("lock")) for store in stores]
        tried.results.same(f"{name}: the files", after, before)
        tried.stores.drop(*stores)


def is_full(tried):
    """A disk takes no more: status 2, and both are between what they were and the union."""
    random = Random("full")
    one, other = apart(random, some(random, KINDS[3], 600), 400)
    for who in 0, 1:
        stores = [tried.stores.of(random, records) for records in (one, other)]
        fronts = [LIMITED if n == who else [] for n in range(2)]
        outcome = exchange(asking(tried.program, stores[0], front=fronts[0]), answering(tried.program, stores[1], front=fronts[1]))
        name = f"the disk of the {['asker', 'answerer'][who]} is full"
        tried.results.check(f"{name}: statuses", outcome.asker == 2 and outcome.answerer == 2, str(outcome)[:500])
        tried.results.check(f"{name}: told", b"File too large" in (outcome.asked, outcome.told)[who], str(outcome)[:500])
        for store, before in zip(stores, (one, other)):
            held = records_of(store)
            tried.results.check(f"{name}: what is held", held is not None and before <= held <= one | other)
        meets_again(tried, name, stores, one | other)
        tried.stores.drop(*stores)


def meets_again(tried, name, stores, union):
    tried.ended(f"{name}: the next one", exchange(asking(tried.program, stores[0]), answering(tried.program, stores[1])))
    for store in stores:
        tried.holds(f"{name}: the next one", store, union)


# ---------------------------------------------------------------- silence

def both_ask(tried):
    """Two sites that ask each other at the same time: neither keeps the other waiting for the turn to add."""
    random = Random("both ask")
    ours, theirs = ([b"<14>1 2026-11-%02dT10:00:00.000000Z %b a - - - %d" % (1 + n % 12, host, n) for n in range(1_500)] for host in (b"a", b"b"))
    for turn in range(3):
        one, other = tried.stores.of(random, ours), tried.stores.of(random, theirs)
        seen = {}

        def ask(name, asks, answers):
            seen[name] = reconciled(tried.program, asks, answers, ["--timeout", "20"], ["--timeout", "20"])

        sites = [threading.Thread(target=ask, args=args) for args in (("one", one, other), ("other", other, one))]
        for site in sites:
            site.start()
        for site in sites:
            site.join()
        for name, outcome in seen.items():
            tried.ended(f"both ask, {turn}: {name}", outcome)
        union = set(ours) | set(theirs)
        for store in one, other:
            tried.holds(f"both ask, {turn}", store, union)
        tried.stores.drop(one, other)


def silent(tried):
    """A site that says nothing is waited for as long as was asked: status 2; so is one that takes nothing."""
    store = tried.stores.of(Random("silent"), some(Random("silent"), KINDS[3], 100))
    greeting = {"reconcile": b"syslogbox answer 1\n", "answer": b"syslogbox reconcile 1\n"}
    for command, said in itertools.product(greeting, [0, 5, None]):
        name = f"{command} beside a site that says {said if said is None else f'{said} octets'}".replace("None", "its version")
        begun = time.monotonic()
        words = [tried.program.path, command, str(store), "--timeout", str(TIMEOUT)]
        process = subprocess.Popen(words, stdin=subprocess.PIPE, stdout=subprocess.PIPE, stderr=subprocess.PIPE)
        process.stdin.write(greeting[command][:said])
        process.stdin.flush()
        try:
            status = process.wait(20)
        except subprocess.TimeoutExpired:
            process.kill()
            status = "not ended"
        took = time.monotonic() - begun
        notes = process.stderr.read()
        tried.results.check(f"{name}: status 2", status == 2 and notes, f"{status} {notes}")
        tried.results.check(f"{name}: when", TIMEOUT * 0.9 <= took <= TIMEOUT + 8, f"{took:.1f} s")
        for stream in process.stdin, process.stdout, process.stderr:
            try:
                stream.close()
            except OSError:
                pass
    tried.stores.drop(store)


def dripping(tried):
    """A site whose message drips in, an octet every third of a second, is not waited for much longer than one that says nothing."""
    store = tried.stores.of(Random("dripping"), some(Random("dripping"), KINDS[3], 100))
    said = {"reconcile": b"syslogbox answer 1\nparts 9", "answer": b"syslogbox reconcile 1\nparts 16\nrange - 0  "}
    for command, octets in said.items():
        begun = time.monotonic()
        words = [tried.program.path, command, str(store), "--timeout", str(TIMEOUT)]
        process = subprocess.Popen(words, stdin=subprocess.PIPE, stdout=subprocess.PIPE, stderr=subprocess.PIPE)
        drops = itertools.chain(octets, itertools.repeat(ord("9")))
        while process.poll() is None and time.monotonic() < begun + 30:
            try:
                process.stdin.write(bytes([next(drops)]))
                process.stdin.flush()
            except OSError:
                break
            time.sleep(0.33)
        try:
            status = process.wait(1)
        except subprocess.TimeoutExpired:
            process.kill()
            status = "not ended"
        took, (_, notes) = time.monotonic() - begun, process.communicate()
        tried.results.check(f"{command} beside a site that drips: status 2", status == 2 and b"silent" in notes, f"{status} {notes}")
        tried.results.check(f"{command} beside a site that drips: when", took <= 2 * TIMEOUT + 8, f"{took:.1f} s")
    tried.stores.drop(store)


def gone(tried):
    """A site whose other one has gone, at once or in the middle: status 2, and it is told."""
    store = tried.stores.of(Random("gone"), some(Random("gone"), KINDS[3], 100))
    for command, said in [("reconcile", b""), ("reconcile", b"syslogbox answer 1\n"), ("reconcile", b"syslogbox answer 1\nfailed\n"),
                          ("answer", b""), ("answer", b"syslogbox reconcile 1\n"), ("answer", b"syslogbox reconcile 1\nparts 16\n"),
                          ("reconcile", b"syslogbox answer 2\n"), ("answer", b"syslogbox reconcile 2\nend\n")]:
        seen = tried.program.run([command, str(store)], said)
        tried.results.check(f"{command} beside a site that says {said} and goes", seen[0] == 2 and seen[2], str(seen)[:300])
    seen = tried.program.run(["answer", str(store)], b"syslogbox reconcile 1\nend\n")
    tried.results.check("a site that is asked nothing", seen[:2] == (0, b"syslogbox answer 1\n"), difference(seen[:2], (0, b"syslogbox answer 1\n")))
    tried.stores.drop(store)


def over_two_way(tried):
    """contrib/two-way connects a command of the shell and a program, and ends with the program's status."""
    random = Random("two-way")
    one, other = apart(random, some(random, KINDS[0], 80), 20)
    stores = [tried.stores.of(random, records) for records in (one, other)]
    asks = [tried.program.path, "reconcile", str(stores[0]), "--timeout", "10"]
    answers = f"'{tried.program.path}' answer '{stores[1]}'"
    for name, command, words, right in [("an answerer", answers, asks, 0), ("one that ends at once", "false", asks, 2),
                                        ("one that is not there", "exec /nowhere 2> /dev/null", asks, 2),
                                        ("no program", answers, ["/nowhere"], 127), ("no words", answers, [], 2)]:
        done = subprocess.run([ROOT / "contrib/two-way", command, *words], capture_output=True, timeout=60)
        tried.results.check(f"two-way with {name}", done.returncode == right, str(done)[-500:])
    for store in stores:
        tried.holds("two-way", store, one | other)
    tried.stores.drop(*stores)


def own_sites(tried, seed):
    """The two sites of lib/sites.py agree with each other, and what they say is an exchange."""
    for n in range(40):
        random = Random(repr(("own", seed, n)))
        one, other = apart(random, some(random, random.choice(KINDS), random.choice(SIZES[:9])), random.choice([0, 1, 5, 400]))
        sites = [Site(records, random.random() < 0.5) for records in (one, other)]
        asker = Asker(sites[0], [ALL] if n % 2 else [(FIRST, (LEAST, b"")), ((LEAST, b""), None)])
        outcome = exchange(speaking(asker), speaking(Answerer(sites[1])))
        try:
            seen = referee(outcome.requests, outcome.answers)
        except Wrong as error:
            seen = error
        right = all(site.records() == one | other for site in sites)
        tried.results.check(f"the other implementation, pair {n}", outcome[:2] == (0, 0) and seen == asker.traffic() and right, str(outcome)[:300])


def reconciling(program, results):
    for case in [lambda tried: own_sites(tried, SEED), lambda tried: pairs(tried, SEED, PAIRS), lambda tried: large_pairs(tried, SEED, LARGE),
                 much, few_differ, lambda tried: ranges(tried, SEED), lambda tried: ways(tried, SEED), room, usage, folders, damaged, is_full,
                 both_ask, silent, dripping, gone, over_two_way]:
        with tempfile.TemporaryDirectory() as path:
            case(Sites(program, results, path))
    with tempfile.TemporaryDirectory() as path:
        kills(program, results, path, SEED, KILLS)

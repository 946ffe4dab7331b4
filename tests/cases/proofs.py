"""Proofs that a record is in an archive, or that it is not: an independent maker of them (RFC 9162), examples/confirm.py, and the
commands root, prove and confirm, where the program has them: rows, devices that fail, and random archives."""
import functools
import hashlib
import importlib.util
import re
import resource
import signal
import subprocess
import sys
from random import Random

from hostile.archives import POOL
from lib.faults import each_call
from lib.program import ROOT
from lib.reference import archive_text, read

# the leaves and roots of Certificate Transparency's own test data
LEAVES = [bytes.fromhex(leaf) for leaf in ["", "00", "10", "2021", "3031", "40414243", "5051525354555657",
                                           "606162636465666768696a6b6c6d6e6f"]]
ROOTS = ["e3b0c44298fc1c149afbf4c8996fb92427ae41e4649b934ca495991b7852b855",
         "6e340b9cffb37a989ca544e6bb780a2c78901d3fb33738768511a30617afa01d",
         "fac54203e7cc696cf0dfcb42c92a1d9dbaf70ad9e621f4bd8d98662f00e3c125",
         "aeb6bcfe274b70a14fb067a5e5578264db0fa9b51af5e0ba159158f329e06e77",
         "d37ee418976dd95753c1c73862b9398fa2a2cf9b4ff0fdfe8b30cd95209614b7",
         "4e3bbb1f7b478dcfe71fb631631519a3bca12c9aefca1612bfce4c13a86264d4",
         "76e67dadbcdf1e10e1b74ddc608abd2f98dfb16fbce75277b5232a127f2087ef",
         "ddb89be403809e325750d3d263cd78929c2942b7942a34b77e122c9594a74c8c",
         "5dc9da79a70659a9ad559cb701ded9a2ab9d823aad2f4960cfe370eff4604328"]
EXAMPLE = str(ROOT / "examples/confirm.py")
TREES = 300  # the most leaves of trees all of whose paths are tried
CHANGED, AT_ONCE = 100_000, 1_000  # proofs that are changed, and how many of them `confirm` reads in one run
PERIODS = {"month": 7, "day": 10, "hour": 13}  # how many octets of a time name its period

# an archive of three records, and the hashes of its tree and of that of the first two
RECORDS = [b"<13>1 - h a - - - x", b"<12>1 2024-02-29T23:00:00.000000Z h a - - - z", b"<14>1 2024-03-01T00:00:00.000000Z h a - - - y"]
HASH = b"b2ca812d8b8b106a59147797c1110fef415ed83472feda484e915a67767c692a"
HASH_OF_TWO = b"c4a21e4714a5ffedb92d54bd40784bf01c99de77f555ebe18f055b6f8467e786"
X, Z = (b"a54f2a5923f10eb02db5ff1a1522f153c009b103cb733b67c7942d2fd1b5df21",
        b"2416db0bca0d13c1c979e96f66be4b197a52c2ee76f35ed7cfa4ca12a4f7ae5f")  # the hashes of the first leaf and of the second
Y = b"26ea6b6146b2921a6c2334797ad60424f78ba55bdf654a3a0550ebab538ccd04"
PATH_OF_X, PATH_OF_Z, PATH_OF_Y = b"0 2\n%b\n%b\n" % (Z, Y), b"1 2\n%b\n%b\n" % (X, Y), b"2 1\n%b\n" % HASH_OF_TWO

# entries that are asked for, two of them in another spelling, and their proofs; records before all, between two and behind all
FIRST, FIRST_PROOF = b"19 <13>1 - h a - - - x", b"present " + PATH_OF_X + b"\n"
SECOND, SECOND_PROOF = b"38 <12>1 2024-02-29T23:00:00Z h a - - - z", b"present " + PATH_OF_Z + b"\n"
THIRD, THIRD_PROOF = b"45 <14>1 2024-03-01T01:00:00.0+01:00 h a - - - y", b"present " + PATH_OF_Y + b"\n"
BEFORE, BEFORE_PROOF = b"19 <13>1 - h a - - - a", b"absent\nbehind 19 <13>1 - h a - - - x\n" + PATH_OF_X + b"\n"
BETWEEN, BETWEEN_PROOF = b"19 <13>1 - h a - - - y", (b"absent\nbefore 19 <13>1 - h a - - - x\n" + PATH_OF_X + b"behind 45 "
                                                    + RECORDS[1] + b"\n" + PATH_OF_Z + b"\n")
BEHIND, BEHIND_PROOF = b"38 <12>1 2024-03-02T00:00:00Z h a - - - z", b"absent\nbefore 45 " + RECORDS[2] + b"\n" + PATH_OF_Y + b"\n"

# entries that are asked for, their proofs, and what they show
PROVED = [([], [], b""), ([FIRST], [FIRST_PROOF], b"present\n"), ([SECOND], [SECOND_PROOF], b"present\n"), ([THIRD], [THIRD_PROOF], b"present\n"),
          ([BEFORE], [BEFORE_PROOF], b"absent\n"), ([BETWEEN], [BETWEEN_PROOF], b"absent\n"), ([BEHIND], [BEHIND_PROOF], b"absent\n"),
          ([SECOND, BETWEEN, SECOND], [SECOND_PROOF, BETWEEN_PROOF, SECOND_PROOF], b"present\nabsent\npresent\n")]
# entries, texts that do not show all of them, the lines and the notes
NOT_SHOWN = [
    # the proof of another record, and of another archive
    ([FIRST, FIRST], [SECOND_PROOF, FIRST_PROOF], b"not shown\npresent\n", b""), ([FIRST], [b"absent\n\n"], b"not shown\n", b""),
    # a proof is missing, or cannot be read
    ([FIRST, SECOND], [FIRST_PROOF], b"present\nnot shown\n", b""),
    ([FIRST, BETWEEN, SECOND], [FIRST_PROOF, b"x", BETWEEN_PROOF, SECOND_PROOF], b"present\nnot shown\nnot shown\n", b""),
    # octets follow the last proof
    ([FIRST], [FIRST_PROOF, b"x"], b"present\n", b"trailing 143\n"), ([], [FIRST_PROOF], b"", b"trailing 0\n"),
]
# texts of records that are none, the status and the notes
NO_RECORDS = [(FIRST + b"x", 1, b"records bad-frame 22\n"), (b"3 <1>", 1, b"records bad-entry 0 syntax version 3\n"),
              (FIRST * 1025, 2, b"records too-many\n")]


def split(entries):
    """Where the tree of some entries, more than one, divides them."""
    return 1 << (len(entries) - 1).bit_length() - 1


def tree_hash(entries):
    if len(entries) < 2:
        return hashlib.sha256(b"".join(b"\0" + entry for entry in entries)).digest()
    at = split(entries)
    return hashlib.sha256(b"\1" + tree_hash(entries[:at]) + tree_hash(entries[at:])).digest()


def path_of(entries, index):
    if len(entries) < 2:
        return []
    at = split(entries)
    if index < at:
        return path_of(entries[:at], index) + [tree_hash(entries[at:])]
    return path_of(entries[at:], index - at) + [tree_hash(entries[:at])]


def path_text(entries, index):
    path = path_of(entries, index)
    return b"%d %d\n" % (index, len(path)) + b"".join(part.hex().encode() + b"\n" for part in path)


def order(octets):
    micros = read(octets).micros
    return (micros is not None, micros, octets) if micros is not None else (False, 0, octets)


def proof_of(entries, record):
    """The text of the proof of a record, by docs/PROOF_FORMAT.md."""
    if record in entries:
        return b"present " + path_text(entries, entries.index(record)) + b"\n"
    at = sum(order(entry) < order(record) for entry in entries)
    sides = b"".join(b"%b %d %b\n" % (word, len(entries[n]), entries[n]) + path_text(entries, n)
                     for word, n in ((b"before", at - 1), (b"behind", at)) if 0 <= n < len(entries))
    return b"absent\n" + sides + b"\n"


def counted(records):
    return b"".join(b"%d %b" % (len(record), record) for record in records)


def changed(random, text):
    """A text with one octet changed, left out or put in."""
    at = random.randrange(len(text))
    return text[:at] + random.choice([b"", bytes([text[at] ^ 1 << random.randrange(8)]), text[at:at + 1] * 2]) + text[at + 1:]


def confirmed(command, head, records, text, program):
    """The status, the lines and the notes of `confirm`, or of the example."""
    words = [head[0], head[1], program.folder.file("records", counted(records))]
    if command:
        return program.run(["confirm", *words], text)
    done = subprocess.run([sys.executable, EXAMPLE, *words], input=text, capture_output=True, timeout=60)
    return done.returncode, done.stdout, b""


def every_octet(random, results, program, head, record, text, false):
    """No octet of a proof can be changed so that it shows what is false."""
    shown = []
    for at in range(len(text)):
        wrong = text[:at] + bytes([text[at] ^ 1 << random.randrange(8)]) + text[at + 1:]
        if confirmed(True, head, [record], wrong, program)[1] == false:
            shown.append(at)
    results.same(f"the octets of a proof of {len(text)}", shown, [])


def tree_of(leaves):
    """The hash of each subtree of a list of leaves, by the places of its first leaf and of that behind its last one."""
    @functools.lru_cache(None)
    def of(first, end):
        if end - first < 2:
            return hashlib.sha256(b"".join(b"\0" + leaf for leaf in leaves[first:end])).digest()
        at = first + (1 << (end - first - 1).bit_length() - 1)
        return hashlib.sha256(b"\1" + of(first, at) + of(at, end)).digest()
    return of


def path_in(of, first, end, index):
    """The hashes beside the way from a leaf to the root."""
    path = []
    while end - first > 1:
        at = first + (1 << (end - first - 1).bit_length() - 1)
        beside, first, end = ((at, end), first, at) if index < at else ((first, at), at, end)
        path.append(of(*beside))
    return path[::-1]


def every_tree(program, results):
    """The path of each leaf of each tree that has at most 300 leaves."""
    leaves = sorted((b"<13>1 - h a - - - %d" % n for n in range(TREES)), key=order)
    wrong = []
    for count in range(1, TREES + 1):
        of = tree_of(leaves)
        paths = (path_in(of, 0, count, index) for index in range(count))
        text = b"".join(b"present %d %d\n%b\n" % (index, len(path), b"".join(one.hex().encode() + b"\n" for one in path))
                        for index, path in enumerate(paths))
        name, head = program.folder.file("records", counted(leaves[:count])), [str(count), of(0, count).hex()]
        archive = archive_text(leaves[:count])
        if program.run(["root"], archive)[1] != " ".join(head).encode() + b"\n":
            wrong.append(f"root {count}")
        if program.run(["prove", name], archive) != (0, text, b""):
            wrong.append(f"prove {count}")
        if program.run(["confirm", *head, name], text) != (0, b"present\n" * count, b""):
            wrong.append(f"confirm {count}")
    results.same(f"each path of each tree of at most {TREES} leaves", wrong, [])


def second_reader():
    """The function of examples/confirm.py that says what a proof shows."""
    spec = importlib.util.spec_from_file_location("second_reader", EXAMPLE)
    module = importlib.util.module_from_spec(spec)
    spec.loader.exec_module(module)
    return module.shown


def changed_in_place(random, text, others):
    """A proof that is changed and is one by its grammar: a digit of a hash or of an index, a hash left out, put in or
    exchanged for another, an octet of a neighbour, or the proof of another record."""
    kind = random.randrange(6)
    hashes = list(re.finditer(rb"^[0-9a-f]{64}$", text, re.M))
    if kind < 2 and hashes:
        at = random.choice(hashes).start() + random.randrange(64)
        return text[:at] + random.choice(b"0123456789abcdef".replace(text[at:at + 1], b"").decode()).encode() + text[at + 1:]
    if kind == 2 and len(hashes) > 1:
        one, other = sorted(random.sample(hashes, 2), key=re.Match.start)
        return text[:one.start()] + other[0] + text[one.end():other.start()] + one[0] + text[other.end():]
    heads = list(re.finditer(rb"^(present |)(\d+) (\d+)$", text, re.M))
    if kind == 3 and heads:
        head = random.choice(heads)
        index = max(0, int(head[2]) + random.choice([-2, -1, 1, 2, 1 << random.randrange(64)]))
        return text[:head.start(2)] + b"%d" % index + text[head.end(2):]
    neighbours = list(re.finditer(rb"^(before|behind) (\d+) ", text, re.M))
    if kind == 4 and neighbours:
        one = random.choice(neighbours)
        at = one.end() + random.randrange(int(one[2]))
        return text[:at] + bytes([text[at] ^ 1 << random.randrange(5)]) + text[at + 1:]
    return random.choice(others)


def many_changed(random, program, results):
    """Of many proofs that were changed, each is read as examples/confirm.py reads it, and none shows what is false."""
    shown, different, false = second_reader(), [], []
    for run in range(CHANGED // AT_ONCE):
        entries = sorted(random.sample(POOL, random.randrange(1, len(POOL))), key=order)
        root = tree_hash(entries)
        made = {record: proof_of(entries, record) for record in POOL}
        asked = random.choices(POOL, k=AT_ONCE)
        texts = [changed_in_place(random, made[record], list(made.values())) for record in asked]
        name = program.folder.file("records", counted(asked))
        seen = program.run(["confirm", str(len(entries)), root.hex(), name], b"".join(texts))[1].decode().split("\n")[:-1]
        right = [shown(len(entries), root, record, text, 0)[0] for record, text in zip(asked, texts)]
        different += [f"{run} {n}" for n, (one, other) in enumerate(zip(seen, right)) if one != other]
        different += [f"{run}: {len(seen)} lines"] * (len(seen) != len(right))
        false += [f"{run} {n}" for n, (record, one) in enumerate(zip(asked, seen)) if one == ("absent" if record in entries else "present")]
    results.same(f"{CHANGED} changed proofs, read twice", different, [])
    results.same(f"{CHANGED} changed proofs that show what is false", false, [])


def rooted_digests(random, program, results):
    """The root at the end of each line of `digest --root` is that of the records of its period."""
    for size in [0, 1, 7, len(POOL)]:
        entries = sorted(random.sample(POOL, size), key=order)
        for period, octets in PERIODS.items():
            kept = {}
            for entry in entries:
                time = entry.split(b" ")[1]
                kept.setdefault(b"undated" if time == b"-" else time[:octets], []).append(entry)
            plain = program.run(["digest", "--by", period], archive_text(entries))
            lines = plain[1].split(b"\n")[:-1]
            roots = [tree_hash(entries if line.split(b" ")[0] == b"total" else kept[line.split(b" ")[0]]) for line in lines]
            right = b"".join(b"%b %b\n" % (line, root.hex().encode()) for line, root in zip(lines, roots))
            seen = program.run(["digest", "--by", period, "--root"], archive_text(entries))
            results.same(f"digest --root by {period} of {size} entries", seen, (plain[0], right, plain[2]))


def refused(program, results):
    """What `prove` and `confirm` say of records that are none, and of archives that are none."""
    root = ["1", ROOTS[1]]
    for text, status, line in [(b"x", 1, b"records bad-frame 0\n"), (b"3 <1>", 1, b"records bad-entry 0 syntax version 3\n"),
                               (counted(POOL[:1] * 1025), 2, b"records too-many\n"),
                               (b"1" * (1 << 24) + b"1", 2, b"records too-long\n")]:
        name = program.folder.file("records", text)
        results.same(f"prove: {line}", program.run(["prove", name], b""), (status, b"", line))
        results.same(f"confirm: {line}", program.run(["confirm", *root, name], b""), (status, b"", line))
    nowhere = str(program.folder.path / "nowhere")
    why = f"records no file\n{nowhere}: No such file or directory (os error 2)\n".encode()
    results.same("no records to prove", program.run(["prove", nowhere], b""), (2, b"", why))
    results.same("no records to confirm", program.run(["confirm", *root, nowhere], b""), (2, b"", why))
    name = program.folder.file("records", counted(POOL[:1]))
    results.same("no archive", program.run(["prove", name], b"x"), (1, b"", b"bad-frame 0\n"))
    results.same("no proof", program.run(["confirm", *root, name], b""), (1, b"not shown\n", b""))
    spelled = [b"<14>1 2024-02-29T23:30:00Z h a - - - y", b"<14>1 2024-03-01T00:30:00.0+01:00 h a - - - y"]
    canonical = b"<14>1 2024-02-29T23:30:00.000000Z h a - - - y"
    name = program.folder.file("records", counted(spelled))
    text = proof_of([canonical], canonical) * 2
    results.same("a record in other spellings", program.run(["prove", name], archive_text([canonical])), (0, text, b""))


def tables(program, results):
    """What `root` prints, the proofs of records among three, what they show, and what is no proof and no record."""
    both, three, head = archive_text(RECORDS[:2]), archive_text(RECORDS), ["3", HASH.decode()]
    for text, line in [(b"", b"0 " + ROOTS[0].encode()), (both, b"2 " + HASH_OF_TWO), (three, b"3 " + HASH)]:
        results.same(f"the root: {line}", program.run(["root"], text), (0, line + b"\n", b""))
    results.same("no root of a cut archive", program.run(["root"], both[:40]), (1, b"", b"bad-frame 40\n"))
    for entries, texts, lines in PROVED:
        name, text = program.folder.file("records", b"".join(entries)), b"".join(texts)
        results.same(f"prove: {lines}", program.run(["prove", name], three), (0, text, b""))
        results.same(f"confirm: {lines}", program.run(["confirm", *head, name], text), (0, lines, b""))
    first = program.folder.file("records", FIRST)
    results.same("nothing is in the empty archive", program.run(["prove", first], b""), (0, b"absent\n\n", b""))
    results.same("no proof of a cut archive", program.run(["prove", first], both[:40]), (1, b"", b"bad-frame 40\n"))
    for entries, texts, lines, notes in NOT_SHOWN:
        name = program.folder.file("records", b"".join(entries))
        results.same(f"confirm: {lines} {notes}", program.run(["confirm", *head, name], b"".join(texts)), (1, lines, notes))
    for text, status, notes in NO_RECORDS:
        name = program.folder.file("records", text)
        for words in ["prove", name], ["confirm", *head, name]:
            results.same(f"{words[0]}: {notes}", program.run(words, both), (status, b"", notes))


def devices(program, results):
    """Each read and each write of `root`, `prove` and `confirm` fails in turn, and an output takes so many octets and no more."""
    both, three, head = archive_text(RECORDS[:2]), archive_text(RECORDS), ["3", HASH.decode()]
    name = program.folder.file("records", FIRST)
    for words, octets, inputs, room, front in [(["root"], both, [0], 5, b"2 c4a"), (["prove", name], three, [0, 3], 9, b"present 0"),
                                               (["confirm", *head, name], FIRST_PROOF, [0, 3], 3, b"pre")]:
        each_call(program, results, words[0], words, octets, inputs)
        with open(program.folder.path / "output", "w+b") as output:
            seen = program.run(words, octets, stdout=output, preexec_fn=functools.partial(within, room))
            output.seek(0)
            results.same(f"{words[0]}: an output of {room} octets", (*seen[::2], output.read()), (2, b"write fault\n", front))


def within(room):
    """Lets a process write files of so many octets; a write that goes beyond fails."""
    signal.signal(signal.SIGXFSZ, signal.SIG_IGN)
    resource.setrlimit(resource.RLIMIT_FSIZE, (room, room))


def proofs(program, results):
    for count, root in enumerate(ROOTS):
        results.check(f"the root of {count} leaves", tree_hash(LEAVES[:count]).hex() == root)
    commands = {line.split()[0] for line in program.run(["help"])[2].splitlines() if line.startswith(b"  ")}
    there = commands >= {b"prove", b"confirm"}
    results.check("the program has root", b"root" in commands, str(commands))
    if not there:
        results.skip("prove and confirm", "the program has no such commands")
    random = Random(9162)
    for size in [0, 1, 2, 3, 4, 5, 7, 8, 9, 16, 17, 31, len(POOL) - 1]:
        entries = sorted(random.sample(POOL, size), key=order)
        head = str(size), tree_hash(entries).hex()
        made = {record: proof_of(entries, record) for record in POOL}
        asked = random.choices(POOL, k=800)
        text = b"".join(made[record] for record in asked)
        right = b"".join(b"present\n" if record in entries else b"absent\n" for record in asked)
        archive = archive_text(entries)
        results.same(f"the root of {size} entries", program.run(["root"], archive), (0, f"{head[0]} {head[1]}\n".encode(), b""))
        if there:
            name = program.folder.file("records", counted(asked))
            results.same(f"proofs among {size} entries", program.run(["prove", name], archive), (0, text, b""))
        for command in [False, True][:1 + there]:
            results.same(f"proofs among {size} entries, confirmed", confirmed(command, head, asked, text, program), (0, right, b""))
            other = head[0], hashlib.sha256(head[1].encode()).hexdigest()
            seen = confirmed(command, other, asked, text, program)
            results.same("proofs with another root", seen, (1, b"not shown\n" * len(asked), b""))
        for record in random.sample(POOL, 12):
            wrong = changed(random, made[record])
            false = b"absent\n" if record in entries else b"present\n"
            for command in [False, True][:1 + there]:
                seen = confirmed(command, head, [record], wrong, program)
                results.check("a proof that was changed shows nothing that is false", seen[1] != false, f"{wrong} {seen}")
        if there and size == 17:
            for record, false in [(entries[5], b"absent\n"), (next(it for it in POOL if it not in entries), b"present\n")]:
                every_octet(random, results, program, head, record, made[record], false)
    if there:
        tables(program, results)
        devices(program, results)
        refused(program, results)
        every_tree(program, results)
        many_changed(random, program, results)
        rooted_digests(random, program, results)

"""Tries wrong bodies of functions: the prover must refuse each for what it means.

The merge gate tries the strongest, in crates/CRATE/must-fail; this tries the others, in mutants/CRATE, of the crates that are
named or of all. It works on copies of the repository, so that nothing in it changes. A mutant passes where the prover refuses a
goal of meaning; it fails where it is refused for a name alone, is still proved, or cannot be judged. Each function is proved by
the contracts of the others, so wrong bodies of several are tried in one check, and a goal of a function tells of the mutant that
changes it; one of which none tells is tried alone. Where answers name what the edit took away, as a goal that has another name
now, their functions are checked once more without these answers.

What is known of a mutant is kept in build/mutants.jsonl, by the mutant's text, the crate's sources without comments, those of the
crates below, the kit and these scripts, so a run that was stopped goes on where it was. The last line is `N refused for a goal, M
for a name alone, K let through, U unreadable`; the last number has all that were not judged: edits that cannot be applied or read,
limits of the prover, crates that are not proved as they stand, and what a run that was stopped left. The status is 0 exactly where
all are refused for a goal.
"""
import argparse
import os
import re
import shutil
import signal
import subprocess
import tempfile
import threading
from collections import Counter
from concurrent.futures import ThreadPoolExecutor
from pathlib import Path

from lib.program import ROOT
from mutants.answers import Lessened
from mutants.journal import Journal, checksum, sources
from mutants.mutant import Mutant, Unfit
from mutants.verdict import BAD, NAME, PROVED, REFUSED, UNKNOWN, function_of, judged, missing, refused_together

GOAL = re.compile(r"^pub (\S+)\s*:", re.MULTILINE)
AGAIN = 3  # so often answers are dropped, each time those that name what is not there
TOGETHER = 10  # so many mutants, of other functions each, are tried in one check at most


def below(root):
    """The crates that each crate stands on, by name, the repository's own alone."""
    direct = {}
    for line in (root / "crates.txt").read_text().splitlines():
        head, _, used = line.partition(":")
        if head and not head.startswith("#"):
            direct[head.split()[0]] = used.split()

    def all_of(name):
        found = {one for used in direct[name] if used in direct for one in (used, *all_of(used))}
        return sorted(found)

    return {name: all_of(name) for name in direct}


def linked(one, other):
    """A second name for what a check replaces and never writes into, a copy of anything else."""
    if one.endswith(".oantt"):
        return os.link(one, other)
    return shutil.copy2(one, other)


def parted(mutants, folder):
    """Groups of mutants that change the bodies of other functions each, with these, for one check; the rest is in none."""
    groups = []
    for mutant in mutants:
        functions = mutant.functions(folder)
        if not functions:
            continue
        fitting = (group for group in groups if len(group) < TOGETHER and not any(functions & others for others in group.values()))
        group = next(fitting, None)
        if group is None:
            groups.append({mutant: functions})
        else:
            group[mutant] = functions
    return [group for group in groups if len(group) > 1]


class Stopped(Exception):
    """The run was stopped."""


class Unknown(Exception):
    """The goals of a function are not known."""


class Room:
    """A copy of the repository in which one crate is checked with its mutants, one after the other."""

    def __init__(self, runs, root, crate, folder):
        self.runs = runs
        self.crate = folder / "crates" / crate
        self.seed = folder / "seed"
        for name in ["crates.txt", "HANDLES"]:
            shutil.copy(root / name, folder / name)
        kept = shutil.ignore_patterns("incremental", "must-fail")
        shutil.copytree(root / "crates", folder / "crates", ignore=kept)
        own = root / "crates" / crate / "out/incremental"
        if own.is_dir():
            shutil.copytree(own, self.crate / "out/incremental", copy_function=shutil.copy2)

    def check(self, *words):
        return self.runs.run(["rt", "check", *words], self.crate)

    def proved(self):
        """Whether the crate is proved as it stands; what was checked is then kept for each mutant to begin with."""
        status, output = self.check()
        if status == 0:
            shutil.copytree(self.crate / "out/incremental", self.seed, copy_function=linked)
        return status == 0, output

    def begin(self):
        shutil.rmtree(self.crate / "out/incremental", ignore_errors=True)
        shutil.copytree(self.seed, self.crate / "out/incremental", copy_function=linked)

    def write(self, texts):
        """Writes files of the crate, by their paths; one without a text is removed."""
        for path, text in texts.items():
            if text is None:
                (self.crate / path).unlink(missing_ok=True)
            else:
                (self.crate / path).write_text(text)

    def tried(self, mutants, answers=None, functions=()):
        """The status and the output of a check with the mutants' texts and, by their paths, those of files of answers: of the
        whole crate, or of these functions alone."""
        texts = {}
        for mutant in mutants:
            texts = mutant.applied(self.crate, texts)
        texts.update(answers or {})
        own = {path: (self.crate / path).read_text() for path in texts}
        self.begin()
        self.write(texts)
        try:
            return self.check("--jobs", "1", *(word for one in functions for word in ("--only", one)))
        finally:
            self.write(own)

    def goals(self, function):
        """The names of the goals of a function of the crate as it stands."""
        self.begin()
        with tempfile.TemporaryDirectory() as folder:
            status, output = self.check("--generated", folder, "--start", function)
            offered = list(Path(folder).rglob("AnswersOffered.antt"))
            return status, [name for path in offered for name in GOAL.findall(path.read_text())], output


class Runs:
    """The checks that run, so that they can be ended."""

    def __init__(self):
        self.alone = threading.Lock()
        self.running = set()
        self.stopped = False

    def run(self, words, folder):
        with self.alone:
            if self.stopped:
                raise Stopped
            one = subprocess.Popen(words, cwd=folder, stdin=subprocess.DEVNULL, stdout=subprocess.PIPE, stderr=subprocess.STDOUT,
                                   text=True, errors="replace", start_new_session=True)
            self.running.add(one)
        output = one.communicate()[0]
        with self.alone:
            self.running.discard(one)
            if self.stopped:
                raise Stopped
        return one.returncode, output

    def stop(self, *_):
        with self.alone:
            self.stopped = True
            for one in self.running:
                if one.poll() is None:
                    os.killpg(one.pid, signal.SIGTERM)  # the session of this check alone


class Trials:
    """The mutants of some crates, and what is known of them."""

    def __init__(self, runs, root):
        self.runs = runs
        self.root = root
        self.alone = threading.Lock()
        self.told = Counter()
        self.journal = Journal(root / "build/mutants.jsonl")
        self.kit = subprocess.run(["rt", "version"], capture_output=True, text=True, check=True).stdout.strip()
        self.rules = checksum(*(path.read_bytes() for path in sorted(Path(__file__).resolve().parent.glob("*.py"))))
        self.below = below(root)

    def stand(self, crate):
        """A sum of what the outcomes of a crate stand on, the mutant apart."""
        crates = self.root / "crates"
        others = [sources(crates / one, ("src", "specs")) for one in self.below[crate]]
        return checksum(self.kit, self.rules, sources(crates / crate), *others)

    def tell(self, mutant, verdict, cause):
        failed = "" if verdict == REFUSED else "FAILED "
        with self.alone:
            self.told[verdict] += 1
            print(f"{failed}{mutant.path.relative_to(self.root)}: {verdict}: {cause[:400]}", flush=True)

    def end(self, count):
        """Prints the last line, on so many mutants; the status is 0 exactly where all were refused for a goal."""
        refused, name, proved = (self.told[verdict] for verdict in (REFUSED, NAME, PROVED))
        unread = count - refused - name - proved
        print(f"{refused} refused for a goal, {name} for a name alone, {proved} let through, {unread} unreadable", flush=True)
        return 0 if refused == count else 1

    def crate(self, crate, mutants):
        """Tries the mutants of a crate that are not known."""
        stand = self.stand(crate)
        left = []
        for mutant in mutants:
            known = self.journal.get(checksum(stand, mutant.text))
            if known:
                self.tell(mutant, *known)
            else:
                left.append(mutant)
        if not left:
            return
        with tempfile.TemporaryDirectory(prefix="mutants-") as folder:
            room = Room(self.runs, self.root, crate, Path(folder))
            proved, output = room.proved()
            if not proved:
                with self.alone:
                    print(f"FAILED {crate} is not proved as it stands: {output[-600:]}", flush=True)
                return
            for group in parted(left, room.crate):
                for mutant, goal in self.together(room, stand, group).items():
                    left.remove(mutant)
                    self.keep(stand, mutant, REFUSED, str(goal))
            for mutant in left:
                self.keep(stand, mutant, *self.one(room, stand, mutant))

    def keep(self, stand, mutant, verdict, cause):
        """Keeps and tells a verdict."""
        if verdict != UNKNOWN:
            self.journal.keep(checksum(stand, mutant.text), [verdict, cause])
        self.tell(mutant, verdict, cause)

    def together(self, room, stand, group):
        """Those of a group's mutants of which one check tells a goal of meaning that it refuses, each with this goal."""
        def base(function):
            return self.goals(room, stand, function)

        try:
            _, output = room.tried(group)
            goals = {mutant: refused_together(mutant, functions, output, base) for mutant, functions in group.items()}
        except (Unfit, Unknown):
            return {}
        return {mutant: goal for mutant, goal in goals.items() if goal}

    def one(self, room, stand, mutant):
        """The verdict on a mutant, and its cause."""
        def base(function):
            return self.goals(room, stand, function)

        try:
            status, output = room.tried([mutant])
            verdict, cause = judged(mutant, status, output, base)
            without = verdict_without(room, mutant, output, base) if verdict == NAME else None
        except Unfit as unfit:
            return BAD, str(unfit)
        except Unknown as unknown:
            return UNKNOWN, str(unknown)
        return without or (verdict, cause)

    def goals(self, room, stand, function):
        """The names of the goals that a function has with its right body."""
        key = checksum(stand, "goals of", function)
        known = self.journal.get(key)
        if known is None:
            status, names, output = room.goals(function)
            if status not in (0, 1):
                raise Unknown(f"the goals of {function} are not known: {output[-400:]}")
            known = self.journal.keep(key, names)
        return known


def verdict_without(room, mutant, output, base):
    """The verdict where answers that name what the edit took away are dropped; None where that tells no more."""
    lessened = Lessened(room.crate)
    for _ in range(AGAIN):
        if not lessened.drop(missing(output)):
            return None
        dropped = {function_of(mutant.crate, path): names for path, names in lessened.dropped.items()}
        status, output = room.tried([mutant], lessened.texts, sorted(dropped))
        if status == 0:
            # these functions are proved: the others decide
            status, output = room.tried([mutant], lessened.texts)
        verdict, cause = judged(mutant, status, output, base, dropped)
        if verdict in (REFUSED, PROVED):
            count = sum(map(len, dropped.values()))
            return verdict, f"{cause}, without {count} answers that name what the edit took away"
        if verdict != NAME:
            return None
    return None


def folders(root, crate, gate):
    """The folders of the mutants of a crate."""
    return [root / "mutants" / crate, *([root / "crates" / crate / "must-fail"] if gate else [])]


def asked(words):
    """What a run is asked for."""
    given = argparse.ArgumentParser(prog="tests/run.py mutants", description=__doc__,
                                    formatter_class=argparse.RawDescriptionHelpFormatter)
    given.add_argument("--jobs", type=int, default=1, metavar="N", help="so many crates side by side (default 1)")
    given.add_argument("--gate", action="store_true", help="try those of must-fail too")
    given.add_argument("--root", type=Path, default=ROOT, metavar="FOLDER", help="a repository (default this one)")
    given.add_argument("crates", nargs="*", metavar="CRATE")
    return given.parse_args(words)


def main(words):
    given, runs = asked(words), Runs()
    root = given.root.resolve()
    crates = given.crates or sorted(folder.name for folder in (root / "mutants").iterdir())
    mutants = {crate: [Mutant(crate, path) for folder in folders(root, crate, given.gate) for path in sorted(folder.glob("*.edit"))]
               for crate in crates}
    none = [crate for crate, found in mutants.items() if not found]
    if none:
        print(f"there are no mutants of {', '.join(none)}", flush=True)
        return 2
    for signalled in signal.SIGINT, signal.SIGTERM:
        signal.signal(signalled, runs.stop)
    trials, stopped = Trials(runs, root), False
    with ThreadPoolExecutor(given.jobs) as pool:
        longest = sorted(mutants.items(), key=lambda one: len(one[1]), reverse=True)
        tasks = [pool.submit(trials.crate, crate, found) for crate, found in longest]
    for task in tasks:
        try:
            task.result()
        except Stopped:
            stopped = True
    if stopped:
        print("FAILED the run was stopped: run it again, and it goes on", flush=True)
    return trials.end(sum(map(len, mutants.values())))

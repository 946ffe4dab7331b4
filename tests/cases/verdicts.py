"""What `make mutants` tells of mutants, by canned answers of the toolchain (tests/lib/canned/rt): a refusal for a goal of meaning
is told from one for a name alone, mutants of two functions are tried together, and a run that was stopped goes on where it was."""
import os
import re
import signal
import subprocess
import sys
import tempfile
import time
from pathlib import Path

from lib.program import HERE, ROOT

SOURCE = "fn f(x: u8) -> u8 {\n    x // kept\n}\n\nfn g(x: u8) -> u8\n    ensures { result ≡ x }\n{\n    x // left\n}\n"
ANSWERS = """use Rattle.low.proofs.f.Goals as goal

pub returns-then-clause-value : goal.returns-then-clause-value
returns-then-clause-value c = refl c.in_then

pub returns-else-clause-value : goal.returns-else-clause-value
returns-else-clause-value c = refl c
"""
PLAIN, BRANCH = "    x + 1 // case {}", "    if x == 0 {{ 1 }} else {{ x }} // case {}"
OLD = "    x // kept"

# mutants of g, each tried in one check with one of f: with `answer`, `body` and `elsewhere`
OTHER = "    x // left"
OTHERS = {
    "beside": "refused: returns-clause-same of low::g (proofs/g/Answers.antt)",
    "clear": "refused: returns-clause-same of low::g (src/lib.rt:8:5)",
    "dim": "FAILED bad edit",
}

# a mutant: its new text, and how its verdict begins
MUTANTS = {
    "answer": (PLAIN, "refused: returns-then-clause-value"),
    "body": (BRANCH, "FAILED a name alone"),
    "elsewhere": (BRANCH, "refused: returns-clause-same of low::g"),
    "goal": (PLAIN, "refused: returns-else-clause-bound of low::f"),
    "hidden": (BRANCH, "refused: returns-else-clause-bound of low::f (src/lib.rt:3:5), without 1 answers"),
    "indented": (PLAIN, "FAILED a name alone"),
    "limit": (PLAIN, "FAILED a limit"),
    "proved": (PLAIN, "FAILED still proved"),
    "renamed": (BRANCH, "FAILED a name alone"),
    "shifted": (BRANCH, "FAILED a name alone"),
    "slow": (PLAIN, "refused: returns-else-clause-bound"),
    "unread": (PLAIN, "FAILED bad edit"),
    "weak": (BRANCH, "FAILED still proved: the crate is proved with it, without 1 answers"),
    "wrapped": (PLAIN, "FAILED a name alone"),
}
RIGHT = {**{name: right for name, (_, right) in MUTANTS.items()}, **OTHERS}
TOLD = "7 refused for a goal, 5 for a name alone, 2 let through, 4 unreadable"


class Repository:
    """A repository of one crate, with its mutants, and the runs of `make mutants` on it."""

    def __init__(self, folder):
        self.root = Path(folder)
        self.log = self.root / "log"
        crate = self.root / "crates/low"
        for path, text in {"crates.txt": "low staticlib:\n", "HANDLES": "Handles allowed: none.\n"}.items():
            (self.root / path).write_text(text)
        for path, text in {"src/lib.rt": SOURCE, "proofs/f/Answers.antt": ANSWERS}.items():
            (crate / path).parent.mkdir(parents=True, exist_ok=True)
            (crate / path).write_text(text)
        (self.root / "mutants/low").mkdir(parents=True)
        for name, (new, _) in MUTANTS.items():
            self.mutant(name, OLD, new.format(name))
        for name in OTHERS:
            self.mutant(name, OTHER, PLAIN.format(name))
        self.mutant("absent", "    y // kept", "    x")

    def mutant(self, name, old, new):
        (self.root / f"mutants/low/{name}.edit").write_text(f"file: src/lib.rt\nold: {old}\nnew: {new}\n")

    def start(self, **environment):
        self.log.write_text("")
        path = f"{HERE / 'canned'}:{os.environ['PATH']}"
        words = [sys.executable, str(ROOT / "tests/run.py"), "mutants", "--root", str(self.root), "low"]
        return subprocess.Popen(words, env={**os.environ, "PATH": path, "CANNED_LOG": str(self.log), **environment},
                                stdout=subprocess.PIPE, stderr=subprocess.STDOUT, text=True)

    def checks(self):
        """The cases of each check that was begun."""
        return [line.partition(" check")[0] for line in self.log.read_text().splitlines()]

    def checked(self):
        """The first case of each check that was begun."""
        return [line.split()[0] for line in self.checks()]

    def until(self, case):
        begun = time.monotonic()
        while case not in self.checked() and time.monotonic() - begun < 30:
            time.sleep(0.01)


def ended(one):
    """The status, the lines and the last line of a run."""
    output = one.communicate(timeout=60)[0]
    lines = output.splitlines()
    return one.returncode, lines, lines[-1] if lines else ""


def stopped(repository, results):
    """A run that is stopped within a check ends, and its check with it; what is known is told in the last line."""
    one = repository.start(CANNED_SLOW="1")
    repository.until("slow")
    begun = time.monotonic()
    one.send_signal(signal.SIGTERM)
    status, lines, last = ended(one)
    results.check("mutants: a run that is stopped ends at once", time.monotonic() - begun < 20, str(lines))
    results.check("mutants: it says that it was stopped", any("the run was stopped" in line for line in lines), str(lines))
    known = re.match(r"6 refused for a goal, 4 for a name alone, 1 let through, 7 unreadable", last)
    results.check("mutants: what is known is its last line", status == 1 and known, last)
    begun = ["none", "answer beside", "body clear", "elsewhere dim", "body", "body", "dim", "elsewhere"]
    results.check("mutants: those of two functions are tried together, then the rest alone", repository.checks()[:8] == begun,
                  str(repository.checks()))


def taken_up(repository, results):
    """Run again it goes on: what was known is told and not tried again."""
    status, lines, last = ended(repository.start())
    again = {"answer", "goal", "hidden", "proved"} & set(repository.checked())
    results.check("mutants: what was known is not tried again", again == set(), str(again))
    results.check("mutants: the rest is", {"slow", "unread", "weak", "wrapped"} <= set(repository.checked()), str(repository.checked()))
    results.check("mutants: the last line", (status, last) == (1, TOLD), f"{status} {last}")
    for name, right in RIGHT.items():
        label = f"mutants/low/{name}.edit: "
        seen = [line.removeprefix("FAILED ").removeprefix(label) for line in lines if f"low/{name}.edit" in line]
        failed = [line.startswith("FAILED ") for line in lines if f"low/{name}.edit" in line]
        told = len(seen) == 1 and seen[0].startswith(right.removeprefix("FAILED ")) and failed == [right.startswith("FAILED ")]
        results.check(f"mutants: the verdict on {name}", told, str(seen))
    status, _, last = ended(repository.start())
    results.check("mutants: a third run tries nothing", (status, last, repository.checked()) == (1, TOLD, []), str(repository.checked()))


def changed(repository, results):
    """What changes is tried again: one mutant by its text, all by the crate's sources. Only where all are refused for a goal
    is the status 0, and the crate must be proved as it stands."""
    for name, right in {**RIGHT, "absent": "FAILED"}.items():
        if right.startswith("FAILED"):
            (repository.root / f"mutants/low/{name}.edit").unlink()
    repository.mutant("goal", OLD, "    x + 2 // case goal")
    status, _, last = ended(repository.start())
    right = (0, "7 refused for a goal, 0 for a name alone, 0 let through, 0 unreadable")
    results.check("mutants: all are refused for a goal", (status, last) == right, f"{status} {last}")
    results.check("mutants: a mutant that changed is tried again", repository.checked() == ["none", "goal"], str(repository.checked()))
    (repository.root / "crates/low/src/lib.rt").write_text(SOURCE + "// more\n")
    status, _, last = ended(repository.start())
    results.check("mutants: a comment changes nothing", (status, last, repository.checked()) == (*right, []), f"{status} {last}")
    (repository.root / "crates/low/src/lib.rt").write_text(SOURCE + "const MORE: u8 = 1;\n")
    status, _, last = ended(repository.start())
    tried = set(repository.checked()) == {"none", "answer", "elsewhere", "goal", "hidden", "slow"}
    results.check("mutants: of other sources all are tried again", (status, last) == right and tried, f"{status} {last}")
    (repository.root / "crates/low/src/lib.rt").write_text(SOURCE + "const MORE: u8 = 1; // case goal\n")
    status, _, last = ended(repository.start())
    right = (1, "0 refused for a goal, 0 for a name alone, 0 let through, 7 unreadable")
    results.check("mutants: a crate that is not proved as it stands", (status, last) == right, f"{status} {last}")


def verdicts(_, results):
    with tempfile.TemporaryDirectory() as folder:
        repository = Repository(folder)
        stopped(repository, results)
        taken_up(repository, results)
        changed(repository, results)

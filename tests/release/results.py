"""What the tests of a release found, and what they share."""
import shutil
import subprocess
from pathlib import Path

ROOT = Path(__file__).resolve().parents[2]


class Results:
    def __init__(self):
        self.passed = 0
        self.failed = 0

    def check(self, name, holds, seen=""):
        if holds:
            self.passed += 1
        else:
            self.failed += 1
            print(f"FAILED {name}: {seen}")

    def skip(self, name, why):
        """Counts neither way."""
        print(f"SKIPPED {name}: {why}")


def clone(to):
    """Copies the repository to a new folder, without what was built."""
    shutil.copytree(ROOT, to, ignore=shutil.ignore_patterns(".git", "build", "out", "__pycache__"), symlinks=True)
    return to


def run(words, **how):
    """The status and the text of one run, its errors among it."""
    done = subprocess.run(words, stdout=subprocess.PIPE, stderr=subprocess.STDOUT, text=True, errors="replace", **how)
    return done.returncode, done.stdout


def lacking(*names):
    """The first of these commands that is not on the path."""
    return next((name for name in names if not shutil.which(name)), None)


def name_sources(folder):
    """Has the release of a clone name the clone's own sources, whichever it was built from."""
    (folder / "release/SOURCES").write_text(run(["sh", "scripts/sources.sh"], cwd=folder)[1])

"""What was checked, and how it came out."""


def difference(seen, right):
    """How what was seen is other than it must be; of an answer (status, output, notes) the first line that differs."""
    if not (isinstance(seen, tuple) and isinstance(right, tuple) and len(seen) == len(right) == 3):
        return f"{seen} for {right}"[:3_000]
    told = f"status {seen[0]} for {right[0]}"
    for name, one, other in zip(("output", "notes"), seen[1:], right[1:]):
        if one is None or one == other:
            continue
        lines, expected = one.split(b"\n"), other.split(b"\n")
        n = next((n for n, pair in enumerate(zip(lines, expected)) if pair[0] != pair[1]), min(len(lines), len(expected)))
        told += f"; {name} of {len(one)} octets for {len(other)}, line {n + 1}: "
        told += " for ".join(repr(some[n][:300]) if n < len(some) else "none" for some in (lines, expected))
    return told


class Results:
    """How many checks passed and failed; each that fails is printed."""

    def __init__(self):
        self.passed = self.failed = 0

    def check(self, name, holds, seen=""):
        self.passed += bool(holds)
        self.failed += not holds
        if not holds:
            print(f"FAILED {name}: {seen}", flush=True)

    def skip(self, name, why):
        """What cannot be tried here is told, and counts neither way."""
        print(f"SKIPPED {name}: {why}", flush=True)

    def same(self, name, seen, right):
        """An answer is what it must be."""
        self.check(name, seen == right, "" if seen == right else difference(seen, right))

    def end(self):
        """Prints the last line; the status is 0 exactly where none failed."""
        print(f"{self.passed} passed, {self.failed} failed")
        return 1 if self.failed else 0

"""Files of answers, without those that name what a mutant took away.

An edit that adds a branch, or takes one away, gives goals other names. The answers to the old ones are then refused for these
names, and the prover says little of what the edit means. Without them it says which of the other goals hold.
"""
import re

ANSWER = re.compile(r"pub (\S+)\s*:\s*goal\.")
OTHER = re.compile(r"(?:pub|abbrev|use) |(\S+)\s*:\s")


def blocks(lines):
    """The answers of a file: the name of each with its first line and that behind its last, counted from 0."""
    begun = []
    for n, line in enumerate(lines):
        if found := ANSWER.match(line):
            begun.append((n, found[1]))
        elif OTHER.match(line):
            begun.append((n, None))
    ends = [n for n, _ in begun[1:]] + [len(lines)]
    return [(name, n, end) for (n, name), end in zip(begun, ends) if name]


class Lessened:
    """The files of answers of a crate's folder that are changed, and the names that were dropped from each function's."""

    def __init__(self, folder):
        self.folder = folder
        self.texts = {}
        self.dropped = {}

    def lines(self, path):
        text = self.texts[path] if path in self.texts else (self.folder / path).read_text()
        return (text or "").splitlines()

    def drop(self, errors):
        """Drops the answers that these lines, (path, number) each, lie in; all of a file for a line in none of them. Whether
        there were any."""
        changed = False
        for path in sorted({path for path, _ in errors}):
            lines = self.lines(path)
            found = blocks(lines)
            at = [number - 1 for one, number in errors if one == path]
            hit = [block for block in found if any(block[1] <= n < block[2] for n in at)]
            if not all(any(first <= n < end for _, first, end in found) for n in at):
                hit = found
            if not hit:
                continue
            left = [line for n, line in enumerate(lines) if not any(first <= n < end for _, first, end in hit)]
            self.texts[path] = "\n".join(left) + "\n" if len(hit) < len(found) else None
            self.dropped.setdefault(path, set()).update(name for name, _, _ in hit)
            changed = True
        return changed

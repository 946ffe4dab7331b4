"""What is known of mutants, by what it stands on, so that a run that was stopped is taken up again."""
import hashlib
import json
import threading


def checksum(*parts):
    found = hashlib.sha256()
    for part in parts:
        octets = part if isinstance(part, bytes) else str(part).encode()
        found.update(b"%d " % len(octets) + octets)
    return found.hexdigest()


def text_of(path):
    """A file without its lines that are comments alone."""
    mark = b"--" if path.suffix == ".antt" else b"//"
    return b"".join(line for line in path.read_bytes().splitlines(keepends=True) if not line.lstrip().startswith(mark))


def sources(folder, parts=("src", "specs", "proofs")):
    """A sum of the files of a crate, their comments apart."""
    paths = sorted(path for part in parts for path in (folder / part).rglob("*") if path.is_file())
    return checksum(*(piece for path in paths for piece in (path.relative_to(folder), text_of(path))))


class Journal:
    """One line of JSON for each thing that is known."""

    def __init__(self, path):
        self.path = path
        self.alone = threading.Lock()
        self.known = {}
        path.parent.mkdir(exist_ok=True)
        if path.exists():
            for line in path.read_text().splitlines():
                try:
                    key, value = json.loads(line)
                except ValueError:
                    continue  # the last line of a run that was killed
                self.known[key] = value

    def get(self, key):
        return self.known.get(key)

    def keep(self, key, value):
        with self.alone:
            self.known[key] = value
            with open(self.path, "a") as lines:
                lines.write(json.dumps([key, value]) + "\n")
        return value

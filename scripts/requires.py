#!/usr/bin/env python3
"""Lists each public call of a crate that has a `requires`. The status is 1 where one of them is not among those that are known."""
import re
import sys
from pathlib import Path

# Calls between crates of this repository, whose callers prove what is required; to be made total.
KNOWN = {"frame_engine: end_line", "frame_engine: feed", "record_choice: LastFrames::push", "session_output: SessionOutput::new",
         "syslog_reading: known_word"}
CRATES = Path(__file__).resolve().parent.parent / "crates"
CONTAINER = re.compile(r"^(?:pub )?(?:unsafe )?(impl|trait)\b(.*)$")
CALL = re.compile(r"^( *)pub (?:unsafe )?fn (\w+)|^( +)(?:unsafe )?fn (\w+)")


def exported(crate):
    """The names that the root of a crate exports."""
    text = re.sub(r"//.*", "", (crate / "src/lib.rt").read_text())
    names = set(re.findall(r"^pub (?:struct|enum|trait|fn|const|type) (\w+)", text, re.M))
    for used in re.findall(r"^pub use ([^;]+);", text, re.M):
        tail = used[used.index("{") + 1:used.rindex("}")] if "{" in used else used.rsplit("::", 1)[-1]
        names |= {name.split(" as ")[-1].strip() for name in tail.split(",") if name.strip()}
    return names


def subject(head):
    """The type or the trait that the head of an `impl` or a `trait` names."""
    head = re.sub(r"^\s*<[^{]*?>\s(?=[A-Z])", "", head)
    return re.findall(r"\w+", re.sub(r"<[^<>]*(?:<[^<>]*>[^<>]*)*>", "", head.split(" for ")[-1]))[0]


def calls(file):
    """Each call of a file: its name, the type or trait that it is of, whether it is `pub` or a trait's, and its contract."""
    lines = [re.sub(r"//.*", "", line) for line in file.read_text().splitlines()]
    container = kind = None
    for at, line in enumerate(lines):
        if found := CONTAINER.match(line):
            kind, container = found[1], subject(found[2])
        elif line.startswith("}"):
            container = kind = None
        elif found := CALL.match(line):
            indent = found[1] if found[2] else found[3]
            ends = (indent + "{", indent + "}")
            contract = []
            for later in lines[at + 1:]:
                if later.startswith(ends) or CALL.match(later) or contract and contract[-1].endswith((" {}", ";")):
                    break
                contract.append(later)
            is_public = bool(found[2]) or kind == "trait"
            yield found[2] or found[4], container, is_public, contract


def main():
    found = set()
    for crate in sorted(path for path in CRATES.iterdir() if (path / "src/lib.rt").exists()):
        names = exported(crate)
        for file in sorted((crate / "src").rglob("*.rt")):
            for name, container, is_public, contract in calls(file):
                is_reached = container in names if container else name in names
                if is_public and is_reached and any(line.split()[:1] == ["requires"] for line in contract):
                    found.add(f"{crate.name}: {container + '::' if container else ''}{name}")
    print(*sorted(found), sep="\n")
    return 1 if found - KNOWN else 0


if __name__ == "__main__":
    sys.exit(main())

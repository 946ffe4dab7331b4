#!/usr/bin/env python3
"""Traces what the documents promise to what shows it, and fails where that is gone.

usage: scripts/promises.py

Reads the pages themselves. Each row of the tables of docs/PROOFS.md and docs/THREATS.md names what backs it, and so does each
point of what is not proved that says it is tested. Of README.md, the table "Where README's promises are shown" in docs/PROOFS.md
quotes words, which have to stand there; each sentence of the paragraphs and lists that promise something has a row. What backs a
row is, by name, a call with its clauses, as `record_store::after_a_crash` (lost, forged), a test of a crate, as
`archive_tests::some_test`, a part of tests/run.py, as part `serving`, a file below tests/, or a target of the Makefile. Prints
what is wrong, and the status is 1 where something is.
"""
import re
import sys
from pathlib import Path

sys.dont_write_bytecode = True
import contracts

ROOT = Path(__file__).resolve().parent.parent
README_TABLE = "Where README's promises are shown"
LISTED = "What is proved"
LIMITS = ("This assumes", "Only parts are proved")  # sentences of README that say what is not promised
# the tables of a page whose rows have to name what backs them: the heads of such tables, and how many rows there are at least
BACKED = {"PROOFS.md": ("Ruled out by", 60), "THREATS.md": ("Backed by", 20)}
CALLS = re.compile(r"`(?:(\w+)::)?(\w+)`(?: \(([a-z_, ]+)\))?")
PARTS = re.compile(r"\bparts? ((?:`\w+`(?:, | and )?)+)")
FILES = re.compile(r"`(tests/[\w/]+\.\w+)`")
TARGETS = re.compile(r"`make ([a-z]+)`")


def plain(text):
    return " ".join(text.split())


def clauses(crate, name):
    """The names of the clauses of a crate's calls of a name, and an empty one if there is such a call."""
    if not crate or not (ROOT / "crates" / crate / "src").is_dir():
        return set()
    found = [item for item in contracts.all_items(crate) if item.name == name and item.kind in ("fn", "law")]
    return {"", *(clause for item in found for clause in item.clauses)} if found else set()


def lost(text, has_calls=True):
    """Whether a text names what backs it, and what of this is not there. A name without a crate is of the crate before it."""
    parts = [part for listed in PARTS.findall(text) for part in re.findall(r"\w+", listed.replace(" and ", " "))]
    files, targets = FILES.findall(text), TARGETS.findall(text)
    calls, crate = [], None
    for found, name, told in CALLS.findall(PARTS.sub("", text)) if has_calls else []:
        crate = found or crate
        calls.append((crate, name, {"", *filter(None, told.split(", "))}))
    makefile = (ROOT / "Makefile").read_text()
    gone = [f"{crate}::{name} ({', '.join(sorted(asked - clauses(crate, name)))})" for crate, name, asked in calls
            if not asked <= clauses(crate, name)]
    gone += [f"part {part}" for part in parts if not (ROOT / f"tests/cases/{part}.py").is_file()]
    gone += [file for file in files if not (ROOT / file).is_file()]
    gone += [f"make {target}" for target in targets if not re.search(rf"^{target}:", makefile, re.MULTILINE)]
    return bool(calls or parts or files or targets), gone


def cells(line):
    return [cell.strip() for cell in re.split(r"(?<!\\)\|", line.strip())[1:-1]]


def tables(text):
    """The tables of a page: the cells of the head, and those of each row."""
    for block in re.findall(r"(?:^\|.*\n)+", text, re.MULTILINE):
        head, _, *rows = block.splitlines()
        yield cells(head), [cells(row) for row in rows]


def section(text, title):
    """What stands below a heading."""
    return re.split(rf"^## {re.escape(title)}$", text, maxsplit=1, flags=re.MULTILINE)[1].split("\n## ")[0]


def sentences(text):
    return [plain(sentence) for sentence in re.split(r"(?<=[.!?])\s+|\n\n|^- ", text, flags=re.MULTILINE) if sentence.strip()]


def backed_rows(name):
    """Faults of the rows of a page's tables that have to name what backs them."""
    head, least = BACKED[name]
    rows = [row for heads, rows in tables((ROOT / "docs" / name).read_text()) if heads[-1] == head for row in rows]
    for row in rows:
        named, gone = lost(row[-1])
        if gone or not named:
            yield f"docs/{name}: {row[0][:60]}..: {', '.join(gone) or 'nothing backs it'}"
    if len(rows) < least:
        yield f"docs/{name} has {len(rows)} such rows, and had at least {least}"


def tested_points(text):
    """Faults of the points of what is not proved that say that they are tested."""
    for point in re.split(r"\n(?=- )", section(text, "Not proved")):
        named, gone = lost(plain(point), has_calls=False)
        is_tested = re.search(r"\b[Tt]est(s|ed)\b", point)
        if gone or is_tested and not named:
            yield f"docs/PROOFS.md: {plain(point)[:60]}..: {', '.join(gone) or 'which part of the tests?'}"


def promises_of_readme(text):
    """The sentences of README that promise something: those above its first heading, and those of what is proved."""
    above = re.sub(r"^(#|!\[).*", "", text.split("\n## ")[0], flags=re.MULTILINE)
    listed = re.sub(r"\n\n[^-].*", "", section(text, LISTED), flags=re.DOTALL)
    return [sentence for sentence in sentences(above) + sentences(listed) if not sentence.startswith(LIMITS)]


def traced(readme, proofs):
    """Faults of the table on README's promises."""
    rows = [row for _, rows in tables(section(proofs, README_TABLE)) for row in rows]
    for words, shown in rows:
        named, gone = lost(shown)
        if plain(words) not in plain(readme):
            yield f"docs/PROOFS.md quotes what README.md does not say: {words}"
        if gone or not named:
            yield f"docs/PROOFS.md, README's promise {words[:60]}..: {', '.join(gone) or 'nothing shows it'}"
    for sentence in promises_of_readme(readme):
        if not any(plain(words) in sentence for words, _ in rows):
            yield f"README.md promises what no row of docs/PROOFS.md traces: {sentence}"


def main():
    if sys.argv[1:]:
        print(__doc__, file=sys.stderr)
        return 2
    readme, proofs = ((ROOT / name).read_text() for name in ("README.md", "docs/PROOFS.md"))
    wrong = [line for name in BACKED for line in backed_rows(name)]
    wrong += [*tested_points(proofs), *traced(readme, proofs)]
    print("\n".join(wrong), end="\n" if wrong else "")
    return 1 if wrong else 0


if __name__ == "__main__":
    sys.exit(main())

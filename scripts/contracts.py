#!/usr/bin/env python3
"""Writes docs/CONTRACTS.md from the sources: of each crate its public items, what each does, and the names of its clauses.

usage: scripts/contracts.py [--check]
       scripts/contracts.py CRATE::ITEM

What an item does is the first sentence of its `///` lines, and what a crate is the first of its `//!` lines. The order and the
groups of the crates are those of crates.txt. With --check nothing is written, and the status is 1 where the page differs. The
last form prints the documentation and the contract of each item of that name, such as `disk::Disk::sync` or `journal::open`.
"""
import itertools
import re
import sys
import textwrap
from collections import namedtuple
from functools import cache
from pathlib import Path

ROOT = Path(__file__).resolve().parent.parent
PAGE = ROOT / "docs/CONTRACTS.md"
COLUMNS = 120

# An item: its kind (of KINDS, or "impl", whose name is that of the trait); the type or trait that it belongs to, or None; its
# name; the first sentence on it; the names of its clauses, "" for one without; the value of a constant, or None; whether it is
# `pub` or of a trait; its lines, up to the body
Item = namedtuple("Item", "kind owner name about clauses value is_public text")
# A crate: its name, what it is, its public items, and the names that it hands on of each other crate
Crate = namedtuple("Crate", "name about items handed_on")

HEAD = re.compile(r"^(pub )?(?:unsafe )?(impl|trait)\b(.*)$")
CALL = re.compile(r'^( *)(?:(pub )|pub\([^)]*\) )?(?:unsafe )?(?:extern "C" )?fn (\w+)')
OTHER = re.compile(r"^pub (struct|enum|const|type) (\w+)(.*)$")
NUMBER = re.compile(r": [iu](?:\d+|size) = (.*);$")
CLAUSE = re.compile(r"^\s*ensures (?:(\w+) )?\{")
KINDS = ["trait", "struct", "enum", "type", "fn", "law", "const"]
TYPES = KINDS[:4]

TOP = """\
# Contracts, crate by crate

`scripts/contracts.py` writes this page from the sources, and `scripts/contracts.py --check` fails where it differs.
[PROOFS.md](PROOFS.md) says what you would lose without a contract, [THEOREMS.md](THEOREMS.md) what the theorems mean.

For each crate: its public items, what each does (the first sentence of its documentation), and the names of the clauses
of its contract. `scripts/contracts.py disk::Disk::sync` prints one contract in full, and any other in the same way.

- A clause without a name is shown as a dot.
- Clauses are made of the definitions in `crates/CRATE/specs`; each file is listed with what it defines.
- A law is a function that does nothing: its contract is a theorem.
- A type that implements a trait of these crates keeps that trait's clauses; those that it adds stand in its own rows.

## At a glance
"""
SILENT = ("Of these it is proved that they have no undefined behaviour, and return if their devices do; what they do is tested, or "
          "seen in their code.")
END = """\
## Not proved

[NOT_PROVED.md](NOT_PROVED.md) lists, crate by crate, what no clause says and what is only tested.

## What is trusted

[NOT_PROVED.md](NOT_PROVED.md#what-is-trusted) names it.
"""


def groups():
    """The groups of crates.txt: the comment above each, and the names of its crates."""
    found = []
    for block in (ROOT / "crates.txt").read_text().split("\n\n"):
        lines = block.splitlines()
        title = " ".join(line.lstrip("# ") for line in lines if line.startswith("#"))
        found.append((title, [line.split(":")[0].split()[0] for line in lines if line and line[0] != "#"]))
    return found


def first_sentence(lines):
    """The first sentence of lines of documentation, with no links to items."""
    paragraph = " ".join(line.strip() for line in "\n".join(lines).split("\n\n")[0].splitlines()).strip()
    paragraph = re.sub(r"\[(`[^`]+`)\](?:\([^)]*\))?", r"\1", paragraph)
    ended = re.match(r"(.*?[.!?])(?:\s+(?=[A-Z`(])|$)", paragraph)
    return (ended[1] if ended else paragraph).rstrip(":;,")


def above(lines, at):
    """The documentation and the attributes right above a line."""
    begin = at
    while begin and lines[begin - 1].lstrip().startswith(("///", "#[")):
        begin -= 1
    return lines[begin:at]


def documentation(lines, at):
    """The first sentence of the documentation above a line."""
    return first_sentence([line.strip()[3:].strip() for line in above(lines, at) if line.lstrip().startswith("///")])


def contract(lines, at, indent):
    """The lines of a contract, up to the body or the next item, and whether the body does nothing."""
    found = []
    for line in lines[at:]:
        is_body = line.startswith((indent + "{", indent + "}"))
        if is_body or found and CALL.match(line):
            return found, line.strip() == "{}"
        found.append(re.sub(r"//.*", "", line))
        if found[-1].rstrip().endswith((" {", " {}", ";")) and "ensures" not in found[-1]:
            return found, found[-1].rstrip().endswith(" {}")
        if found[-1].rstrip().endswith("};"):
            return found, False
    return found, False


def subject(head):
    """The trait, if any, and the type or the trait that the head of an `impl` or a `trait` names."""
    plain = head
    while (shorter := re.sub(r"<[^<>]*>", "", plain)) != plain:
        plain = shorter
    names = [re.findall(r"\w+", part)[-1] for part in re.split(r"\bwhere\b|[{:]", plain)[0].split(" for ") if re.findall(r"\w+", part)]
    return (names[0] if len(names) > 1 else None), (names[-1] if names else None)


def item(lines, at, kind, owner, name, clauses=(), value=None, is_public=True, rest=()):
    """An item whose first line is at a place."""
    return Item(kind, owner, name, documentation(lines, at), clauses, value, is_public, (*above(lines, at), lines[at], *rest))


def items_of(path):
    """The items of a file, whether or not the crate exports them."""
    lines = path.read_text().splitlines()
    kind = owner = of = None
    for at, line in enumerate(lines):
        if found := HEAD.match(line):
            kind = found[2]
            of, owner = subject(found[3] + (" " + lines[at + 1] if not found[3].rstrip().endswith("{") else ""))
            if kind == "trait":
                of, owner = None, re.findall(r"\w+", found[3])[0]
                yield item(lines, at, "trait", None, owner, is_public=bool(found[1]))
            elif of:
                yield item(lines, at, "impl", owner, of)
        elif line.startswith("}"):
            kind = owner = of = None
        elif found := OTHER.match(line):
            value = NUMBER.match(found[3])
            if found[1] != "const" or value:
                yield item(lines, at, found[1], None, found[2], value=value and value[1])
        elif found := CALL.match(line):
            text, is_empty = contract(lines, at, found[1])
            clauses = tuple(clause[1] or "" for clause in map(CLAUSE.match, text) if clause)
            if clauses or of is None:
                call = item(lines, at, "law" if is_empty and clauses else "fn", owner, found[3], clauses,
                            is_public=bool(found[2] or of) or kind == "trait", rest=lines[at + 1:at + len(text)])
                yield call if call.about or not of else call._replace(about=f"As `{of}::{found[3]}` says.")


@cache
def all_items(crate):
    """All items of a crate's sources."""
    return [item for path in sorted((ROOT / "crates" / crate / "src").rglob("*.rt")) for item in items_of(path)]


def exported(crate):
    """What the root of a crate exports, each name with the one that it has outside, and what it hands on of each other crate."""
    text = re.sub(r"//.*", "", (ROOT / "crates" / crate / "src/lib.rt").read_text())
    own = {name: name for name in re.findall(r'^pub (?:struct|enum|trait|(?:extern "C" )?fn|const|type) (\w+)', text, re.M)}
    handed = {}
    modules = set(re.findall(r"^(?:pub )?mod (\w+);", text, re.M))
    for used in re.findall(r"^pub use ([^;]+);", text, re.M):
        source = re.match(r"(?:crate::)?(\w+)", used)[1]
        tail = used[used.index("{") + 1:used.rindex("}")] if "{" in used else used.rsplit("::", 1)[-1]
        names = [name.split() for name in tail.split(",") if name.strip()]
        if source in modules:
            own.update((name[0], name[-1]) for name in names)
        else:
            handed.setdefault(source, []).extend(name[-1] for name in names)
    for module in re.findall(r"^pub mod (\w+);", text, re.M):
        path = ROOT / "crates" / crate / "src" / f"{module}.rt"
        own.update((item.name, item.name) for item in items_of(path) if item.is_public and item.owner is None)
    return own, handed


@cache
def crate_of(name):
    source = ROOT / "crates" / name / "src"
    is_library = (source / "lib.rt").exists()
    lines = (source / ("lib.rt" if is_library else "main.rt")).read_text().splitlines()
    about = first_sentence([line[3:].strip() for line in lines if line.startswith("//!")])
    if not is_library:
        return Crate(name, about, [], {})
    own, handed_on = exported(name)
    found = [item for item in all_items(name) if item.is_public and item.kind != "impl"]
    own.update((item.name, item.name) for item in found if item.name.startswith("syslogbox_proved_"))
    return Crate(name, about, [outside(item, own) for item in found if (item.owner or item.name) in own], handed_on)


def outside(item, names):
    """An item under the name that it has outside of its crate."""
    return item._replace(owner=names[item.owner]) if item.owner else item._replace(name=names[item.name])


def traits_of(crate, name):
    """The traits of this repository that a type implements."""
    ours = own_traits()
    found = [item.name for item in all_items(crate) if item.kind == "impl" and item.owner == name and item.name in ours]
    return list(dict.fromkeys(found))


@cache
def own_traits():
    return {item.name for _, names in groups() for name in names for item in all_items(name) if item.kind == "trait"}


def cell(text):
    """Text as a cell has it: a bar outside of code would end it."""
    return "".join(part if at % 2 else part.replace("|", "\\|") for at, part in enumerate(re.split(r"(`[^`]*`)", text)))


def number(text):
    """The value of a constant as it is told: with commas where it is a number."""
    digits = text.replace("_", "")
    return f"{int(digits):,}" if digits.isdigit() else f"`{text}`"


def full_name(item):
    return f"{item.owner}::{item.name}" if item.owner else item.name


def row(crate, item):
    told = ", ".join(clause or "·" for clause in item.clauses)
    if item.kind == "const":
        told = f"is {number(item.value)}"
    if item.kind in ("struct", "enum"):
        traits = traits_of(crate, item.name)
        told = f"those of {', '.join(f'`{trait}`' for trait in traits)}" if traits else ""
    kind = f"{item.kind} " if item.kind in ("trait", "law") else ""
    return f"| {kind}`{full_name(item)}` | {cell(item.about)} | {told} |"


def rows(crate):
    """The rows of a crate: each type or trait with its calls, then functions, laws and constants."""
    alone = [item for item in crate.items if item.owner is None]
    for item in sorted(alone, key=lambda item: max(KINDS.index(item.kind), KINDS.index("type"))):
        yield row(crate.name, item)
        if item.kind in TYPES:
            yield from (row(crate.name, call) for call in crate.items if call.owner == item.name)


def wrapped(text):
    return textwrap.wrap(text, COLUMNS, break_long_words=False, break_on_hyphens=False)


def listed(text):
    """A text as an item of a list."""
    return textwrap.wrap(text, COLUMNS, subsequent_indent="  ", break_long_words=False, break_on_hyphens=False)


def mutants(name):
    """The folders with wrong bodies of a crate, which the prover has to refuse, and how many each has."""
    for folder in (ROOT / "mutants" / name, ROOT / "crates" / name / "must-fail"):
        count = len(list(folder.glob("*.edit")))
        if count:
            yield f"{count} in `{folder.relative_to(ROOT)}`"


def definitions(name):
    """The files of a crate's specs, each with the first sentence of the comment that it begins with."""
    for path in sorted((ROOT / "crates" / name / "specs").glob("*.antt")):
        lines = path.read_text().splitlines()
        comment = list(itertools.takewhile(lambda line: line.startswith("--"), lines))
        if comment:
            yield f"- `{path.name}`: {first_sentence([line.lstrip('- ') for line in comment])}"


def section(name):
    """The lines on a crate."""
    crate = crate_of(name)
    yield from [f"## {name}", "", *wrapped(crate.about), ""]
    ours = {known for _, names in groups() for known in names}
    handed_on = [f"{len(names)} of `{source}`" for source, names in crate.handed_on.items() if source in ours]
    if handed_on:
        yield from [*wrapped(f"It hands on names of other crates: {', '.join(handed_on)}."), ""]
    table = list(rows(crate))
    if table:
        yield from ["| Item | What it does | Clauses |", "|---|---|---|", *table, ""]
    defined = list(definitions(name))
    if defined:
        yield from [f"The clauses are made of these definitions, in `crates/{name}/specs`:", ""]
        yield from [line for text in defined for line in listed(text)]
        yield ""
    refused = list(mutants(name))
    if refused:
        yield from [*wrapped(f"Wrong bodies that the prover refuses: {', '.join(refused)}."), ""]


def glance(title, names):
    """The list of the crates of a group."""
    yield from ["", *wrapped(f"**{title.rstrip('.')}**"), "", "| Crate | What it is | Items | Clauses |", "|---|---|---|---|"]
    for crate in map(crate_of, names):
        clauses = sum(len(item.clauses) for item in crate.items)
        yield f"| [{crate.name}](#{crate.name}) | {cell(crate.about)} | {len(crate.items) or ''} | {clauses or ''} |"


def without_clauses(names):
    """Of each crate the calls that have no clause."""
    for crate in map(crate_of, names):
        calls = [f"`{full_name(item)}`" for item in crate.items if item.kind == "fn" and not item.clauses]
        if calls:
            yield from listed(f"- `{crate.name}`: {', '.join(calls)}")


def page():
    *libraries, (_, tests) = groups()
    lines = [line for group in libraries for line in glance(*group)] + [""]
    lines += [line for _, names in libraries for name in names for line in section(name)]
    lines += ["## Calls without a clause", "", *wrapped(SILENT), ""]
    lines += [*without_clauses([name for _, names in libraries for name in names]), ""]
    lines += ["## Tests and trials", "", "Nothing but tests calls these crates.", ""]
    lines += [line for name in tests for line in listed(f"- `{name}`: {crate_of(name).about}")]
    return TOP + "\n".join(lines) + "\n\n" + END


def shown(name):
    """The documentation and the contract of each item of a name."""
    crate, _, asked = name.partition("::")
    if not (ROOT / "crates" / crate / "src").is_dir():
        return []
    found = [item for item in crate_of(crate).items + all_items(crate) if item.kind != "impl" and asked in (item.name, full_name(item))]
    return list(dict.fromkeys("\n".join(item.text) for item in found))


def main(words):
    if len(words) == 1 and "::" in words[0]:
        found = shown(words[0])
        print("\n\n".join(found) or f"the sources have no {words[0]}")
        return 0 if found else 1
    if words not in ([], ["--check"]):
        print(__doc__, file=sys.stderr)
        return 2
    made = page()
    if not words:
        PAGE.write_text(made)
    elif PAGE.read_text() != made:
        print(f"{PAGE.relative_to(ROOT)} is not what scripts/contracts.py writes")
        return 1
    return 0


if __name__ == "__main__":
    sys.exit(main(sys.argv[1:]))

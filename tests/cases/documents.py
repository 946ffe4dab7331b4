"""The documents: their links and anchors, the files, targets, commands, calls and clauses that they name, their tours,
their pictures, the figures and the cases of README that a test can hold, and the layout and the references of the manual's
pages; and what the server's unit sets."""
import fnmatch
import json
import os
import re
import shutil
import socket
import subprocess
import sys
from functools import cache
from pathlib import Path
from xml.etree import ElementTree

from lib import reference, tours
from lib.loopback import free_port
from lib.program import ROOT
from lib.reference import archive_text
from peers.records import PLAIN

DOCUMENTS = [path for folder in (".", "docs", "cluster") for path in sorted((ROOT / folder).glob("*.md"))]
TOURS = ["README.md", "docs/COMMANDS.md", "docs/COMING_FROM.md", "docs/RECIPES.md", "docs/SITES.md"]  # those that begin in an empty folder
PAGES = sorted((ROOT / "man").glob("*.[1-8]"))
LINTERS = [["groff", "-ww", "-mandoc", "-Tutf8"], ["mandoc", "-T", "lint", "-W", "warning"]]
README_LINES, COLUMNS, WORDS = 150, 120, 30
PLAIN_PAGES = ["README.md", "docs/OPERATING.md", "docs/AUDITING.md", "docs/RECIPES.md", "docs/SITES.md"]  # whose sentences are short
FENCED = re.compile(r"^```.*?^```$", re.MULTILINE | re.DOTALL)
SPAN = re.compile(r"`([^`]+)`")
LINK = re.compile(r"\[[^\]]*\]\(([^)\s]+)\)")
PATH = re.compile(r"[\w.*-]+(/[\w.*-]+)*/?")
SUFFIXES = (".rt", ".antt", ".py", ".sh", ".md", ".c", ".h", ".json", ".svg", ".jsonl")
MADE = {"build", "out"}  # folders that are there only after a run
PARTS_OF_A_CRATE = {"src", "specs", "proofs", "must-fail"}


def name_of(document):
    return str(document.relative_to(ROOT))


@cache
def prose(document):
    """A document without its blocks of code."""
    text = FENCED.sub("", document.read_text())
    return "\n".join(line for line in text.splitlines() if not line.startswith("    "))


def code(document):
    """The lines of a document's blocks of code."""
    text = document.read_text()
    marked = [line for block in FENCED.findall(text) for line in block.splitlines()]
    return marked + [line for line in text.splitlines() if line.startswith("    ")]


@cache
def files():
    """The names of all files and folders of the repository, below a slash, but what runs have made."""
    names = []
    for folder, folders, inside in os.walk(ROOT):
        folders[:] = [name for name in folders if name not in MADE | {".git"}]
        names += [f"/{(Path(folder) / name).relative_to(ROOT)}" for name in folders + inside]
    return names


def headings(document):
    """The anchors of a document, as they are made of its headings."""
    titles = re.findall(r"^#+ (.*)$", FENCED.sub("", document.read_text()), re.MULTILINE)
    return [re.sub(r"[^\w\- ]", "", title.lower()).replace(" ", "-") for title in titles]


def links(results):
    count = 0
    for document in DOCUMENTS:
        for link in LINK.findall(SPAN.sub("code", prose(document))):
            if "://" in link:
                continue
            count += 1
            name, _, anchor = link.partition("#")
            target = (document.parent / name).resolve() if name else document
            results.check(f"{name_of(document)}: {link} is there", target.exists() and ROOT in target.parents, link)
            if anchor and target.exists():
                results.check(f"{name_of(document)}: {link} has its anchor", anchor in headings(target), headings(target))
    results.check("the documents have links", count > 30, str(count))


def is_path(word):
    """Whether a word looks like the name of a file of the repository; a name that stands for any is `*`."""
    if not PATH.fullmatch(word) or word.split("/")[0] in MADE:
        return False
    first = word.split("/")[0]
    inside = "/" in word and (first in PARTS_OF_A_CRATE or (ROOT / first).is_dir() or (ROOT / "crates" / first).is_dir())
    return inside or (word.endswith(SUFFIXES) and word not in SUFFIXES)


def is_there(word):
    pattern = f"*/{word.rstrip('/')}"
    return any(fnmatch.fnmatchcase(name, pattern) for name in files())


def spans(document):
    return SPAN.findall(prose(document))


def words_of(span):
    """The words of a span, as paths are written: without a dot at the front, and with stars for names of any kind."""
    return [re.sub(r"\b(CRATE|FOLDER|FILE|LIST|OUT)\b", "*", word.removeprefix("./")) for word in span.split()]


def paths(results):
    seen = {word: document for document in DOCUMENTS for span in spans(document) for word in words_of(span) if is_path(word)}
    for word, document in seen.items():
        results.check(f"{name_of(document)}: the file {word} is there", is_there(word))
    results.check("the documents name files", len(seen) > 100, str(len(seen)))


def named(results):
    """Targets of make, parts of tests/run.py, commands and options are there."""
    makefile, tests = (ROOT / "Makefile").read_text(), (ROOT / "tests/run.py").read_text()
    page = (ROOT / "man/syslogbox.1").read_text().replace("\\-", "-")
    commands = set(re.findall(r"^\.It Cm (\w+)", page, re.MULTILINE))
    for document in DOCUMENTS:
        for span in spans(document):
            words = span.split()
            if words[0] == "make" and words[1:] and re.fullmatch("[a-z-]+", words[1]):
                results.check(f"{name_of(document)}: {span}", re.search(rf"^{words[1]}:", makefile, re.MULTILINE))
            if "tests/run.py" in words[:-1]:
                part = words[words.index("tests/run.py") + 1]
                results.check(f"{name_of(document)}: {span}", not part.islower() or re.search(rf"\b{part}\b", tests))
        for line in spans(document) + code(document):
            for command in re.findall(r"\bsyslogbox ([a-z]+)\b", line):
                results.check(f"{name_of(document)}: the command {command} is there", command in commands, line)
    for option in re.findall(r"--([a-z]+(?:-[a-z]+)*)", (ROOT / "docs/COMMANDS.md").read_text()):
        results.check(f"docs/COMMANDS.md: the option --{option} is in the manual", re.search(rf"Fl -{option}\b", page))


@cache
def names_of_the_sources():
    """The words of the sources and their clauses, and the names of crates, mutants and parts of these tests."""
    found = {path.stem for path in (ROOT / "tests/cases").glob("*.py")}
    for path in (ROOT / "crates").glob("*/*/**/*"):
        if path.suffix in (".rt", ".antt") and "out" not in path.parts:
            found.update(re.findall(r"\w+", path.read_text()))
    edits = [*(ROOT / "crates").glob("*/must-fail/*.edit"), *(ROOT / "mutants").glob("*/*")]
    return found | {path.stem for path in edits} | {path.name for path in (ROOT / "crates").iterdir()}


def is_of_the_sources(word):
    """Whether a word is written as names of calls, clauses and definitions are, and not with a prefix for C."""
    return bool("_" in word or re.search("[a-z][A-Z]", word)) and not word.startswith("syslogbox_")


def promised(results):
    """Each call, clause, definition and mutant by which a page on proofs promises something is there."""
    seen = {}
    for name in ("docs/PROOFS.md", "docs/THEOREMS.md", "docs/NOT_PROVED.md", "docs/CONTRACTS.md", "README.md"):
        for span in spans(ROOT / name):
            seen.update({word: name for word in re.findall(r"[A-Za-z]\w*", span) if is_of_the_sources(word)})
    for word, name in seen.items():
        results.check(f"{name}: {word} is there", word in names_of_the_sources())
    results.check("the pages on proofs name calls and clauses", len(seen) > 500, str(len(seen)))


def contracts(results):
    """Each contract that a document prints by its name is there."""
    found = {span.split()[1] for document in DOCUMENTS for span in spans(document) if re.match(r"scripts/contracts\.py [a-z]\w*::", span)}
    for name in found:
        done = subprocess.run([sys.executable, ROOT / "scripts/contracts.py", name], capture_output=True, text=True)
        results.check(f"scripts/contracts.py {name}", done.returncode == 0 and "ensures" in done.stdout, done.stdout + done.stderr)
    results.check("a document prints a contract", len(found) > 0)


def settings(unit):
    """What a unit of systemd sets, the last of each name."""
    lines = unit.read_text().replace("\\\n", " ").splitlines()
    return dict(line.split("=", 1) for line in lines if "=" in line and not line.startswith("#"))


def units(results):
    """The unit of a server bounds its memory, closes connections that are silent for long, and is not started again once the disk
    has failed."""
    found = {unit.name: settings(unit) for unit in sorted((ROOT / "contrib").glob("*.service"))}
    servers = {name: sets for name, sets in found.items() if " serve " in sets["ExecStart"]}
    results.check("contrib has the unit of a server", len(servers) == 1, str(list(found)))
    for name, sets in servers.items():
        prevented = sets.get("RestartPreventExitStatus", "").split()
        results.check(f"{name}: no start after status 2", "2" in prevented, str(prevented))
        most = sets.get("MemoryMax", "")
        results.check(f"{name}: its memory has a bound", re.fullmatch(r"\d+[KMG]?", most), most)
        results.check(f"{name}: silent connections are closed", re.search(r" --idle \d+( |$)", sets["ExecStart"]), sets["ExecStart"])


def laid_out(results, page):
    """groff and mandoc, if they are here, have nothing to say on a manual page."""
    for words in LINTERS:
        if shutil.which(words[0]) is None:
            results.skip(f"{page.name}: what {words[0]} has to say", f"there is no {words[0]}")
            continue
        done = subprocess.run([*words, str(page)], capture_output=True)
        said = done.stderr + (done.stdout if "lint" in words else b"")
        results.check(f"{page.name}: {words[0]} has nothing to say", done.returncode == 0 and not said, said.decode())


def sections_of(page):
    return re.findall(r"^\.S[hs] (.*)$", page.read_text(), re.MULTILINE)


def manual(results):
    """The manual's pages: their layout, and the sections and pages that they refer to."""
    results.check("the manual has pages", len(PAGES) > 1, str(PAGES))
    for page in PAGES:
        laid_out(results, page)
        text = page.read_text().replace("\\-", "-")
        for section in re.findall(r"^\.Sx (.*?)[ .,;:)]*$", text, re.MULTILINE):
            results.check(f"{page.name}: the section {section} is there", section in sections_of(page))
        for section, name, number in re.findall(r'^\.Dq (.*)\nin\n\.Xr (syslogbox[\w-]*) (\d)', text, re.MULTILINE):
            other = ROOT / f"man/{name}.{number}"
            found = other.is_file() and section in sections_of(other)
            results.check(f"{page.name}: {name}({number}) has the section {section}", found)
        seen = re.findall(r"^\.Xr (\S+) (\d)", text.split(".Sh SEE ALSO")[1], re.MULTILINE)
        for other in PAGES:
            listed = (other.stem, other.suffix[1:]) in seen
            results.check(f"{page.name}: {other.name} is in SEE ALSO", listed or other == page, str(seen))
        for name, number in re.findall(r"^\.Xr (syslogbox[\w-]*) (\d)", text, re.MULTILINE):
            results.check(f"{page.name}: the page {name}({number}) is there", (ROOT / f"man/{name}.{number}").is_file())


def widths(results):
    lines = (ROOT / "README.md").read_text().splitlines()
    results.check(f"README.md has at most {README_LINES} lines", len(lines) <= README_LINES, str(len(lines)))
    wide = [n for n, line in enumerate(lines, 1) if len(line) > COLUMNS]
    results.check(f"README.md has no line above {COLUMNS} columns", not wide, str(wide))
    for document in DOCUMENTS:
        wide = [line for line in prose(document).splitlines() if len(line) > COLUMNS and not line.startswith("|")]
        results.check(f"{name_of(document)} has no line above {COLUMNS} columns but rows of tables", not wide, str(wide[:1]))


def sentences(document):
    """The sentences of a document, with a span of code and a link as one word each."""
    text = re.sub(r"\[[^\]]*\]\([^)]*\)", "link", SPAN.sub("code", prose(document)))
    for paragraph in re.split(r"\n\s*\n", text):
        cells = paragraph.split("|") if paragraph.startswith("|") else re.split(r"\n(?=- |\d+\. |#)", paragraph)
        for cell in cells:
            yield from re.split(r"(?<=[.!?])[)\"*]*\s+", " ".join(cell.split()))


def short(results):
    for name in PLAIN_PAGES:
        long = [sentence for sentence in sentences(ROOT / name) if len(sentence.split()) > WORDS]
        results.check(f"{name} has no sentence of more than {WORDS} words", not long, str(long[:3]))


def tables(results):
    """The rows of a table have as many cells as its head."""
    for document in DOCUMENTS:
        lines = SPAN.sub("code", prose(document)).splitlines()
        bad = [row for head, row in zip(lines, lines[1:])
               if head.startswith("|") and row.startswith("|") and head.count("|") != row.count("|")]
        results.check(f"{name_of(document)}: the rows of a table have as many cells as its head", not bad, str(bad[:1]))


def take_tour(program, results, name):
    """Each command of a tour prints what is shown. A server of it listens on a port that is free."""
    port = str(free_port(socket.SOCK_STREAM))
    taken = [(command.replace("5514", port), shown) for command, shown in tours.steps((ROOT / name).read_text())]
    results.check(f"{name} has a tour", len(taken) > 1)
    folder, path = tours.folder_of(program, f"tour of {Path(name).stem}")
    for command, shown in taken:
        status, seen = tours.take(command, folder, path)
        results.check(f"{name} shows what is printed: {command}", seen == shown and (shown or status == 0), f"{status} {seen}")


def is_picture(path):
    try:
        root = ElementTree.parse(path).getroot()
    except ElementTree.ParseError:
        return False
    return root.tag.endswith("}svg") and root.get("viewBox") is not None


def in_a_table(figures, lines):
    """Whether a row has all of the figures, or each is in a row of its own with its name."""
    texts = {name: f"{figure:.2f}" for name, figure in figures.items()}
    return (any(all(text in line for text in texts.values()) for line in lines)
            or all(any(name in line and text in line for line in lines) for name, text in texts.items()))


def pictures(results):
    for path in sorted((ROOT / "docs/pictures").glob("*.svg")):
        results.check(f"{path.name} is a picture", is_picture(path))
    drawn = (ROOT / "docs/pictures/speed.svg").read_text()
    told = "".join((ROOT / "docs" / name).read_text() for name in ("PERFORMANCE.md", "SENDERS.md"))
    rows = [line for line in told.splitlines() if line.startswith("|")]
    for figure in re.findall(r"(?<![\d.])\d\.\d\d(?![\d.])", (ROOT / "README.md").read_text()):
        results.check(f"README.md has the figure {figure} from a table", any(figure in line for line in rows))
    for part in json.loads((ROOT / "bench/figures.json").read_text()).values():
        dated = part["date"] in drawn and part["date"] in told.replace("\n", " ")
        results.check(f"the date of {part['title']} is in the picture and in the text", dated, part["date"])
        for row, figures in part["rows"].items():
            drawn_all = all(f">{figure:.2f}<" in drawn for figure in figures.values())
            results.check(f"{part['title']}, {row}: the figures are drawn: run bench/plot", drawn_all, str(figures))
            results.check(f"{part['title']}, {row}: the figures are in a table", in_a_table(figures, rows), str(figures))


def beside_others(program, results):
    """What README's table says of this program and of sort, by running them."""
    records = [octets for _, octets in PLAIN]
    right = [reference.canonical(reference.read(octets)) for octets in records]
    counted = b"".join(reference.framed("counted", octets) for octets in records)
    lines = b"".join(reference.framed("lf", octets) for octets in records)
    results.check("the records that are sent are 74", len(records) == 74)
    seen = program.run(["convert", "--framing", "counted"], counted)
    results.same("each stays the same record", seen, (0, b"".join(reference.framed("counted", one) for one in right), b""))
    for framing, octets in ("counted", counted), ("lf", lines):
        seen = program.run(["archive", "--framing", framing], octets)
        results.same(f"their archive, {framing}", seen, (0, archive_text(right), b""))
    one = b"<14>1 2024-03-01T00:30:00+01:00 h a - - -\n<14>1 2024-02-29T23:30:00.0Z h a - - -\n"
    kept = subprocess.run(["sort", "-u"], input=one, capture_output=True).stdout.count(b"\n")
    status, archive, _ = program.run(["archive", "--framing", "lf"], one)
    results.check("one record in two spellings", (kept, status, archive.count(b"<14>1 ")) == (2, 0, 1), f"{kept} {archive}")


def documents(program, results):
    links(results)
    paths(results)
    named(results)
    promised(results)
    contracts(results)
    units(results)
    manual(results)
    widths(results)
    short(results)
    tables(results)
    for name in TOURS:
        take_tour(program, results, name)
    pictures(results)
    beside_others(program, results)

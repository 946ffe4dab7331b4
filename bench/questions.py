#!/usr/bin/env python3
"""Measures what questions about records cost: `count` and `select` beside grep, awk, jq, journalctl and lnav, in one run.

usage: bench/questions.py [--records N] [--runs N] [--folder DIR] [--program FILE]

So many records of `corpus.py` without elements (default 200,000) are written into DIR (default build/bench/questions) as an
archive, as lines, and, where systemd-journal-remote is there, as a journal. Each question is put to each tool that is there:

    how many records there are
    how many each host has
    how many have a text in their message that few have

Prints a table of the processor time (user and system, of all processes of a pipeline, the least of several runs that take
turns) as a multiple of that of syslogbox, and of the seconds. A tool whose answer is another than that of syslogbox is told,
and then the status is 1.
"""
import argparse
import calendar
import os
import re
import resource
import shutil
import subprocess
import sys
import time
from collections import Counter
from pathlib import Path

TOP = Path(__file__).resolve().parent.parent
REMOTE = "/lib/systemd/systemd-journal-remote"
RARE = b"certificate valid until checksum"
sys.dont_write_bytecode = True
sys.path.insert(0, str(Path(__file__).resolve().parent))
from corpus import Source
sys.path.insert(0, str(TOP / "tests"))
from lib.reference import counted_frames

HEADER = re.compile(rb"<(\d+)>1 (\S+) (\S+) (\S+) (\S+) (\S+) (?:-|\[.*?\]) ?(.*)", re.S)


# ---------------------------------------------------------------- what is asked

def micros(text):
    """Microseconds since 1970 of a canonical time."""
    return calendar.timegm(time.strptime(text[:19].decode(), "%Y-%m-%dT%H:%M:%S")) * 1_000_000 + int(text[20:26])


def export_of(records):
    """The records in systemd's export format for journals."""
    for text in records:
        priority, at, host, app, proc, _, message = HEADER.fullmatch(text).groups()
        yield (b"__REALTIME_TIMESTAMP=%d\n_HOSTNAME=%b\nSYSLOG_IDENTIFIER=%b\nSYSLOG_PID=%b\nPRIORITY=%d\nSYSLOG_FACILITY=%d\n"
               b"MESSAGE=%b\n\n" % (micros(at), host, app, proc, int(priority) % 8, int(priority) // 8, message))


class Files:
    """The same records as an archive, as lines and as a journal."""

    def __init__(self, folder, program, count):
        self.archive, self.lines, self.journal = folder / "records.archive", folder / "records.log", folder / "records.journal"
        source = Source(count)
        octets = b"".join(source.plain(n) + b"\n" for n in range(count))
        text = subprocess.run([program, "archive", "--framing", "lf"], input=octets, capture_output=True, check=True).stdout
        self.archive.write_bytes(text)
        records = counted_frames(text)[0]
        self.lines.write_bytes(b"".join(one + b"\n" for one in records))
        for old in folder.glob("records*.journal"):  # a journal that is long goes on in another file
            old.unlink()
        if os.path.exists(REMOTE) and shutil.which("journalctl"):
            subprocess.run([REMOTE, "-o", str(self.journal), "-"], input=b"".join(export_of(records)), stderr=subprocess.DEVNULL,
                           check=True)


def number(output):
    """The first number of an answer."""
    return int(re.search(rb"\d+", output).group())


def table(output):
    """The numbers by hosts of an answer that has a number and a host in each line."""
    return Counter({words[-1]: int(words[0]) for line in output.split(b"\n") if len(words := line.split()) > 1})


def table_of_lnav(output):
    """The same of lines that have a host, a comma and a number."""
    return Counter({host: int(count) for line in output.split(b"\n") if line for host, count in [line.split(b",")]})


def questions(program, files):
    """Each question, and how each tool is asked: a command of the shell, and what reads its answer."""
    text, archive, lines = RARE.decode(), files.archive, files.lines
    journal = f"'{files.journal.with_name('records*.journal')}'"
    def lnav(query):
        return f"TERM=dumb lnav -n -q -c ';SELECT {query}' -c ':write-csv-to -' {lines} | tail -n +2"

    yield "records in all", [
        ("syslogbox count", f"{program} count < {archive}", number),
        ("wc -l, of lines", f"wc -l < {lines}", number),
        ("journalctl, wc -l", f"journalctl -q --file {journal} -o cat --output-fields=PRIORITY | wc -l", number),
        ("lnav, SQL", lnav("count(*) FROM syslog_log"), number)]
    yield "records of each host", [
        ("syslogbox count --by host", f"{program} count --by host < {archive}", table),
        ("awk (mawk), of lines", f"mawk '{{n[$3]++}} END{{for (h in n) print n[h], h}}' {lines}", table),
        ("gawk, of lines", f"LC_ALL=C gawk '{{n[$3]++}} END{{for (h in n) print n[h], h}}' {lines}", table),
        ("cut, sort, uniq -c, of lines", f"cut -d' ' -f3 {lines} | LC_ALL=C sort | uniq -c", table),
        ("syslogbox show --json, jq, sort, uniq -c",
         f"{program} show --json --framing counted < {archive} | jq -r '.host // \"-\"' | LC_ALL=C sort | uniq -c", table),
        ("journalctl -o json, jq, sort, uniq -c",
         f"journalctl -q --file {journal} -o json | jq -r ._HOSTNAME | LC_ALL=C sort | uniq -c", table),
        ("lnav, SQL", lnav("log_hostname, count(*) FROM syslog_log GROUP BY log_hostname"), table_of_lnav)]
    yield "records with a rare text", [
        ("syslogbox select --message, count", f"{program} select --message '{text}' < {archive} | {program} count", number),
        ("grep -F -c, of lines", f"LC_ALL=C grep -F -c '{text}' {lines}", number),
        ("journalctl --grep, wc -l", f"journalctl -q --file {journal} -o cat --grep '{text}' | wc -l", number),
        ("lnav, SQL", lnav(f"count(*) FROM syslog_log WHERE log_body LIKE \"%{text}%\""), number)]


# ---------------------------------------------------------------- what it costs

def needed(command):
    """The tools that a command names."""
    return {words[0] for part in command.split("|") if (words := [one for one in part.split() if "=" not in one])}


def cost(command):
    """The processor time and the seconds of a command of the shell, and its output."""
    before, begun = resource.getrusage(resource.RUSAGE_CHILDREN), time.monotonic()
    ran = subprocess.run(["sh", "-c", command], stdout=subprocess.PIPE, stderr=subprocess.DEVNULL)
    seconds, after = time.monotonic() - begun, resource.getrusage(resource.RUSAGE_CHILDREN)
    used = after.ru_utime + after.ru_stime - before.ru_utime - before.ru_stime
    return used, seconds, ran.stdout


def ask(name, ways, runs):
    """Asks each tool several times, in turns, and prints a row for each; whether all answers are the same."""
    ways = [way for way in ways if all(map(shutil.which, needed(way[1])))]
    costs = {tool: [] for tool, _, _ in ways}
    for _ in range(runs):
        for tool, command, _ in ways:
            costs[tool].append(cost(command))
    base, answers = None, {}
    for tool, _, read in ways:
        used, seconds = (min(one[n] for one in costs[tool]) for n in (0, 1))
        base = base or used
        try:
            answers[tool] = read(costs[tool][0][2])
        except (AttributeError, ValueError):
            answers[tool] = None
        print(f"| {name} | {tool} | {used / base:.2f} | {seconds:.2f} |", flush=True)
    right = next(iter(answers.values()))
    others = [tool for tool, answer in answers.items() if answer != right]
    for tool in others:
        print(f"{tool}: another answer", file=sys.stderr)
    return not others


def main():
    parser = argparse.ArgumentParser(description=__doc__.split("\n")[0])
    parser.add_argument("--records", type=int, default=200_000)
    parser.add_argument("--runs", type=int, default=5)
    parser.add_argument("--folder", type=Path, default=TOP / "build/bench/questions")
    parser.add_argument("--program", default=str(TOP / "build/syslogbox"))
    given = parser.parse_args()
    given.folder.mkdir(parents=True, exist_ok=True)
    files = Files(given.folder, given.program, given.records)
    print("| Question | Tool | processor time | s |\n|---|---|---:|---:|")
    same = [ask(name, ways, given.runs) for name, ways in questions(given.program, files)]
    return 0 if all(same) else 1


if __name__ == "__main__":
    sys.exit(main())

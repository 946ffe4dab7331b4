"""Real senders into `syslogbox collect`: logger, rsyslog and syslog-ng. No part of the gate.

Each sender gets the same records and sends them to collectors and, beside them, to recorders, which keep the octets as they
come: as lines, counted and as datagrams. Each archive that was collected has to be that of the octets recorded, and the
archives of the ways are compared with one another, octet for octet; with --trim they have to be equal. Then it is told what the sender changed: each record
that was sent beside what came of it.

The packages of Debian conflict with one another, so FOLDER may hold one or both of the daemons as `dpkg -x` unpacks them;
what is not there is looked for on the path. What is found nowhere is skipped. docs/SENDERS.md has what it tells.
"""
import argparse
import socket
import tempfile
import threading
import time
from pathlib import Path

from lib import reference
from lib.loopback import HERE, NEVER, Collect, free_port
from lib.program import Program
from lib.results import Results
from peers.answers import agree, agree_trimmed, archive_of, archived
from peers.changes import described
from peers.daemons import daemons, found
from peers.logger import loggers
from peers.recorder import FRAMINGS, SETTLED, Recorder, settle
from peers.records import CR, PLAIN, SPECIAL, marked, sorted_out

def filled_up(run, octets):
    """The answer of a collector of datagrams, which gets one more again and again until it has as many as it waits for."""
    def fill():
        while run.process.poll() is None:
            run.datagrams(octets)
            time.sleep(0.001)

    threading.Thread(target=fill, daemon=True).start()
    return run.answer()


def gathered(program, results, name, recorders, collectors):
    """The answers of the collectors, each of which is to be that of what was recorded."""
    answers = {}
    for way, run in collectors.items():
        answers[way] = filled_up(run, recorders[way].pieces[-1]) if way == "udp" else run.answer()
        results.same(f"{name}, {way}: the archive is that of what came", answers[way], archive_of(program, recorders[way]))
    return answers


def feed(port, records):
    """Sends records by TCP, counted, slowly enough for datagrams to be forwarded."""
    with socket.create_connection((HERE, port), NEVER) as one:
        for octets in records:
            one.sendall(reference.framed("counted", octets))
            time.sleep(0.002)
        time.sleep(SETTLED)


TCP = ("lines", "counted")


class Variant:
    """A way to set up a daemon: its settings, what it sends (a template, or a destination for each way), where it takes
    records from, and whether they are to arrive unchanged."""

    def __init__(self, name, settings, template, source="tcp", cases=PLAIN, ways=(*TCP, "udp"), unchanged=False):
        self.name = name
        self.settings = settings
        self.template = template
        self.source = source
        self.cases = cases
        self.ways = ways
        self.unchanged = unchanged


def run_through(daemon, variant, records, collectors, recorders):
    """Sends the records through a daemon to the collectors and the recorders; what it said."""
    with tempfile.TemporaryDirectory() as path:
        folder = Path(path)
        (folder / "records").write_bytes(b"".join(octets + b"\n" for octets in records))
        port = None if "file" in variant.source else free_port(socket.SOCK_STREAM)
        ports = {way: (collectors[way].port, recorders[way].port) for way in variant.ways}
        daemon.start(folder, daemon.forwarding(variant, folder, port, ports), port)
        if port and daemon.process.poll() is None:
            feed(port, records)
        settle(list(recorders.values()))
        log = daemon.stop()
    for recorder in recorders.values():
        recorder.close()
    return log


def forward(program, results, daemon, variant):
    """The cases through a daemon, to a collector and a recorder for each way."""
    name = f"{daemon.version()}, {variant.name}"
    print(f"\n{name}", flush=True)
    records = marked(variant.cases)
    # of datagrams more are waited for than come, since some may be lost
    collectors = {way: Collect(program, FRAMINGS.get(way, "udp"), 1 if way in FRAMINGS else len(records) + 200) for way in variant.ways}
    recorders = {way: Recorder(way) for way in variant.ways}
    log = run_through(daemon, variant, records, collectors, recorders)
    came = all(recorder.pieces for recorder in recorders.values())
    results.check(f"{name}: something came", came, log[-2_000:])
    if not came:
        for run in collectors.values():
            run.process.kill()
            run.process.wait()
        return
    answers = gathered(program, results, name, recorders, collectors)
    frames = {way: recorder.frames() for way, recorder in recorders.items()}
    agree(results, name, answers, frames)
    if variant.cases is PLAIN:
        agree_trimmed(program, results, name, frames)
    described(variant.cases, {way: (sorted_out(variant.cases, came), stop) for way, (came, stop) in frames.items()})
    if variant.unchanged:
        right = archived(program, "counted", reference.counted(records))
        for way, answer in answers.items():
            results.same(f"{name}, {way}: as `archive` of what was sent", answer, right)
        if all(answer == right for answer in answers.values()):
            print("  each archive is that of `archive` over the octets sent")


BUILT_IN = "RSYSLOG_SyslogProtocol23Format"
LITTLE = 'maxMessageSize="128k" parser.escapeControlCharactersOnReceive="off" parser.dropTrailingLFOnReception="off"'
RSYSLOG = [
    Variant("imtcp to omfwd, its template RSYSLOG_SyslogProtocol23Format, no other setting", "", BUILT_IN),
    Variant("the same, records with LF, NUL or a CR at the end", "", BUILT_IN, cases=SPECIAL),
    Variant("imtcp to omfwd, a template of fields, set to change little", LITTLE, "fields"),
    Variant("imtcp to omfwd, %rawmsg%, set to change nothing", LITTLE, "raw", unchanged=True),
    Variant("the same, records with LF, NUL or a CR at the end", LITTLE, "raw", cases=SPECIAL),
    Variant("imfile to omfwd, %rawmsg%", 'maxMessageSize="128k"', "raw", "file", ways=TCP, unchanged=True),
    Variant("the same, a record with CR at the end", 'maxMessageSize="128k"', "raw", "file", [CR], TCP),
]
OWN = {"lines": 'network(PORT transport("tcp") flags(syslog-protocol))', "counted": 'syslog(PORT transport("tcp"))',
       "udp": 'syslog(PORT transport("udp"))'}
RAW = {"lines": 'network(PORT transport("tcp") template("${MESSAGE}\\n"))',
       "counted": 'network(PORT transport("tcp") template("$(length ${MESSAGE}) ${MESSAGE}"))',
       "udp": 'network(PORT transport("udp") template("${MESSAGE}"))'}
PARSED, UNPARSED = 'syslog(FROM transport("tcp"))', 'syslog(FROM transport("tcp") flags(no-parse))'
LONG = "log-msg-size(131072); "
KEPT = "keep-hostname(yes); frac-digits(6); " + LONG
SYSLOG_NG = [
    Variant("syslog() to syslog() and network(flags(syslog-protocol)), no other setting", "", OWN, PARSED),
    Variant("the same, records with LF, NUL or a CR at the end", "", OWN, PARSED, SPECIAL),
    Variant("syslog() to syslog() and network(flags(syslog-protocol)), set to change little", KEPT, OWN, PARSED),
    Variant("flags(no-parse) and templates, set to change nothing", LONG, RAW, UNPARSED, unchanged=True),
    Variant("the same, records with LF, NUL or a CR at the end", LONG, RAW, UNPARSED, SPECIAL),
    Variant("file(flags(syslog-protocol)) to syslog() and network(flags(syslog-protocol))", KEPT, OWN,
            "file(FROM flags(syslog-protocol))", ways=TCP),
    Variant("file(flags(no-parse)) and templates", LONG, RAW, "file(FROM flags(no-parse))", ways=TCP, unchanged=True),
    Variant("the same, a record with CR at the end", LONG, RAW, "file(FROM flags(no-parse))", [CR], TCP),
]


def main(words):
    given = argparse.ArgumentParser(prog="tests/run.py senders", description=__doc__,
                                    formatter_class=argparse.RawDescriptionHelpFormatter)
    given.add_argument("program")
    given.add_argument("--tools", type=Path, metavar="FOLDER")
    given = given.parse_args(words)
    program, results = Program(given.program), Results()
    for name, octets in PLAIN + SPECIAL:
        results.check(f"{name} is a record", not isinstance(reference.read(octets), bytes), reference.read(octets))
    path, _ = found("logger", given.tools)
    if path:
        loggers(program, results, path)
    else:
        print("logger is not here: skipped")
    for daemon in daemons(given.tools):
        for variant in RSYSLOG if daemon.name == "rsyslog" else SYSLOG_NG:
            forward(program, results, daemon, variant)
    print()
    return results.end()

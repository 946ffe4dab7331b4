"""Load on loopback: `syslogbox collect` beside rsyslog and syslog-ng that write a file, from one sender, in one run. No part
of the gate.

200,000 plain records (bench/corpus.py) come by TCP, counted and as lines, in one connection; and as datagrams, in a burst that
no one holds back and at the pace of the receiver, whose queue the sender (sender.c) watches. Of each way the records per
second are told, from the first octet sent to the last record written (of `collect`, to the end of its archive), the processor
time of the receiver per record, with its ratio to that of `collect`, and how many records came. The figures are the medians
of the rounds. The socket's buffer is as the system gives it.

What came by TCP has to be, by cmp, the archive that `archive` makes of the octets sent; of a burst the archive has to be a
part of it, with as many entries as the system did not drop. Tools are found as by `senders`, and skipped where they are not
there. No round begins after 100 seconds.
"""
import argparse
import os
import platform
import signal
import socket
import statistics
import subprocess
import sys
import tempfile
import time
from pathlib import Path

from lib import reference
from lib.loopback import HERE, NEVER, free_port, kind_of, until_bound
from lib.program import ROOT
from lib.results import Results
from peers.daemons import Rsyslog, daemons

sys.path.append(str(ROOT / "bench"))
import corpus

SENDER = Path(__file__).resolve().parent / "sender.c"
ENOUGH = 100  # seconds, after which no round begins
MOST = 175  # seconds, after which the run is given up
STILL = 0.5  # seconds in which a file does not grow, after which nothing more comes
DATAGRAMS = ("burst", "paced")  # the ways that are not by TCP


# ---------------------------------------------------------------- what the system tells

def now():
    return time.clock_gettime_ns(time.CLOCK_MONOTONIC)


def processor(pid):
    """The seconds of processor time of a process, with all its threads."""
    return time.clock_gettime((~pid << 3) | 2)


def udp_row(port):
    """The octets that wait in the socket of a port, and how many datagrams were dropped."""
    for line in Path("/proc/net/udp").read_text().splitlines()[1:]:
        words = line.split()
        if words[1] == f"0100007F:{port:04X}":
            return int(words[4].split(":")[1], 16), int(words[-1])
    return 0, 0


def drained(port):
    while udp_row(port)[0]:
        time.sleep(0.0005)


def ended(pid):
    """Whether a child has ended; it is still to be waited for."""
    return os.waitid(os.P_PID, pid, os.WEXITED | os.WNOHANG | os.WNOWAIT) is not None


def entries(archive):
    """How many entries an archive has."""
    return len(reference.counted_frames(archive)[0])


# ---------------------------------------------------------------- one run

class Sent:
    """The records, as files for the sender."""

    def __init__(self, folder, count):
        self.count = count
        source = corpus.Source(5424)
        corpus.make(folder, "plain", count, lambda n: corpus.Source.plain(source, n))
        self.files = {"counted": folder / "plain.counted", "lf": folder / "plain.lf"}
        with open(self.files["lf"], "rb") as lines:
            self.first = lines.readline().rstrip(b"\n")
        self.sender = folder / "sender"
        subprocess.run(["gcc", "-O2", "-o", str(self.sender), str(SENDER)], check=True)

    def send(self, way, port):
        """Sends all records, and answers when it began."""
        words = [str(self.sender), way if way in DATAGRAMS else "tcp", str(port),
                 str(self.files["lf" if way == "lf" else "counted"])]
        done = subprocess.run(words, capture_output=True, timeout=NEVER, check=True)
        return int(done.stdout.split()[0])


class Run:
    """Of one run: seconds from the first octet to the last record, processor seconds, and how many records came."""

    def __init__(self, seconds, processor, records):
        self.rate = records / seconds
        self.cost = processor / records * 1_000_000
        self.records = records


class Syslogbox:
    name = "syslogbox"

    def __init__(self, program, folder):
        self.program = program
        self.output = folder / "archive"

    def version(self):
        return "syslogbox"

    def run(self, way, sent):
        datagrams = way in DATAGRAMS
        kind = kind_of("udp" if datagrams else way)
        port = free_port(kind)
        words = [self.program, "collect", "udp" if datagrams else way, str(port), str(sent.count if datagrams else 1)]
        with open(self.output, "wb") as archive:
            process = subprocess.Popen(words, stdin=subprocess.DEVNULL, stdout=archive)
        try:
            until_bound(kind, port, lambda: ended(process.pid))
            begun = sent.send(way, port)
            came, spent, waited = self.fill(process.pid, port, sent) if datagrams else (sent.count, 0, 0)
            _, status, used = os.wait4(process.pid, 0)
            process.returncode = os.waitstatus_to_exitcode(status)
        finally:
            if process.returncode is None:
                process.kill()
        return Run((now() - begun) / 1e9 - waited, used.ru_utime + used.ru_stime - spent, came)

    def fill(self, pid, port, sent):
        """Sends a record that came again in place of each that was dropped: how many had come, and the processor time and the
        seconds that this took, up to the last one."""
        drained(port)
        missing = udp_row(port)[1]
        if not missing:
            return sent.count, 0, 0
        begun, before = now(), processor(pid)
        with socket.socket(socket.AF_INET, socket.SOCK_DGRAM) as one:
            one.connect((HERE, port))
            for n in range(missing - 1):
                one.send(sent.first)
                if n % 64 == 0:
                    drained(port)
            missing -= 1
            while not ended(pid):  # one more, and more than one where the system lost some without counting them
                drained(port)
                spent, waited, missing = processor(pid) - before, (now() - begun) / 1e9, missing + 1
                one.send(sent.first)
                since = now()
                while not ended(pid) and now() - since < STILL * 1e9:
                    time.sleep(0.0005)
        return sent.count - missing, spent, waited


class Beside:
    """A daemon that writes a file."""

    def __init__(self, daemon, folder):
        self.daemon = daemon
        self.name = daemon.name
        self.folder = folder / daemon.name
        self.folder.mkdir()
        self.output = self.folder / "out"

    def version(self):
        return self.daemon.version()

    def configuration(self, way, port):
        if isinstance(self.daemon, Rsyslog):
            module = "imudp" if way in DATAGRAMS else "imtcp"
            return (f'global(workDirectory="{self.folder}")\nmodule(load="{module}")\n'
                    'template(name="fields" type="string" string="<%PRI%>1 %TIMESTAMP:::date-rfc3339% %HOSTNAME% %APP-NAME% '
                    '%PROCID% %MSGID% %STRUCTURED-DATA% %msg%\\n")\n'
                    f'ruleset(name="write") {{ action(type="omfile" file="{self.output}" template="fields") }}\n'
                    f'input(type="{module}" address="{HERE}" port="{port}" ruleset="write")\n')
        source = {"lf": 'network(FROM transport("tcp") flags(syslog-protocol))', "counted": 'syslog(FROM transport("tcp"))'}
        source = source.get(way, 'syslog(FROM transport("udp"))').replace("FROM", f'ip("{HERE}") port({port})')
        return (f"@version: {self.version().split()[1].rpartition('.')[0]}\n"
                "options { stats-freq(0); keep-hostname(yes); frac-digits(6); };\n"
                f'log {{ source {{ {source}; }}; destination {{ file("{self.output}" flags(syslog-protocol)); }}; '
                "flags(flow-control); };\n")

    def run(self, way, sent):
        kind = kind_of("udp" if way in DATAGRAMS else way)
        port = free_port(kind)
        self.output.unlink(missing_ok=True)
        self.daemon.start(self.folder, self.configuration(way, port), port, kind)
        try:
            before = processor(self.daemon.process.pid)
            begun = sent.send(way, port)
            records, last = self.watch(sent.count)
            spent = processor(self.daemon.process.pid) - before
        finally:
            self.daemon.stop()
        return Run((last - begun) / 1e9, spent, records) if records else None

    def watch(self, count):
        """How many records were written, and when the last was."""
        records, last = 0, now()
        while records < count and now() - last < STILL * 1e9:
            if not self.output.exists():
                continue
            with open(self.output, "rb") as lines:
                while records < count and now() - last < STILL * 1e9:
                    if piece := lines.read():
                        records, last = records + piece.count(b"\n"), now()
                    else:
                        time.sleep(0.001)
        return records, last


# ---------------------------------------------------------------- the rounds

WAYS = {"counted": "TCP, counted", "lf": "TCP, lines", "paced": "UDP, at its pace", "burst": "UDP, a burst"}


def right(program, results, way, run, sent, whole, output):
    """The archive of what came is that of what was sent, or of a burst a part of it with as many entries as came."""
    if run.records == sent.count:
        done = subprocess.run(["cmp", str(output), str(whole)], capture_output=True)
        results.check(f"{WAYS[way]}: the archive is that of `archive`", done.returncode == 0, done.stdout + done.stderr)
        return
    count = entries(output.read_bytes())
    results.check(f"{WAYS[way]}: {run.records} came", count == run.records, f"{count} entries")
    union = output.with_name("union")
    with open(union, "wb") as text:
        status = subprocess.run([program, "merge", str(whole), str(output)], stdout=text).returncode
    done = subprocess.run(["cmp", str(union), str(whole)], capture_output=True)
    results.check(f"{WAYS[way]}: the archive is a part of that of `archive`", (status, done.returncode) == (0, 0), done.stdout)


def table(seen, receivers, sent):
    print("| Way | Receiver | records a second | processor time a record, µs | ratio | records that came |")
    print("|---|---|---:|---:|---:|---:|")
    for way, name in WAYS.items():
        own = None
        for one in receivers:
            runs = seen[way, one.name]
            if not runs:
                print(f"| {name} | {one.name} | nothing came | | | 0 |")
                continue
            rate, cost, came = (statistics.median(getattr(run, part) for run in runs) for part in ("rate", "cost", "records"))
            own = own or cost
            print(f"| {name} | {one.name} | {rate:,.0f} | {cost:.2f} | {cost / own:.2f} | {came:,.0f} of {sent.count:,} |")


def main(words):
    given = argparse.ArgumentParser(prog="tests/run.py load", description=__doc__,
                                    formatter_class=argparse.RawDescriptionHelpFormatter)
    given.add_argument("program")
    given.add_argument("--tools", type=Path, metavar="FOLDER")
    given.add_argument("--records", type=int, default=200_000)
    given.add_argument("--rounds", type=int, default=3)
    given = given.parse_args(words)
    program, results, begun = str(Path(given.program).resolve()), Results(), time.monotonic()
    signal.signal(signal.SIGALRM, lambda *_: sys.exit(f"FAILED: not ended after {MOST} seconds"))
    signal.alarm(MOST)
    with tempfile.TemporaryDirectory() as path:
        folder = Path(path)
        sent = Sent(folder, given.records)
        whole = folder / "whole"
        with open(sent.files["lf"], "rb") as octets, open(whole, "wb") as text:
            subprocess.run([program, "archive", "--framing", "lf"], stdin=octets, stdout=text, check=True)
        results.check("the records differ", entries(whole.read_bytes()) == sent.count)
        receivers = [Syslogbox(program, folder), *(Beside(daemon, folder) for daemon in daemons(given.tools))]
        seen, rounds = {(way, one.name): [] for way in WAYS for one in receivers}, 0
        while rounds < given.rounds and (rounds == 0 or time.monotonic() - begun < ENOUGH):
            rounds += 1
            for way in WAYS:
                for one in receivers:
                    run = one.run(way, sent)
                    if run:
                        seen[way, one.name].append(run)
                    if one is receivers[0]:
                        right(program, results, way, run, sent, whole, one.output)
        buffer = Path("/proc/sys/net/core/rmem_default").read_text().strip()
        print(f"{', '.join(one.version() for one in receivers)}; Linux {platform.release()}, {os.cpu_count()} cores, load "
              f"{os.getloadavg()[0]:.1f}, a socket's buffer {int(buffer):,} octets; {sent.count:,} records of "
              f"{sent.files['lf'].stat().st_size / sent.count - 1:.0f} octets, {rounds} rounds, {time.monotonic() - begun:.0f} s")
        table(seen, receivers, sent)
    return results.end()

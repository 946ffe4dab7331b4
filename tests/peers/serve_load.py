"""Load on loopback: `syslogbox serve` beside rsyslog and syslog-ng that write a file, in one run. No part of the gate.

200,000 plain records (bench/corpus.py, with the times of some seconds of one day, in order) come by TCP, counted and as
lines, over 1, 64 and 1,000 connections at once; and as datagrams, at the pace of the receiver and in a burst that no
one holds back (sender.c). All three receivers ask for the same room for datagrams: as much as the system allows.
`serve` has its default options and writes its journal; it has ended, and so has committed all, when its time is taken.

Of each way it is told how many records a second came, from the first octet sent to the last record written; the
processor time of the receiver for each record, with its ratio to that of rsyslog; and how many records came. The
figures are the medians of the rounds. What the store holds has to be the archive of what was sent, by cmp, or of
datagrams that were lost a part of it.

Then it is told how many milliseconds pass from the sending of a record to its commit: to the return of the sync behind
the octet that opens its batch (commits.c). Records come at moments by chance, to a server that has nothing else to do,
and beside 20,000 records a second over 64 connections, so long that a checkpoint falls into it.

The limits: at most half of the processor time of rsyslog; fewer datagrams of a burst lost than by either peer, or none;
each commit within the milliseconds of `--commit`, and for 0 within one. They are told as met or missed, and missing one
is no failure.

Tools are found as by `senders`, and skipped where they are not there. The stores are made in FOLDER, by default that of
temporary files: the commits are those of its disk.
"""
import argparse
import math
import os
import platform
import random
import shutil
import socket
import statistics
import subprocess
import tempfile
import time
from collections import namedtuple
from contextlib import ExitStack
from pathlib import Path

from lib import reference
from lib.loopback import HERE, NEVER
from lib.results import Results
from peers.daemons import Rsyslog, daemons
from peers.load import DATAGRAMS, SENDER, Beside, Run, corpus, drained, entries, now, processor
from peers.records import record
from peers.serve_soak import Pace
from peers.server import Server

COMMITS = Path(__file__).resolve().parent / "commits.c"
ALLOWED = int(Path("/proc/sys/net/core/rmem_max").read_text())
MOST = 2_000  # connections that the receivers allow
BEGUN = reference.instant(b"2026-11-26T12:00:00.000000Z")
EACH = 50  # microseconds between the times of two records
PART = 0.5  # of the processor time of rsyslog
PERIODS = (1_000, 1, 0)  # milliseconds of `--commit`

Way = namedtuple("Way", "name form connections")
WAYS = [*(Way(f"TCP, {told}, {count:,} connection{'s' * (count > 1)}", form, count)
          for count in (1, 64, 1_000) for form, told in (("counted", "counted"), ("lf", "lines"))),
        Way("UDP, at its pace", "paced", 1), Way("UDP, a burst", "burst", 1)]


# ---------------------------------------------------------------- what is sent

def dated(octets, n):
    """A record with a time of its own in place of what it has."""
    front, _, rest = octets.split(b" ", 2)
    return b" ".join((front, reference.timestamp(BEGUN + n * EACH), rest))


class Sent:
    """The records, as files for the sender, and their archive."""

    def __init__(self, program, folder, count):
        self.count, self.connections = count, 1
        source = corpus.Source(5424)
        corpus.make(folder, "plain", count, lambda n: dated(corpus.Source.plain(source, n), n))
        self.files = {"counted": folder / "plain.counted", "lf": folder / "plain.lf"}
        self.sender, self.whole = folder / "sender", folder / "whole"
        subprocess.run(["gcc", "-O2", "-o", str(self.sender), str(SENDER)], check=True)
        with open(self.files["lf"], "rb") as octets, open(self.whole, "wb") as text:
            subprocess.run([program, "archive", "--framing", "lf"], stdin=octets, stdout=text, check=True)

    def send(self, form, port):
        """Sends all records over so many connections, and answers when it began."""
        words = [str(self.sender), form if form in DATAGRAMS else "tcp", str(port),
                 str(self.files["lf" if form == "lf" else "counted"]), str(self.connections)]
        done = subprocess.run(words, capture_output=True, timeout=2 * NEVER)
        if done.returncode:
            raise RuntimeError(f"{' '.join(words)}: {done.returncode}")
        return int(done.stdout.split()[0])


# ---------------------------------------------------------------- the receivers

class Serve:
    name = "syslogbox"

    def __init__(self, program, folder, results):
        self.program, self.folder, self.results = program, folder / "serve", results

    def version(self):
        return "syslogbox serve"

    def run(self, form, sent):
        server = Server(self.program, self.folder, ["--until-eof"])
        with ExitStack() as stack:
            stack.callback(server.end)
            server.start()
            before = processor(server.process.pid)
            port = server.ports["udp" if form in DATAGRAMS else form]
            begun = sent.send(form, port)
            if form in DATAGRAMS:
                drained(port)
            server.process.stdin.close()
            _, status, used = os.wait4(server.process.pid, 0)
            seconds = (now() - begun) / 1e9
            server.process.returncode = os.waitstatus_to_exitcode(status)
        self.results.check(f"{form}: serve ends with 0", status == 0, server.lines()[-3:])
        records = self.held(form, server, sent)
        shutil.rmtree(self.folder)
        return Run(seconds, used.ru_utime + used.ru_stime - before, records) if records else None

    def held(self, form, server, sent):
        """How many records the store has, which are those that were sent, or some of them."""
        output, union = self.folder / "archive", self.folder / "union"
        with open(output, "wb") as text:
            status = subprocess.run([self.program, "read", str(server.store)], stdout=text).returncode
        self.results.check(f"{form}: read", status == 0, status)
        if form in DATAGRAMS:
            with open(union, "wb") as text:
                subprocess.run([self.program, "union", str(sent.whole), str(output)], stdout=text)
        held = union if form in DATAGRAMS else output
        done = subprocess.run(["cmp", str(held), str(sent.whole)], capture_output=True)
        self.results.check(f"{form}: the store holds what was sent", done.returncode == 0, done.stdout + done.stderr)
        return entries(output.read_bytes())


class Crowd(Beside):
    """A daemon that writes a file, of many connections."""

    def configuration(self, form, port):
        text = super().configuration(form, port)
        if isinstance(self.daemon, Rsyslog):
            old, new = ((f'port="{port}"', f'port="{port}" rcvbufSize="{ALLOWED}"') if form in DATAGRAMS
                        else ('load="imtcp"', f'load="imtcp" MaxSessions="{MOST}"'))
            return text.replace(old, new)
        more = (f" so-rcvbuf({ALLOWED})" if form in DATAGRAMS
                else f" max-connections({MOST}) listen-backlog({MOST}) log-iw-size({100 * MOST})")
        text = text.replace(f"port({port})", f"port({port}){more}")
        return text.replace("stats-freq(0);", f"stats-freq(0); log-fifo-size({100 * MOST});")


# ---------------------------------------------------------------- the moments of commits

class Moments:
    """The milliseconds from the sending of each record to its commit."""

    def __init__(self, program, folder, pace):
        self.program, self.folder, self.pace = program, folder / "moments", pace
        self.library = folder / "commits.so"
        subprocess.run(["gcc", "-shared", "-fPIC", "-O1", "-o", str(self.library), str(COMMITS), "-ldl"], check=True)

    def run(self, period, seconds, beside):
        """In ascending order; those that have none are endless."""
        seen = self.folder / "commits"
        environment = {**os.environ, "LD_PRELOAD": str(self.library), "COMMITS": str(seen)}
        server = Server(self.program, self.folder, ["--until-eof", "--commit", period], environment)
        with ExitStack() as stack:
            stack.callback(server.end)
            server.start()
            if beside:
                self.pace.begin(server)
            sent = self.send(server.ports["counted"], seconds)
            if beside:
                self.pace.process.wait()
            server.wait()
        lines = [line.split() for line in seen.read_text().splitlines()] if seen.exists() else []
        committed = {mark: int(moment) for mark, moment in reversed(lines)}  # the first of each counts
        shutil.rmtree(self.folder)
        return sorted((committed.get(mark, math.inf) - moment) / 1e6 for mark, moment in sent.items())

    def send(self, port, seconds):
        """Records at moments by chance; when each was sent."""
        sent, begun = {}, now()
        with socket.create_connection((HERE, port), NEVER) as one:
            one.setsockopt(socket.IPPROTO_TCP, socket.TCP_NODELAY, 1)
            while now() - begun < seconds * 1e9:
                time.sleep(random.random() * 0.06)
                mark = f"{len(sent):08d}"
                octets = reference.framed("counted", record(f"mark {mark}".encode()))
                sent[mark] = now()
                one.sendall(octets)
        return sent


# ---------------------------------------------------------------- what is told

def met(holds):
    return "met" if holds else "missed"


def limits_of(way, costs, losses):
    """What a way's limits come to: costs and losses by receivers."""
    told = []
    if "rsyslog" in costs:
        told.append(f"processor time {met(costs['syslogbox'] <= PART * costs['rsyslog'])}")
    if way.form == "burst":
        own, others = losses.pop("syslogbox"), losses.values()
        told.append(f"losses {met(own == 0 or all(own < other for other in others))}")
    return ", ".join(told)


def table(seen, receivers, sent):
    print("| Way | Receiver | records a second | processor time a record, µs | of rsyslog's | records that came "
          "| limits |")
    print("|---|---|---:|---:|---:|---:|---|")
    for way in WAYS:
        runs = {one.name: seen[way, one.name] for one in receivers if seen[way, one.name]}
        middle = {name: [statistics.median(getattr(run, part) for run in some) for part in ("rate", "cost", "records")]
                  for name, some in runs.items()}
        costs = {name: cost for name, (_, cost, _) in middle.items()}
        losses = {name: sent.count - came for name, (_, _, came) in middle.items()}
        for one in receivers:
            if one.name not in middle:
                print(f"| {way.name} | {one.name} | nothing came | | | 0 | |")
                continue
            rate, cost, came = middle[one.name]
            ratio = f"{cost / costs['rsyslog']:.2f}" if "rsyslog" in costs else ""
            limits = limits_of(way, costs, dict(losses)) if one is receivers[0] else ""
            print(f"| {way.name} | {one.name} | {rate:,.0f} | {cost:.2f} | {ratio} | {came:,.0f} of {sent.count:,} "
                  f"| {limits} |")


def moments(results, given, of):
    print("\n| `--commit` | beside it | records | median, ms | 99 of 100, ms | most, ms | limit |")
    print("|---:|---|---:|---:|---:|---:|---|")
    for period in PERIODS:
        for beside in (False, True):
            took = of.run(period, given.seconds if beside else min(10, given.seconds), beside)
            results.check(f"--commit {period}: all are committed", took and took[-1] < math.inf, f"{len(took)} sent")
            name = f"{given.rate:,} records a second" if beside else "nothing"
            most = took[-1]
            print(f"| {period:,} | {name} | {len(took):,} | {statistics.median(took):.1f} "
                  f"| {took[len(took) * 99 // 100]:.1f} | {most:.1f} | {met(most <= max(period, 1))} |", flush=True)


def main(words):
    given = argparse.ArgumentParser(prog="tests/run.py serve-load", description=__doc__,
                                    formatter_class=argparse.RawDescriptionHelpFormatter)
    given.add_argument("program")
    given.add_argument("--tools", type=Path, metavar="FOLDER")
    given.add_argument("--records", type=int, default=200_000)
    given.add_argument("--rounds", type=int, default=3)
    given.add_argument("--folder", type=Path)
    given.add_argument("--seconds", type=int, default=30, help="of commits beside other records (30)")
    given.add_argument("--rate", type=int, default=20_000, help="of those records a second (20,000)")
    given.add_argument("--connections", type=int, default=64, help="over which they come (64)")
    given = given.parse_args(words)
    program, results, begun, load = str(Path(given.program).resolve()), Results(), time.monotonic(), os.getloadavg()[0]
    with tempfile.TemporaryDirectory(prefix="syslogbox-", dir=given.folder) as path:
        folder = Path(path)
        sent = Sent(program, folder, given.records)
        receivers = [Serve(program, folder, results), *(Crowd(daemon, folder) for daemon in daemons(given.tools))]
        seen = {(way, one.name): [] for way in WAYS for one in receivers}
        for _ in range(given.rounds):
            for way in WAYS:
                sent.connections = way.connections
                for one in receivers:
                    run = one.run(way.form, sent)
                    if run:
                        seen[way, one.name].append(run)
        length = sent.files["lf"].stat().st_size / sent.count - 1
        names = ", ".join(one.version() for one in receivers)
        print(f"{names}; Linux {platform.release()}, {os.cpu_count()} cores, load {load:.1f}, room for datagrams "
              f"{ALLOWED:,} octets; {sent.count:,} records of {length:.0f} octets, "
              f"{given.rounds} rounds, {time.monotonic() - begun:.0f} s\n")
        table(seen, receivers, sent)
        moments(results, given, Moments(program, folder, Pace(folder, given)))
    return results.end()

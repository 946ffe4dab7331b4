"""Real clients, each of which sends what it has to two servers, to each in another way where it can."""
import http.client
import logging
import socket
import subprocess
import time
from logging.handlers import SysLogHandler

from lib import reference
from lib.loopback import HERE, NEVER, free_port, until_bound
from peers.daemons import found
from peers.recorder import SETTLED, Recorder
from peers.records import record

STEP = 20  # records of a turn
PAUSE = 0.002  # seconds behind each record, so that queues and sockets have room for all
LONGER = 0.01  # seconds behind each request, since what comes of it is another record each time
BEGUN = reference.instant(b"2026-11-26T23:59:58.000000Z")
SPACED = 1_234_567  # microseconds between the times of two records, so that they are of some days
TEXT = " accepted connection for user from port 22, request served in 12 ms, cache miss;" * 4  # so that journals grow


def numbered(name, count):
    """Records of one client, which all differ."""
    return [record(f"record {n} of {name}{TEXT}".encode(), reference.timestamp(BEGUN + n * SPACED), app=name.encode())
            for n in range(count)]


class Client:
    """A client with its records, of which it sends some in each turn, and all again when that is asked for."""

    def __init__(self, folder, servers, name, count):
        self.folder, self.servers, self.name = folder / name, servers, name
        self.folder.mkdir()
        self.records = self.made(count)
        self.at = 0

    def made(self, count):
        return numbered(self.name, count)

    def begin(self):
        pass

    def turn(self):
        self.send(self.records[self.at:self.at + STEP])
        self.at = (self.at + STEP) % len(self.records)

    def again(self):
        for at in range(0, len(self.records), STEP):
            self.send(self.records[at:at + STEP])

    def end(self):
        """Ends what it has begun."""

    def sent(self):
        """What it has sent, frame by frame."""
        return self.records


# ---------------------------------------------------------------- logger

class Logger(Client):
    """logger of util-linux, a process for each server and turn."""

    def __init__(self, path, way, *others):
        self.path, self.way = path, way
        super().__init__(*others)

    def made(self, count):
        """Without a time and a host, so that what is sent again is the same."""
        return [record(f"record {n}".encode(), b"-", b"-", app=self.name.encode()) for n in range(count)]

    def ways(self):
        one, other = self.servers
        if self.way == "tcp":
            return ([*target(one.ports["counted"]), "--tcp", "--octet-count"], [*target(other.ports["lf"]), "--tcp"])
        return [*target(one.ports["udp"]), "--udp"], ["--socket", str(other.path), "--socket-errors=on"]

    def send(self, records):
        front = [self.path, "--rfc5424=notime,nohost", "-p", "local4.notice", "-t", self.name]
        front += ["--id=4711", "--msgid", "ID47"]
        runs = [subprocess.Popen([*front, *words], stdin=subprocess.PIPE, stderr=subprocess.DEVNULL)
                for words in self.ways()]
        for octets in records:
            for run in runs:
                put(run.stdin, octets.rpartition(b" - ")[2] + b"\n")
            time.sleep(PAUSE)
        for run in runs:
            put(run.stdin, None)
            run.wait(NEVER)


def target(port):
    return ["--server", HERE, "--port", str(port)]


def put(stream, octets):
    """Writes, or closes where there is nothing, a stream whose reader may have gone."""
    try:
        if octets is None:
            stream.close()
        else:
            stream.write(octets)
            stream.flush()
    except (BrokenPipeError, ValueError):
        pass


# ---------------------------------------------------------------- Python

class Handler(SysLogHandler):
    """A handler that opens a connection that broke again, with the next record."""

    def handleError(self, _):
        if self.socktype == socket.SOCK_STREAM and self.socket:
            self.socket.close()
            self.socket = None


class Python(Client):
    """Python's SysLogHandler, to both servers in one way; it puts a NUL behind a datagram."""

    def __init__(self, way, *others):
        self.way = way
        super().__init__(*others)

    def made(self, count):
        return [b"<14>" + octets.partition(b">")[2] for octets in numbered(self.name, count)]

    def begin(self):
        kind = socket.SOCK_STREAM if self.way == "lf" else socket.SOCK_DGRAM
        addresses = [str(one.path) if self.way == "unix" else (HERE, one.ports[self.way]) for one in self.servers]
        self.handlers = [Handler(address, socktype=kind) for address in addresses]
        for handler in self.handlers:
            handler.append_nul = self.way != "lf"

    def send(self, records):
        tail = "\n" if self.way == "lf" else ""
        for octets in records:
            text = octets.partition(b">")[2].decode() + tail
            for handler in self.handlers:
                handler.emit(logging.LogRecord("", logging.INFO, "", 0, text, None, None))
            time.sleep(PAUSE)

    def end(self):
        for handler in self.handlers:
            handler.close()


class PlainPython(Python):
    """The same as a program uses it that knows nothing of RFC 5424."""

    def made(self, count):
        return [f"<14>record {n} of {self.name}".encode() for n in range(count)]


# ---------------------------------------------------------------- rsyslog and syslog-ng

class Forwarding(Client):
    """A daemon that takes records by TCP and sends them on, counted to one server and as lines to the other."""

    def __init__(self, daemon, *others):
        self.daemon = daemon
        super().__init__(*others)

    def begin(self):
        port = free_port(socket.SOCK_STREAM)
        one, other = self.servers
        text = CONFIGURATIONS[self.daemon.name](self, port, one.ports["counted"], other.ports["lf"])
        self.daemon.start(self.folder, text, port)
        self.connection = socket.create_connection((HERE, port), NEVER)

    def send(self, records):
        for octets in records:
            self.connection.sendall(reference.framed("counted", octets))
            time.sleep(PAUSE)

    def end(self):
        self.connection.close()
        self.daemon.stop()


def of_rsyslog(client, port, counted, lines):
    kept = ('template="RSYSLOG_SyslogProtocol23Format" queue.type="LinkedList" queue.filename="%s" '
            'queue.saveOnShutdown="on" action.resumeRetryCount="-1" action.resumeInterval="1"')
    actions = "".join(f'  action(type="omfwd" target="{HERE}" port="{to}" protocol="tcp" TCP_Framing="{framing}"\n'
                      f"         {kept % to})\n"
                      for to, framing in ((counted, "octet-counted"), (lines, "traditional")))
    return (f'global(workDirectory="{client.folder}")\nmodule(load="imtcp")\nruleset(name="forward") {{\n{actions}}}\n'
            f'input(type="imtcp" address="{HERE}" port="{port}" ruleset="forward")\n')


def of_syslog_ng(client, port, counted, lines):
    release = client.daemon.version().split()[1].rpartition(".")[0]
    return (f"@version: {release}\noptions {{ stats-freq(0); keep-hostname(yes); frac-digits(6); time-reopen(1); }};\n"
            f'source s {{ syslog(ip("{HERE}") port({port}) transport("tcp")); }};\n'
            f'destination one {{ syslog("{HERE}" port({counted}) transport("tcp")); }};\n'
            f'destination other {{ network("{HERE}" port({lines}) transport("tcp") flags(syslog-protocol)); }};\n'
            "log { source(s); destination(one); destination(other); flags(flow-control); };\n")


CONFIGURATIONS = {"rsyslog": of_rsyslog, "syslog-ng": of_syslog_ng}


# ---------------------------------------------------------------- nginx and haproxy

class Asked(Client):
    """A server of HTTP that logs each request. What it logs has its own time, so a recorder beside the servers keeps
    it, and it is sent again from there."""

    def __init__(self, path, *others):
        self.path = path
        super().__init__(*others)

    def made(self, count):
        return [f"/{self.name}/{n}" for n in range(count)]

    def begin(self):
        self.port = free_port(socket.SOCK_STREAM)
        self.recorder = Recorder(self.recorded)
        (self.folder / "conf").write_text(self.configuration())
        words = [self.path, *self.words()]
        with open(self.folder / "log", "wb") as log:
            self.process = subprocess.Popen(words, stdin=subprocess.DEVNULL, stdout=log, stderr=log)
        until_bound(socket.SOCK_STREAM, self.port, lambda: self.process.poll() is not None)

    def send(self, paths):
        connection = http.client.HTTPConnection(HERE, self.port, timeout=NEVER)
        for path in paths:
            connection.request("GET", path)
            connection.getresponse().read()
            time.sleep(LONGER)
        connection.close()

    def again(self):
        time.sleep(SETTLED)
        frames = self.recorder.frames()[0]
        for server, framing in zip(self.servers, ("counted", "lf")):
            with socket.create_connection((HERE, server.ports[framing]), NEVER) as one:
                for begin in range(0, len(frames), STEP):
                    one.sendall(b"".join(reference.framed(framing, frame) for frame in frames[begin:begin + STEP]))

    def end(self):
        self.process.terminate()
        self.process.wait(NEVER)
        self.recorder.close()

    def sent(self):
        return self.recorder.frames()[0]


class Nginx(Asked):
    """nginx, as datagrams, with a host and without one: it has no other form than that of RFC 3164."""

    recorded = "udp"

    def words(self):
        return ["-c", str(self.folder / "conf"), "-e", str(self.folder / "errors")]

    def configuration(self):
        one, other = self.servers
        targets = (f"{HERE}:{one.ports['udp']}", f"unix:{other.path}", f"{HERE}:{self.recorder.port}")
        logs = "".join(f"  access_log syslog:server={to},tag=nginx{more} own;\n"
                       for more in ("", ",nohostname") for to in targets)
        paths = "".join(f"  {kind}_temp_path {self.folder}/{kind};\n"
                        for kind in ("client_body", "proxy", "fastcgi", "uwsgi", "scgi"))
        return (f"daemon off;\nmaster_process off;\npid {self.folder}/pid;\nevents {{}}\nhttp {{\n{paths}"
                f"  log_format own '$request_uri $status $connection';\n{logs}"
                f"  server {{ listen {HERE}:{self.port}; location / {{ return 200 ok; }} }}\n}}\n")


class Haproxy(Asked):
    """haproxy, from one ring to all, which so get the same octets: each `log` line would have a time of its own."""

    recorded = "counted"
    form, framings = "rfc5424", ("octet-count", "legacy")

    def words(self):
        return ["-f", str(self.folder / "conf"), "-db"]

    def configuration(self):
        one, other = self.servers
        ports = one.ports["counted" if self.framings[0] == "octet-count" else "lf"], other.ports["lf"]
        ring = "".join(f"  server {name} {HERE}:{port} log-proto {framing}\n"
                       for name, port, framing in zip("ab", ports, self.framings))
        return ("global\n  log ring@all local0\ndefaults\n  mode http\n  log global\n  option httplog\n"
                "  timeout client 30s\n  timeout server 30s\n  timeout connect 5s\n"
                f"ring all\n  format {self.form}\n  maxlen 1200\n  size 4194304\n"
                f"  timeout connect 1s\n  timeout server 600s\n{ring}"
                f"  server kept {HERE}:{self.recorder.port} log-proto octet-count\n"
                f"frontend front\n  bind {HERE}:{self.port}\n"
                '  http-request return status 200 content-type text/plain string "ok"\n')


class LocalHaproxy(Haproxy):
    """The same in its default format, that of RFC 3164 without a host, as lines."""

    form, framings = "local", ("legacy", "legacy")


# ---------------------------------------------------------------- all of them

def of_records(tools, daemons, *others):
    """The clients that send records of RFC 5424; a line for each that is not here. Others are a folder, two servers and
    how many records each has."""
    folder, servers, count = others
    path, _ = found("logger", tools)
    if path:
        yield Logger(path, "tcp", folder, servers, "logger-tcp", count)
        yield Logger(path, "datagrams", folder, servers, "logger-datagrams", count)
    else:
        print("logger is not here: skipped")
    for way in ("udp", "lf", "unix"):
        yield Python(way, folder, servers, f"python-{way}", count)
    for daemon in daemons:
        yield Forwarding(daemon, folder, servers, daemon.name, count)
    path, _ = found("haproxy", tools)
    if path:
        yield Haproxy(path, folder, servers, "haproxy", count)
    else:
        print("haproxy is not here: skipped")


def of_packets(tools, folder, servers, count):
    """The clients that send legacy packets."""
    for way in ("udp", "unix"):
        yield PlainPython(way, folder, servers, f"python-{way}", count)
    for name, kind in (("nginx", Nginx), ("haproxy", LocalHaproxy)):
        path, _ = found(name, tools)
        if path:
            yield kind(path, folder, servers, name, count)
        else:
            print(f"{name} is not here: skipped")

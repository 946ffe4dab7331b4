"""Watching `serve --metrics`: what its pages say beside what was sent, and those who ask badly or slowly."""
import http.client
import re
import socket
import tempfile
import time

from cases.rows import Y, Z
from lib.loopback import HERE
from lib.reference import counted
from lib.server import SOON, Runs, any_port, end, numbered, spelled, until
from lib.stores import Keeper

METRICS = ["--metrics", f"{HERE}:0"]
SAMPLE = re.compile(r'(\w+)(?:\{(.*)\})? (\d+(?:\.\d+)?)')
LABEL = re.compile(r'(\w+)="((?:[^"\\]|\\.)*)"')
TYPES = {"counter", "gauge", "histogram"}
BOUNDS = [0.001, 0.0025, 0.005, 0.01, 0.025, 0.05, 0.1, 0.25, 0.5, 1, 2.5, 5, 10]
ASKERS = 16  # connections at once
HEAD_MAX = 8_192
SECONDS_MAX = 10
OTHER = "127.0.0.2"


def ask(server, method, target, headers=()):
    """Status, headers and body of an answer."""
    one = http.client.HTTPConnection(*server.address("metrics"), timeout=20)
    try:
        one.request(method, target, headers=dict(headers))
        answer = one.getresponse()
        return answer.status, dict(answer.getheaders()), answer.read()
    finally:
        one.close()


def raw(server, octets, seconds=20):
    """All that comes back for these octets until the connection is closed."""
    with socket.create_connection(server.address("metrics"), timeout=seconds) as one:
        one.sendall(octets)
        found = b""
        try:
            while piece := one.recv(65_536):
                found += piece
        except ConnectionResetError:
            pass
        return found


def samples(page):
    """The samples of a page by name and labels; a fault is a text. Each family has its HELP and TYPE first."""
    found, family = {}, None
    lines = page.decode().split("\n")
    if lines.pop() != "":
        return "no line feed at the end"
    for line in lines:
        words = line.split(" ")
        if line.startswith("# HELP "):
            family = words[2]
        elif line.startswith("# TYPE "):
            if words[2] != family or words[3] not in TYPES or len(words) != 4:
                return line
        else:
            seen = SAMPLE.fullmatch(line)
            if not seen or not seen.group(1).startswith(family):
                return line
            key = seen.group(1), tuple(LABEL.findall(seen.group(2) or ""))
            if key in found:
                return f"twice: {line}"
            found[key] = float(seen.group(3))
    return found


def scrape(server):
    return samples(ask(server, "GET", "/metrics")[2])


def of_listener(found, name, listener, *more):
    return found.get((name, (("listener", listener), *more)))


def counts(runs):
    """What was sent to each listener is counted there, and nowhere else."""
    path = str(runs.path / 'a "socket" \\ here')
    words = [*any_port("udp"), *any_port("lf"), *any_port("counted"), "--unix", path, "--allow", HERE, *METRICS, *SOON]
    with runs.until_eof(*words) as server:
        names = {kind: f"{kind} {spelled(address).decode()}" for kind, address in server.places() if kind not in ("unix", "metrics")}
        # a name as it is told has no quote and no backslash but those of its escapes, which are escaped here once more
        names["unix"] = "unix " + path.replace("\\", "\\\\x5c").replace('"', "\\\\x22")
        held = [numbered(n) for n in range(30)]
        server.datagrams("udp", *held[:5], b"no record")
        server.send("lf", b"".join(one + b"\n" for one in held[5:15]), b"x\ny\n", b"z" * 300_000 + b"\n")
        server.send("counted", counted(held[15:30]), b"x")
        server.send("counted", b"300 cut")
        server.datagrams(("unix", path), held[0], held[0])
        with server.open("udp", OTHER) as one:
            one.send(Z)
        text = sorted(held)
        runs.results.check("all is held", until(lambda: sorted(server.held()) == text))
        until(lambda: of_listener(scrape(server), "syslogbox_not_allowed_total", names["udp"]) == 1)
        found = scrape(server)
        runs.results.check("the page is one of Prometheus", isinstance(found, dict), str(found)[:300])
        for kind, records, fault, too_long, broken, strangers in [("udp", 5, 1, 0, 0, 1), ("lf", 10, 2, 1, 0, 0), ("counted", 15, 0, 0, 2, 0), ("unix", 2, 0, 0, 0, 0)]:
            seen = [of_listener(found, "syslogbox_received_records_total", names[kind]),
                    *(of_listener(found, "syslogbox_refused_frames_total", names[kind], ("fault", of)) for of in ("record", "too-long", "broken")),
                    of_listener(found, "syslogbox_not_allowed_total", names[kind])]
            runs.results.same(f"counts of {kind}", seen, [records, fault, too_long, broken, strangers])
        octets = of_listener(found, "syslogbox_received_octets_total", names["counted"])
        runs.results.same("octets of connections", octets, len(counted(held[15:30])) + len(b"x") + len(b"300 cut"))
        whole = {name: value for (name, labels), value in found.items() if not labels}
        runs.results.same("records that are new", whole["syslogbox_new_records_total"], 30)
        runs.results.same("records that were held", whole["syslogbox_held_records_total"], 2)
        runs.results.same("connections", whole["syslogbox_connections"], 0)
        runs.results.same("the disk", whole["syslogbox_disk_full"], 0)
        runs.results.check("the last commit is now", abs(whole["syslogbox_last_commit_timestamp_seconds"] - time.time()) < 5)
        runs.results.check("commits", whole["syslogbox_batches_total"] == whole["syslogbox_commit_seconds_count"] >= 1)
        buckets = [value for (name, labels), value in found.items() if name == "syslogbox_commit_seconds_bucket"]
        runs.results.check("buckets go up to all", buckets == sorted(buckets) and buckets[-1] == whole["syslogbox_commit_seconds_count"], str(buckets))
        bounds = [dict(labels)["le"] for (name, labels) in found if name == "syslogbox_commit_seconds_bucket"]
        runs.results.check("bounds of buckets", bounds[-1] == "+Inf" and list(map(float, bounds[:-1])) == BOUNDS, str(bounds))
        version = runs.program.run(["--version"])
        runs.results.check("the version", any(name == "syslogbox_build_info" and dict(labels)["version"].encode() in version[1] + version[2] for name, labels in found))


def gauge(runs):
    """Open connections are counted up and down, also those that a server ends."""
    with runs.until_eof(*any_port("lf"), *any_port("counted"), *METRICS, *SOON) as server:
        value = lambda: scrape(server)[("syslogbox_connections", ())]
        open_ones = [server.open("lf") for _ in range(7)]
        runs.results.check("connections are counted", until(lambda: value() == 7), str(value()))
        for one in open_ones[:3]:
            end(one)
        runs.results.check("those that ended are not", until(lambda: value() == 4), str(value()))
        with server.open("counted") as one:
            one.sendall(b"x")
            runs.results.check("one that the server ends is not", until(lambda: value() == 4), str(value()))
        for one in open_ones[3:]:
            one.close()


def answers(runs):
    """Each method and target has its answer."""
    with runs.until_eof(*any_port("udp"), *METRICS, *SOON) as server:
        rows = [("GET", "/metrics", 200), ("HEAD", "/metrics", 200), ("GET", "/metrics?x=1", 200), ("GET", "/health", 200), ("HEAD", "/health", 200),
                ("GET", "/", 404), ("GET", "/metric", 404), ("GET", "/metrics/", 404), ("HEAD", "/no", 404), ("POST", "/metrics", 405), ("DELETE", "/", 405)]
        for method, target, right in rows:
            status, headers, body = ask(server, method, target)
            runs.results.same(f"{method} {target}", status, right)
            runs.results.check(f"{method} {target}: its length", method == "HEAD" and not body and int(headers["Content-Length"]) > 0 or len(body) == int(headers["Content-Length"]))
            runs.results.same(f"{method} {target}: closed", headers.get("Connection"), "close")
        runs.results.same("methods that are taken", ask(server, "POST", "/metrics")[1].get("Allow"), "GET, HEAD")
        runs.results.same("health", ask(server, "GET", "/health")[2], b"ok\n")
        runs.results.same("what kind of text", ask(server, "GET", "/metrics")[1]["Content-Type"], "text/plain; version=0.0.4; charset=utf-8")
        for name, octets in [("no head", b"hello\r\n\r\n"), ("an octet of no head", b"\0"), ("HTTP/2", b"PRI * HTTP/2.0\r\n\r\n"), ("a head without an end", b"GET / HTTP/1.1\r\nA: " + b"b" * HEAD_MAX)]:
            runs.results.check(f"{name} is refused", raw(server, octets).startswith(b"HTTP/1.1 400 "))
        whole = b"GET /health HTTP/1.1\r\nHost: h\r\n\r\n"
        for at in range(1, len(whole), 5):
            with socket.create_connection(server.address("metrics"), timeout=20) as one:
                one.sendall(whole[:at])
                time.sleep(0.02)
                one.sendall(whole[at:])
                runs.results.check(f"a head that is split at {at}", one.recv(65_536).startswith(b"HTTP/1.1 200 "))
        runs.ends("after all that", server, 0)


def slow(runs):
    """Those who ask and say nothing, or take nothing, keep nobody from sending, and end after ten seconds."""
    with runs.until_eof(*any_port("udp"), *METRICS, *SOON) as server:
        silent = [socket.create_connection(server.address("metrics"), timeout=40) for _ in range(3 * ASKERS)]
        begun = time.monotonic()
        server.datagrams("udp", Y)
        runs.holds("beside silent ones", server, Y)
        ends = []
        for one in silent:
            with one:
                one.settimeout(60)
                runs.results.check("a silent one is closed", one.recv(1) == b"")
                ends.append(time.monotonic() - begun)
        runs.results.check("after ten seconds each", SECONDS_MAX - 1 <= min(ends) and max(ends) <= 3 * SECONDS_MAX + 10, f"{min(ends)} {max(ends)}")
        runs.results.same("then others are answered", ask(server, "GET", "/health")[0], 200)
        runs.ends("after silent ones", server, 0)


def full(runs):
    """On a full disk the health is not ok, and it is again once there is room; metrics are shown meanwhile."""
    store = runs.store()
    environment = Keeper(runs.program).tracing(store, runs.path / "log", full="100000 3")
    sent = [b"%b %b" % (numbered(n), b"x" * 2_000) for n in range(100)]
    with runs.until_eof(*any_port("counted"), *METRICS, *SOON, store=store, environment=environment) as server:
        server.send("counted", counted(sent))
        seen = []

        def is_full():
            seen.append(ask(server, "GET", "/health"))
            return seen[-1][0] == 503

        runs.results.check("a full disk is no health", until(is_full), str(seen[-1:]))
        runs.results.check("a full disk is a metric", until(lambda: scrape(server)[("syslogbox_disk_full", ())] == 1 or b"store has room" in server.lines()))
        runs.holds("a disk with room again", server, *sent)
        runs.results.check("then it is well", until(lambda: ask(server, "GET", "/health")[0] == 200))


def taken(runs):
    """A port that another has: the server does not begin."""
    with socket.create_server((HERE, 0)) as other:
        place = spelled(other.getsockname())
        runs.refused("a port of somebody else", [*any_port("udp"), "--metrics", place.decode()], place.decode(), "use")
    for text in "9514", "localhost:9514", ":9514", "":
        status, output, lines = runs.program.run(["serve", str(runs.store()), "--udp", f"{HERE}:0", "--metrics", text])
        runs.results.check(f"{text!r} is no address", status == 2 and b"--metrics" in lines and output == b"", str(lines))


def watching(program, results):
    for test in counts, gauge, answers, slow, full, taken:
        with tempfile.TemporaryDirectory() as path:
            test(Runs(program, results, path))

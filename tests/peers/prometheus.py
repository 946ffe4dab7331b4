"""Has a real Prometheus scrape `serve --metrics` under load, and compares what it holds with what was sent; promtool looks
at the page, the configuration and the rules. Needs Debian's `prometheus`.

usage: tests/run.py prometheus PROGRAM [--records N]
"""
import argparse
import json
import shutil
import socket
import subprocess
import tempfile
import time
import urllib.parse
import urllib.request
from pathlib import Path

from lib.loopback import HERE, free_port
from lib.program import ROOT, Folder, Program
from lib.reference import counted
from lib.results import Results
from lib.server import Runs, SOON, any_port, numbered, until

CONTRIB = ROOT / "contrib"
CONFIGURATION = """
global: {scrape_interval: 1s, scrape_timeout: 1s, evaluation_interval: 1s}
rule_files: ["%s"]
scrape_configs:
  - job_name: syslogbox
    static_configs: [{targets: ["%s:%d"]}]
"""


def promtool(results, *words, octets=None):
    done = subprocess.run(["promtool", *map(str, words)], input=octets, capture_output=True, cwd=CONTRIB)
    results.check(f"promtool {' '.join(map(str, words))}", done.returncode == 0 and not (octets and done.stderr), (done.stdout + done.stderr).decode()[:600])


def asked(port, path, **words):
    """What Prometheus answers."""
    with urllib.request.urlopen(f"http://{HERE}:{port}/api/v1/{path}?{urllib.parse.urlencode(words)}", timeout=10) as answer:
        return json.load(answer)["data"]


def value(port, expression):
    """The value of an expression that has one, or None."""
    try:
        found = asked(port, "query", query=expression)["result"]
    except OSError:
        return None
    return float(found[0]["value"][1]) if len(found) == 1 else None


def firing(port, name):
    alerts = asked(port, "alerts")["alerts"]
    return any(one["labels"]["alertname"] == name for one in alerts)


def scraped(program, results, records, path):
    runs, port = Runs(program, results, path), free_port(socket.SOCK_STREAM)
    with runs.until_eof(*any_port("counted"), *any_port("udp"), "--metrics", f"{HERE}:0", *SOON) as server:
        place = server.address("metrics")
        page = urllib.request.urlopen(f"http://{place[0]}:{place[1]}/metrics", timeout=10).read()
        promtool(results, "check", "metrics", octets=page)
        configuration = Path(path) / "prometheus.yml"
        configuration.write_text(CONFIGURATION % (CONTRIB / "syslogbox-alerts.yml", *place))
        words = ["prometheus", f"--config.file={configuration}", f"--storage.tsdb.path={path}/data", f"--web.listen-address={HERE}:{port}"]
        with subprocess.Popen(words, stdout=subprocess.DEVNULL, stderr=subprocess.DEVNULL) as prometheus:
            try:
                results.check("Prometheus scrapes", until(lambda: value(port, 'up{job="syslogbox"}') == 1, 30))
                begun = time.monotonic()
                for first in range(0, records, 1_000):
                    server.send("counted", counted([numbered(n) for n in range(first, min(first + 1_000, records))]))
                server.datagrams("udp", b"no record", numbered(0))
                seconds = time.monotonic() - begun
                for expression, right in [("sum(syslogbox_received_records_total)", records + 1), ("syslogbox_new_records_total", records),
                                          ('syslogbox_refused_frames_total{listener=~"udp.*",fault="record"}', 1), ("syslogbox_held_records_total", 1),
                                          ("syslogbox_disk_full", 0)]:
                    results.check(f"{expression} is {right}", until(lambda: value(port, expression) == right, 15), str(value(port, expression)))
                results.check("no alert fires", not firing(port, "SyslogboxStoreWaits"))
                print(f"{records} records in {seconds:.1f} s beside a scrape a second")
                runs.ends("beside Prometheus", server, 1, *[line for line in server.lines()])
                results.check("a server that is gone is seen", until(lambda: value(port, 'up{job="syslogbox"}') == 0, 15))
            finally:
                prometheus.terminate()


def main(words):
    parser = argparse.ArgumentParser(prog="tests/run.py prometheus", description=__doc__.split("\n\n")[0])
    parser.add_argument("program")
    parser.add_argument("--records", type=int, default=100_000)
    asked_for = parser.parse_args(words)
    results = Results()
    if not shutil.which("prometheus") or not shutil.which("promtool"):
        results.skip("prometheus", "there is no prometheus or no promtool")
        return results.end()
    promtool(results, "check", "config", "prometheus.yml")
    promtool(results, "check", "rules", "syslogbox-alerts.yml")
    promtool(results, "test", "rules", "syslogbox-alerts-test.yml")
    with tempfile.TemporaryDirectory() as path:
        scraped(Program(asked_for.program, Folder(path)), results, asked_for.records, path)
    return results.end()

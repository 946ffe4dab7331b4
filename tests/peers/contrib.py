"""The files of contrib/, as they stand except for ports, folders and paths."""
import os
import signal
import socket
import ssl
import subprocess
import tempfile
import time
from contextlib import ExitStack
from pathlib import Path

from lib import reference
from lib.loopback import HERE, NEVER, free_port, until_bound
from lib.program import ROOT
from peers.clients import PAUSE, numbered
from peers.daemons import found
from peers.server import Server

CONTRIB = ROOT / "contrib"
COUNT = 200  # records of each part
AWAY = 6  # times as many records as a client has come while a server is away: more than a queue in memory holds
LATER = 60  # seconds in which they have to be there, once it is back
BACK = 13  # seconds after which a daemon has found a server that came back, by the files
KILLS, EACH = 2, 600  # kills, and the records before each
UNIT_KINDS = ["service", "socket", "timer"]
EXPOSURE = 2.0  # of a service, as `systemd-analyze security` judges it from 0 to 10


def text_of(name, **places):
    """A file, in which other values stand in the places of some that it has once."""
    text = (CONTRIB / name).read_text()
    for old, new in places.values():
        assert text.count(old) == 1, (name, old)
        text = text.replace(old, new)
    return text


def rsyslog(_, folder, port, to):
    text = text_of("rsyslog.conf", port=('"601"', f'"{to}"'))
    return (f'global(workDirectory="{folder}")\nmodule(load="imtcp")\n{text}'
            f'input(type="imtcp" address="{HERE}" port="{port}")\n')


def syslog_ng(daemon, folder, port, to):
    release = daemon.version().split()[1].rpartition(".")[0]
    text = text_of("syslog-ng.conf", port=("port(601)", f"port({to})"),
                   folder=("disk-buffer(", f'disk-buffer(dir("{folder}") '))
    return (f"@version: {release}\noptions {{ stats-freq(0); }};\n"
            f'source s_src {{ syslog(ip("{HERE}") port({port}) transport("tcp")); }};\n{text}')


CONFIGURATIONS = {"rsyslog": rsyslog, "syslog-ng": syslog_ng}


def archive(program, records):
    return program.run(["archive", "--framing", "counted", "--trim"], reference.counted(records))


def until_held(results, name, program, server, records, seconds=NEVER):
    """Waits until the store has these records, and tells for how many seconds; whether all are there."""
    right, begun = archive(program, records), time.monotonic()
    while (seen := server.read()) != right and time.monotonic() - begun < seconds:
        time.sleep(0.1)
    count = len(reference.counted_frames(seen[1])[0])
    results.check(f"{name}: all is there", seen == right, f"{count} of {len(records)}; {seen[2]!r}")
    if seen == right:
        print(f"{name}: {len(records):,} records are there after {time.monotonic() - begun:.0f} s", flush=True)
    return seen == right


def send(connection, records, pause=PAUSE):
    for octets in records:
        connection.sendall(reference.framed("counted", octets))
        time.sleep(pause)


def begun(stack, program, daemon, folder):
    """A server, and a daemon with its file, until the stack ends them; and a connection to the daemon."""
    own, port = folder / daemon.name, free_port(socket.SOCK_STREAM)
    own.mkdir(parents=True)
    server = Server(program.path, folder / f"{daemon.name}-server", ["--trim"])
    stack.callback(server.end)
    server.start()
    stack.callback(daemon.stop)
    daemon.start(own, CONFIGURATIONS[daemon.name](daemon, own, port, server.ports["counted"]), port)
    return server, stack.enter_context(socket.create_connection((HERE, port), NEVER))


def forwarded(program, results, daemon, folder, away):
    """What a daemon gets comes, and what it gets while the server is away comes later."""
    name, records = f"contrib/{daemon.name}.conf", numbered(daemon.name, COUNT + away)
    with ExitStack() as stack:
        server, connection = begun(stack, program, daemon, folder / "away")
        send(connection, records[:COUNT])
        well = until_held(results, name, program, server, records[:COUNT])
        server.end(signal.SIGTERM)
        send(connection, records[COUNT:], 0)
        server.start()
        if not until_held(results, f"{name}, the server was away", program, server, records, LATER) or not well:
            print(daemon.stop()[-2_000:])


def killed(program, results, daemon, folder):
    """How many records are lost where the server is killed while they come: syslog has no answers, so that a daemon
    does not know what was not committed."""
    name, records = f"contrib/{daemon.name}.conf", numbered(daemon.name, KILLS * EACH)
    with ExitStack() as stack:
        server, connection = begun(stack, program, daemon, folder / "killed")
        for at in range(0, len(records), EACH):
            send(connection, records[at:at + EACH])
            server.end()
            server.start()
            time.sleep(BACK)
        here = set(reference.counted_frames(server.read()[1])[0])
    results.check(f"{name}: nothing is made up", here <= set(records), len(here - set(records)))
    lost = len(set(records) - here)
    print(f"{name}: of {len(records):,} records, at most {1 / PAUSE:.0f} a second, {lost:,} were lost by {KILLS} kills",
          flush=True)


def certificate(folder):
    """A key with its certificate, and the certificate alone."""
    key, alone = folder / "key.pem", folder / "certificate.pem"
    subprocess.run(["openssl", "req", "-x509", "-newkey", "rsa:2048", "-nodes", "-days", "2", "-subj", "/CN=localhost",
                    "-keyout", str(key), "-out", str(alone)], capture_output=True, check=True)
    both = folder / "syslog.pem"
    both.touch(0o600)
    both.write_bytes(key.read_bytes() + alone.read_bytes())
    return both, alone


def stunnel(program, results, path, folder):
    """TLS in front of counted streams."""
    server, records = Server(program.path, folder / "stunnel-server", ["--trim"]), numbered("stunnel", COUNT)
    port, (both, alone), own = free_port(socket.SOCK_STREAM), certificate(folder), folder / "stunnel.conf"
    text = text_of("stunnel.conf", accept=("accept = 6514", f"accept = {HERE}:{port}"),
                   connect=("127.0.0.1:601", f"{HERE}:{server.ports['counted']}"),
                   certificate=("/etc/stunnel/syslog.pem", str(both)))
    own.write_text(f"foreground = yes\npid =\n{text}")
    with ExitStack() as stack, open(folder / "stunnel.log", "w+") as log:
        stack.callback(server.end)
        server.start()
        process = subprocess.Popen([path, str(own)], stdin=subprocess.DEVNULL, stdout=log, stderr=log)
        stack.callback(process.wait)
        stack.callback(process.terminate)
        until_bound(socket.SOCK_STREAM, port, lambda: process.poll() is not None)
        plain, context = socket.create_connection((HERE, port), NEVER), ssl.create_default_context(cafile=str(alone))
        with context.wrap_socket(plain, server_hostname="localhost") as connection:
            send(connection, records)
        if not until_held(results, "contrib/stunnel.conf", program, server, records):
            log.seek(0)
            print(log.read()[-2_000:])


# ---------------------------------------------------------------- the units

KINDS = {"ListenDatagram": socket.SOCK_DGRAM, "ListenStream": socket.SOCK_STREAM}


def of_unit(name):
    """The keys of a unit and their values, in their order."""
    lines = (CONTRIB / name).read_text().splitlines()
    return [(key, value) for key, sign, value in (line.partition("=") for line in lines) if sign]


def opened(kind, room):
    """A socket on a free port, as a service manager opens it."""
    one = socket.socket(socket.AF_INET, kind)
    one.setsockopt(socket.SOL_SOCKET, socket.SO_RCVBUF, room)
    one.bind((HERE, 0))
    if kind == socket.SOCK_STREAM:
        one.listen()
    return one


def connected(one):
    client = socket.socket(one.family, one.type)
    client.connect(one.getsockname())
    return client


def handed_over(sockets):
    """Puts sockets on descriptor 3 and those behind it, in a process that begins a program."""
    def put():
        away = [os.dup2(one.fileno(), 100 + n) for n, one in enumerate(sockets)]
        for n, fd in enumerate(away):
            os.dup2(fd, 3 + n)
            os.close(fd)
    return put


def units(program, results, folder):
    """The words of the service, on the sockets of the other unit: what came to these before the start is read."""
    (words,) = [value for key, value in of_unit("syslogbox.service") if key == "ExecStart"]
    store, records = folder / "handed-over", numbered("units", 3 * COUNT)
    words = [program.path, "serve", str(store), *words.split()[3:]]
    keys = of_unit("syslogbox.socket")
    room = int(dict(keys)["ReceiveBuffer"].removesuffix("M")) << 20
    sockets = [opened(KINDS[key], room) for key, _ in keys if key in KINDS]
    clients = [connected(one) for one in sockets]
    for n, octets in enumerate(records):
        framed = octets if n % 3 == 0 else reference.framed("counted" if n % 3 == 1 else "lf", octets)
        clients[n % 3].send(framed)
    for one in clients:
        one.close()
    process = subprocess.Popen([*words, "--until-eof"], stdin=subprocess.PIPE, stderr=subprocess.PIPE, close_fds=False,
                               preexec_fn=handed_over(sockets))
    _, notes = process.communicate(timeout=NEVER)
    for one in sockets:
        one.close()
    results.check("the units: the server ends with status 0", process.returncode == 0, notes[-300:])
    listening = notes.count(b"listening ")
    results.check("the units: each socket is listened on", listening == len(sockets) == 3, notes[-300:])
    results.same("the units: what came before the start", program.run(["read", str(store)]), archive(program, records))


def analyzed(program, results, path, folder):
    """What systemd-analyze says of the units, whose program is this one."""
    own = folder / "units"
    own.mkdir()
    for unit in [one for kind in UNIT_KINDS for one in CONTRIB.glob(f"*.{kind}")]:
        text = unit.read_text().replace("/usr/bin/syslogbox", program.path).replace("/usr/lib/syslogbox", str(CONTRIB))
        (own / unit.name).write_text(text)
        if "@." in unit.name:
            (own / unit.name.replace("@.", "@1.")).write_text(text)
    told = [str(unit) for unit in sorted(own.iterdir()) if "@." not in unit.name]
    seen = subprocess.run([path, "verify", "--man=no", *told], capture_output=True, text=True)
    results.check("systemd-analyze verify", (seen.returncode, seen.stdout + seen.stderr) == (0, ""), seen.stdout + seen.stderr)
    for unit in [one for one in told if one.endswith(".service")]:
        seen = subprocess.run([path, "security", "--offline=true", "--no-pager", f"--threshold={int(EXPOSURE * 10)}", unit],
                              capture_output=True, text=True)
        last = " ".join(word for word in seen.stdout.split("\n→")[-1].split() if word.isascii())
        results.check(f"systemd-analyze security: at most {EXPOSURE}", seen.returncode == 0, last or seen.stderr)
        print(f"systemd-analyze security: {last}")


def contrib(program, results, tools, daemons, count):
    with tempfile.TemporaryDirectory(prefix="syslogbox-") as path:
        folder = Path(path)
        for daemon in daemons:
            forwarded(program, results, daemon, folder, AWAY * count)
            killed(program, results, daemon, folder)
        units(program, results, folder)
        for name, tried in (("stunnel4", stunnel), ("systemd-analyze", analyzed)):
            path, _ = found(name, tools)
            if path:
                tried(program, results, path, folder)
            else:
                print(f"{name} is not here: skipped")

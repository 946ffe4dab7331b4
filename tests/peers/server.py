"""`serve` over a folder, on ports and at a path of its own; it can be killed and started again there."""
import random
import signal
import socket
import subprocess
import time
from pathlib import Path

from lib.loopback import HERE, kind_of
from lib.program import run

PATIENCE = 60  # seconds, after which a server is given up
QUIET = range(20_000, 32_000)  # ports that the system gives to no client: they stay free while a server is away
WAYS = ("udp", "counted", "lf")


def quiet_port(kind):
    """A port that is free for a server, and stays so when it is away."""
    while True:
        port = random.choice(QUIET)
        with socket.socket(socket.AF_INET, kind) as one:
            try:
                one.bind((HERE, port))
                return port
            except OSError:
                pass


def resident(pid):
    """KiB of resident memory of a process, 0 where it has ended."""
    lines = Path(f"/proc/{pid}/status").read_text().splitlines()
    return next((int(line.split()[1]) for line in lines if line.startswith("VmRSS:")), 0)


class Server:
    """A server with a listener of each kind."""

    def __init__(self, program, folder, words=(), environment=None):
        folder.mkdir(exist_ok=True)
        self.program = str(program)
        self.store, self.path, self.log = folder / "store", folder / "socket", folder / "log"
        self.ports = {way: quiet_port(kind_of(way)) for way in WAYS}
        listeners = [word for way, port in self.ports.items() for word in (f"--{way}", f"{HERE}:{port}")]
        self.words = [self.program, "serve", str(self.store), *listeners, "--unix", str(self.path), *map(str, words)]
        self.environment, self.process = environment, None

    def start(self):
        """Starts it, and waits until it listens."""
        begun, told = time.monotonic(), self.log.stat().st_size if self.log.exists() else 0
        with open(self.log, "ab") as notes:
            self.process = subprocess.Popen(self.words, stdin=subprocess.PIPE, stdout=subprocess.DEVNULL, stderr=notes,
                                            env=self.environment)
        while self.log.read_bytes()[told:].count(b"listening ") <= len(WAYS):
            if self.process.poll() is not None or time.monotonic() - begun > PATIENCE:
                raise RuntimeError(f"{' '.join(self.words)}: {self.log.read_bytes()[told:][-500:]!r}")
            time.sleep(0.002)

    def runs(self):
        return self.process.poll() is None

    def end(self, by=signal.SIGKILL):
        """Ends it by a signal, if it was started; gives its status."""
        if not self.process:
            return None
        self.process.send_signal(by)
        return self.wait()

    def wait(self):
        self.process.stdin.close()
        return self.process.wait(PATIENCE)

    def lines(self):
        """What it told, of all its runs."""
        return self.log.read_bytes().splitlines()

    def run(self, *words):
        """Status, output and notes of a command on the store."""
        return run(self.program, words)

    def read(self):
        """The archive of the store."""
        return self.run("read", str(self.store))

    def verify(self):
        return self.run("verify", str(self.store))

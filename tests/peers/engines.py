"""Engines on this machine alone: GNU parallel, Slurm and Dask, with files and ports of their own."""
import os
import shutil
import socket
import subprocess
import time
from getpass import getuser

from lib.loopback import HERE, NEVER, free_port, until_bound
from lib.program import ROOT

CLUSTER = ROOT / "cluster"
PYTHON = "/usr/bin/python3"  # that of Debian's packages


def told(words, environment=None):
    return subprocess.run(words, env={**os.environ, **(environment or {})}, capture_output=True, text=True).stdout


def until(holds, what):
    """Waits until something holds."""
    begun = time.monotonic()
    while not holds():
        if time.monotonic() - begun > NEVER:
            raise RuntimeError(f"{what}: not after {NEVER} s")
        time.sleep(0.01)


class Engine:
    """An engine in a folder; `environment` is that of its recipes."""

    tools, packages = (), ""

    def __init__(self, folder, environment):
        self.folder = folder
        self.environment = environment
        self.daemons = []

    def is_there(self):
        return all(shutil.which(tool, path=os.environ["PATH"] + ":/usr/sbin") for tool in self.tools)

    def run(self, *words):
        """Starts a daemon in the foreground."""
        with open(self.folder / f"{words[0]}.log", "wb") as log:
            environment = {**os.environ, "PATH": os.environ["PATH"] + ":/usr/sbin", **self.environment}
            self.daemons.append(subprocess.Popen(words, env=environment, stdin=subprocess.DEVNULL, stdout=log,
                                                 stderr=log))

    def start(self, workers):
        """Starts the engine with so many workers."""

    def stop(self):
        """Stops the daemons, the last first."""
        for daemon in reversed(self.daemons):
            daemon.terminate()
            try:
                daemon.wait(NEVER)
            except subprocess.TimeoutExpired:
                daemon.kill()
                daemon.wait()
        self.daemons = []


class Parallel(Engine):
    name, tools, packages = "GNU parallel", ("parallel",), "parallel"

    def version(self):
        return told(["parallel", "--version"]).splitlines()[0]

    def recipe(self, inputs, out, ranges, jobs):
        return [CLUSTER / "parallel.sh", inputs, out, ranges, jobs]


class Slurm(Engine):
    """One node, whose daemons know each other by a munged of their own."""

    name, tools, packages = "Slurm", ("munged", "slurmctld", "slurmd", "sbatch"), "slurm-wlm munge"

    def version(self):
        return told(["/usr/sbin/slurmctld", "-V"]).strip().replace("slurm-wlm", "Slurm")

    def recipe(self, inputs, out, ranges, jobs):
        return [CLUSTER / "slurm" / "union.sh", inputs, out, ranges, jobs]

    def start(self, workers):
        folder, host, name = self.folder, socket.gethostname().split(".")[0], getuser()
        ports = [free_port(socket.SOCK_STREAM) for _ in range(2)]
        (folder / "key").touch(0o600)
        (folder / "key").write_bytes(os.urandom(1_024))
        for part in ("state", "spool", "run"):
            (folder / part).mkdir(exist_ok=True)
        (folder / "slurm.conf").write_text(
            f"ClusterName=one\nSlurmctldHost={host}({HERE})\nSlurmctldPort={ports[0]}\nSlurmdPort={ports[1]}\n"
            f"AuthType=auth/munge\nCredType=cred/munge\nAuthInfo=socket={folder}/run/munge\nSlurmUser={name}\n"
            f"SlurmdUser={name}\nStateSaveLocation={folder}/state\nSlurmdSpoolDir={folder}/spool\n"
            f"SlurmctldPidFile={folder}/slurmctld.pid\nSlurmdPidFile={folder}/slurmd.pid\n"
            "ProctrackType=proctrack/linuxproc\nTaskPlugin=task/none\nSwitchType=switch/none\nMpiDefault=none\n"
            "SelectType=select/cons_tres\nSelectTypeParameters=CR_Core\nReturnToService=2\n"
            "SchedulerParameters=sched_interval=1,batch_sched_delay=0\n"
            f"NodeName={host} NodeAddr={HERE} CPUs={workers} State=UNKNOWN\n"
            f"PartitionName=all Nodes={host} Default=YES MaxTime=INFINITE State=UP\n")
        self.environment = {**self.environment, "SLURM_CONF": str(folder / "slurm.conf")}
        self.run("munged", "--foreground", f"--key-file={folder}/key", f"--socket={folder}/run/munge",
                 f"--pid-file={folder}/munged.pid", f"--log-file={folder}/munge.log", f"--seed-file={folder}/seed")
        until(lambda: (folder / "run" / "munge").exists(), "munged")
        self.run("slurmctld", "-D", "-c")
        until(lambda: "is UP" in self.asked("scontrol", "ping"), "slurmctld")
        self.run("slurmd", "-D")
        until(lambda: "idle" in self.asked("sinfo"), "slurmd")

    def asked(self, *words):
        return told(words, self.environment)


class Dask(Engine):
    """A scheduler, and workers of one thread each that are started again where they are lost."""

    name, tools, packages = "Dask", ("dask-scheduler", "dask-worker"), "python3-distributed python3-dask"

    def version(self):
        return "Dask " + told([PYTHON, "-c", "import distributed; print(distributed.__version__)"]).strip()

    def recipe(self, inputs, out, ranges, jobs):
        return [PYTHON, CLUSTER / "dask_union.py", inputs, out, ranges, f"tcp://{HERE}:{self.port}"]

    def start(self, workers):
        self.port = free_port(socket.SOCK_STREAM)
        self.run("dask-scheduler", "--host", HERE, "--port", str(self.port), "--no-dashboard", "--no-show")
        until_bound(socket.SOCK_STREAM, self.port, lambda: self.daemons[0].poll() is not None)
        self.run("dask-worker", f"tcp://{HERE}:{self.port}", "--host", HERE, "--nworkers", str(workers),
                 "--nthreads", "1", "--no-dashboard", "--local-directory", str(self.folder))
        log = self.folder / "dask-worker.log"
        until(lambda: log.read_text().count("Registered to") >= workers, "dask-worker")

"""The recipes of cluster/ say at once what is not here, before any work is done."""
import os
import shutil
import sys
from pathlib import Path

from results import ROOT, run

TOOLS = "bash cat dirname mkdir nproc realpath seq".split()
ANOTHER = "#!/bin/sh\necho 'parallel from another package'\n"
GNU = "#!/bin/sh\necho 'GNU parallel 20221122'\n"
REFUSES = "#!/bin/sh\necho refused >&2\nexit 1\n"


def commands(folder, **own):
    """A path of these tools, and of commands of these texts."""
    folder.mkdir()
    for name, path in [("python3", sys.executable), *((name, shutil.which(name)) for name in TOOLS)]:
        (folder / name).symlink_to(os.path.realpath(path))
    for name, text in own.items():
        (folder / name).write_text(text)
        (folder / name).chmod(0o755)
    return {"PATH": str(folder)}


def recipes(room, results):
    archives = room / "list"
    archives.write_text("archive\n")
    rows = [("no parallel", "parallel.sh", [], {}, "GNU parallel is not here"),
            ("another parallel", "parallel.sh", [], {"parallel": ANOTHER}, "GNU parallel is not here"),
            ("no program", "parallel.sh", [], {"parallel": GNU}, "syslogbox is not here"),
            ("no sbatch", "slurm/union.sh", ["4"], {}, "sbatch is not here"),
            ("no Dask", "dask_union.py", ["4", "tcp://127.0.0.1:9"], {}, "has no Dask")]
    for name, recipe, more, own, text in rows:
        out = room / f"{name}, out"
        words = [ROOT / "cluster" / recipe, archives, out, *more]
        # without the packages of the machine's Python
        status, said = run(words, cwd=room, env={**commands(room / name, **own), "PYTHONPATH": hidden(room)})
        seen = status and text in said and said.count("\n") == 1 and not Path(f"{out}.work").exists()
        results.check(f"cluster/{recipe}: {name}", seen, f"{status} {said}")
    status, said = run([ROOT / "cluster/slurm/union.sh", archives, room / "out", "4"], env=commands(room / "refused", sbatch=REFUSES,
                                                                                                     squeue=REFUSES))
    results.check("cluster/slurm/union.sh: a job is refused", (status, said) == (1, "refused\n"), f"{status} {said}")


def hidden(room):
    """A folder of Python in which Dask is not to be had, whether it is installed or not."""
    folder = room / "python"
    folder.mkdir(exist_ok=True)
    (folder / "dask.py").write_text("raise ImportError\n")
    return str(folder)

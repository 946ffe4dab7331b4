"""The first command of who has no toolchain: `make` in a clean clone, and the first record."""
import shutil
import subprocess
import time
from pathlib import Path

from results import clone, lacking, name_sources, run

RECORD = b"<165>1 - - - - - - hello"
# all that `make` may call: a compiler, make, and the usual small programs
TOOLS = """gcc as ld make sh cat cp cut dirname find gzip mkdir sha256sum sort tr uname xargs""".split()
SOURCE = "crates/syslogbox/src/main.rt"


def path_of_tools(folder):
    """A path that has these tools alone."""
    folder.mkdir()
    for name in TOOLS:
        (folder / name).symlink_to(shutil.which(name))
    return str(folder)


def converts(program):
    """Whether a program converts the first record."""
    done = subprocess.run([program, "convert"], input=RECORD, capture_output=True)
    return (done.returncode, done.stdout) == (0, RECORD)


def first(room, results):
    missing = lacking(*TOOLS)
    if missing:
        results.skip("the first command", f"there is no {missing}")
        return
    folder = clone(room / "clone")
    only = {"PATH": path_of_tools(room / "tools")}
    hidden = all(shutil.which(name, path=only["PATH"]) is None for name in ["rt", "python3", "git"])
    results.check("the toolchain, python and git are hidden", hidden)
    before = time.monotonic()
    status, said = run(["make"], cwd=folder, env=only)
    results.check("make links the program", status == 0 and "is linked from release/" in said, said)
    if status:
        return
    convert = [str(folder / "build/syslogbox"), "convert"]
    done = subprocess.run(convert, input=RECORD, capture_output=True, env=only)
    took = time.monotonic() - before
    results.check("the first record is converted", (done.returncode, done.stdout) == (0, RECORD), str(done))
    results.check("within five seconds", took < 5, f"{took:.1f} s")
    print(f"make and the first record took {took:.2f} s without a toolchain")
    if not lacking("readelf"):
        said = run(["readelf", "-d", folder / "build/syslogbox"])[1]
        results.check("its calls are bound before it starts", "BIND_NOW" in said, said)
    wanting(folder, only, results)
    name_sources(folder)
    shutil.rmtree(folder / "build")
    status, said = run(["make"], cwd=folder, env=only)
    results.check("make says of which sources it is", status == 0 and "make proved" not in said, said)
    status, said = run(["make"], cwd=folder, env=only)
    results.check("make links once", status == 0 and "from the sources as they are" in said, said)
    with open(folder / SOURCE, "a", encoding="utf-8") as source:
        source.write("// changed\n")
    status, said = run(["make"], cwd=folder, env=only)
    results.check("make says that the sources are different", status == 0 and "'make proved' proves and builds them" in said, said)
    other_machine(folder, only, results)


def files_of(folder):
    return {path: path.read_bytes() for path in folder.rglob("*") if path.is_file()}


def wanting(folder, only, results):
    """What needs more than there is says so, and leaves what was built."""
    before = files_of(folder / "build")
    status, said = run(["make", "check"], cwd=folder, env=only)
    right = status == 2 and "needs rt" in said and "'make test'" in said
    results.check("make check says that it needs rt, and what needs less", right, f"{status} {said}")
    status, said = run(["make", "test"], cwd=folder, env=only)
    results.check("make test says that it needs python3", status == 2 and "need python3" in said, f"{status} {said}")
    results.check("both leave what was built", files_of(folder / "build") == before)


def other_machine(folder, only, results):
    uname = Path(only["PATH"]) / "uname"
    uname.unlink()
    uname.write_text("#!/bin/sh\necho Linux aarch64\n")
    uname.chmod(0o755)
    status, said = run(["make"], cwd=folder, env=only)
    results.check("make says that there is no object for another machine", status != 0 and "no object for Linux aarch64" in said, said)

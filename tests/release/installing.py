"""`make install`: what is installed says where it is, and the library is found, and `make uninstall` leaves only what others put
there; and the library where `make lib` leaves it."""
import os
import re
import subprocess
import sys
from pathlib import Path

from first import RECORD, converts
from results import ROOT, clone, lacking, name_sources, run

sys.path.append(str(ROOT / "tests"))
from lib import tours

PROGRAM = """#include <syslogbox.h>
int main(void) { return !syslogbox_check((const uint8_t *)"%s", %d, 0); }
""" % (RECORD.decode(), len(RECORD))
UNITS = {"syslogbox.service": True, "syslogbox.socket": False, "extra.service": True, "extra.timer": False}


def with_units(folder):
    """A clone with units of other names, as any that contrib/ may have."""
    contrib = folder / "contrib"
    (contrib / "extra.service").write_text(
        "[Unit]\nDescription=Extra\nDocumentation=man:syslogbox(1)\n\n[Service]\nExecStart=/usr/bin/syslogbox check\n")
    (contrib / "extra.timer").write_text(
        "[Unit]\nDescription=Extra\nDocumentation=man:syslogbox(1)\n\n[Timer]\nOnCalendar=hourly\n\n[Install]\nWantedBy=timers.target\n")
    return folder


def units(name, below, program, results):
    """Below a folder are all units, and those of services call this program and no other."""
    for unit, calls in UNITS.items():
        file = below / "lib/systemd/system" / unit
        text = file.read_text() if file.exists() else ""
        called = [line.removeprefix("ExecStart=").split() for line in text.splitlines() if line.startswith("ExecStart=")]
        stopping = str(Path(program).parent.parent / "lib/syslogbox/until-stopped")
        right = all((words[1:2] if words[0] == stopping else words[:1]) == [program] for words in called)
        results.check(f"{name}: {unit} calls the program there", text and right and len(called) == calls, text)


def in_c(name, room, results, told, environment=None):
    """A program in C is compiled by what pkg-config tells with these variables, and runs with these."""
    if lacking("pkg-config"):
        results.skip(f"{name}: a program in C", "there is no pkg-config")
        return
    source, made = room / "first.c", room / "first"
    source.write_text(PROGRAM)
    made.unlink(missing_ok=True)
    words = ["pkg-config", "--cflags", "--libs", "syslogbox"]
    status, flags = run(words, env={**os.environ, **told})
    compiled = run(["sh", "-c", 'eval "exec gcc -o \\"\\$1\\" \\"\\$2\\" $3"', "sh", made, source, flags.strip()])
    results.check(f"{name}: a program in C is compiled", (status, compiled[0]) == (0, 0), f"{flags} {compiled[1]}")
    seen = run([made], env={**os.environ, **(environment or {})}) if made.exists() else None
    results.check(f"{name}: it checks the first record", seen == (0, ""), str(seen))


def library_tour(room, results):
    """The program in C of docs/LIBRARY.md, by the commands that stand below it."""
    if lacking("pkg-config"):
        results.skip("the tour of docs/LIBRARY.md", "there is no pkg-config")
        return
    folder = clone(room / "tour")
    status, said = run(["make", "-s", "lib"], cwd=folder)
    text = (folder / "docs/LIBRARY.md").read_text().split("\n## C\n")[1].split("\n## ")[0]
    program, _ = re.findall(r"^```c\n(.*?)^```$", text, re.MULTILINE | re.DOTALL)
    (folder / "program.c").write_text(program)
    steps = tours.steps(text)
    results.check("docs/LIBRARY.md has a tour", len(steps) > 1 and status == 0, said)
    for command, shown in steps:
        status, seen = tours.take(command, folder, os.environ["PATH"])
        results.check(f"docs/LIBRARY.md shows what is printed: {command}", seen == shown and (shown or status == 0), f"{status} {seen}")
    status, said = run(["gcc", "program.c", "-Iinclude", "build/libsyslogbox.a"], cwd=folder)
    results.check("the program of docs/LIBRARY.md is linked by the files' names", status == 0, said)


def loader(room, listed):
    """A `ldconfig` that lists this library, or none, and the file in which it tells that it was called."""
    folder, log = room / "loader", room / "called"
    folder.mkdir(exist_ok=True)
    line = f"\\tlibsyslogbox.so.0 (libc6,x86-64) => {listed}\\n" if listed else ""
    (folder / "ldconfig").write_text(f'#!/bin/sh\necho "ldconfig $*" >> "{log}"\n[ "$*" != -p ] || printf "{line}"\n')
    (folder / "ldconfig").chmod(0o755)
    log.unlink(missing_ok=True)
    return {**os.environ, "PATH": f"{folder}:{os.environ['PATH']}"}, log


def staged(folder, room, results):
    """As packages are made: nothing of it is where it will be, and the machine's loader is left alone."""
    environment, log = loader(room, None)
    status, said = run(["make", "install", f"DESTDIR={room}/staged"], cwd=folder, env=environment)
    results.check("make install with DESTDIR", status == 0 and "ldconfig" not in said and not log.exists(), said)
    below = room / "staged/usr/local"
    units("below DESTDIR", below, "/usr/local/bin/syslogbox", results)
    told = (below / "lib/pkgconfig/syslogbox.pc").read_text()
    results.check("below DESTDIR: pkg-config is told of PREFIX", told.startswith("prefix=/usr/local\n"), told)
    other = below / "bin/other"
    other.write_text("")
    for _ in range(2):
        status, said = run(["make", "uninstall", f"DESTDIR={room}/staged"], cwd=folder)
        left = [path for path in below.rglob("*") if not path.is_dir() or path.is_symlink()]
        results.check("make uninstall leaves only what others put there", (status, left) == (0, [other]), f"{left} {said}")


def in_place(folder, room, results):
    """Below a PREFIX, with a loader that finds the library there, and with one that does not."""
    prefix, untold = room / "prefix", "does not find"
    words, library = ["make", "install", f"PREFIX={prefix}"], prefix / "lib/libsyslogbox.so.0"
    for listed in [library, None]:
        environment, log = loader(room, listed)
        status, said = run(words, cwd=folder, env=environment)
        calls = ["ldconfig "] * (os.geteuid() == 0) + ["ldconfig -p"]
        results.check("make install", status == 0 and (untold in said) == (listed is None), said)
        results.check("make install calls ldconfig as root", log.exists() and log.read_text().splitlines() == calls, said)
    units("below PREFIX", prefix, f"{prefix}/bin/syslogbox", results)
    results.check("below PREFIX: the program converts the first record", converts(prefix / "bin/syslogbox"))
    in_c("below PREFIX", room, results, {"PKG_CONFIG_PATH": str(prefix / "lib/pkgconfig")}, {"LD_LIBRARY_PATH": str(prefix / "lib")})
    if lacking("systemd-analyze"):
        results.skip("systemd-analyze verifies the units", "there is no systemd-analyze")
        return
    files = [prefix / "lib/systemd/system" / unit for unit in UNITS]
    seen = run(["systemd-analyze", "verify", "--man=no", *files])
    results.check("systemd-analyze verifies the units", seen == (0, ""), str(seen))


def installing(room, results):
    missing = lacking("gcc", "make", "objcopy")
    if missing:
        results.skip("make install", f"there is no {missing}")
        return
    folder = with_units(clone(room / "a clone's & more"))
    name_sources(folder)
    status, said = run(["make", "-s", "lib"], cwd=folder)
    results.check("make lib", status == 0, said)
    in_c("in build/", room, results, {"PKG_CONFIG_PATH": str(folder / "build")})
    library_tour(room, results)
    subprocess.run(["chmod", "-R", "go=", str(folder)], check=True)
    staged(folder, room, results)
    in_place(folder, room, results)
    status, said = run(["make", "install", "PREFIX=here"], cwd=folder)
    results.check("make install wants a PREFIX that is absolute", status != 0 and "begin with a slash" in said, said)

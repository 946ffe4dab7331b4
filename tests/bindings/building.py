"""What tries the library: programs in C over it, the package for Python, and the environment for Go."""
import importlib
import os
import shutil
import subprocess
import sys

from lib.program import ROOT, run
from lib.results import Results

SHARED = str(ROOT / "build/libsyslogbox.so.0")
SANITIZED = ["-g", "-O1", "-fsanitize=address,undefined", "-fno-sanitize-recover=all", "-Wall", "-Wextra", "-Werror"]


def compiled(folder, name, sources, *words):
    """A program in C over the static library."""
    path = folder.path / name
    library = [ROOT / "build/libsyslogbox.a"]
    status, _, notes = run("gcc", ["-I", ROOT / "include", *words, "-o", path, *sources, *library])
    return str(path), status == 0, notes.decode(errors="replace")


class Way:
    """One of the two ways in which the package for Python makes its calls: by ctypes, or by the module in C."""

    def __init__(self, name, path):
        self.name, self.path = name, str(path)

    def environment(self):
        """That of a process that uses the package so, over the library in build/."""
        return {"PYTHONPATH": self.path, "SYSLOGBOX_LIBRARY": SHARED, "SYSLOGBOX_CTYPES": "1" if self.name == "ctypes" else ""}

    def loaded(self):
        """The package, which is in this process from now on, in place of the one before."""
        os.environ.update(self.environment())
        for name in [name for name in sys.modules if name.split(".")[0] == "syslogbox"]:
            del sys.modules[name]
        sys.path[:] = [self.path] + [path for path in sys.path if path != self.path]
        return importlib.import_module("syslogbox")

    def results(self, results):
        """The same results, where this way is told with each."""
        return _Told(results, self.name)


class _Told(Results):
    def __init__(self, results, way):
        super().__init__()
        self.results, self.way = results, way

    def check(self, name, holds, seen=""):
        self.results.check(f"{name} ({self.way})", holds, seen)

    def skip(self, name, why):
        self.results.skip(f"{name} ({self.way})", why)


def with_module(folder, name, **environment):
    """A way with the package and its module in C below a folder, and what was said if that cannot be compiled."""
    to = folder.path / name
    if to.exists():
        return Way("the module in C", to), ""
    shutil.copytree(ROOT / "python/syslogbox", to / "syslogbox", ignore=shutil.ignore_patterns("__pycache__", "*.so"))
    status, _, notes = run(sys.executable, ["-B", ROOT / "python/backend.py", "--module", to / "syslogbox"], environment=environment)
    return None if status else Way("the module in C", to), notes.decode(errors="replace")


def headers_of_python():
    """Whether a module in C can be compiled for this Python."""
    words = "import sysconfig; print(sysconfig.get_config_var('INCLUDEPY'))"
    folder = run(sys.executable, ["-c", words])[1].decode().strip()
    return sys.implementation.name == "cpython" and sys.version_info >= (3, 10) and os.path.exists(f"{folder}/Python.h")


def ways(results, folder):
    """Each way in which the package can be tried here."""
    yield Way("ctypes", ROOT / "python")
    if not headers_of_python():
        results.skip("the module in C for Python", "there is no Python.h of a Python from 3.10 on")
        return
    way, said = with_module(folder, "with-module")
    results.check("Python: the module in C is compiled", way and not said, said)
    if way:
        yield way


def for_go(folder):
    """The environment in which go finds the library, which is put below the folder."""
    to = folder.path / "prefix"
    subprocess.run(["sh", "scripts/install-library.sh", to, to], cwd=ROOT, check=True)
    # go keeps what pkg-config told for another folder, but for other flags of its own
    return {"PKG_CONFIG_PATH": str(to / "lib/pkgconfig"), "LD_LIBRARY_PATH": str(to / "lib"), "CGO_LDFLAGS": f"-L{to}/lib",
            "GOFLAGS": "-mod=mod"}

"""Builds the wheel and the sdist of the package (PEP 517) by Python alone, so that `pip install ./python` needs no network.

    backend.py FOLDER             writes both into a folder
    backend.py --module FOLDER    writes the module in C alone there

The library that `make lib` has built, or that is in the tarball, goes into the wheel, whose tag says from which glibc on it
runs; if there is none, the system's is used. So does the module in C (_calls.c), where there are a compiler (the environment
variable CC may name one) and the headers of Python: one file for Python 3.10 and all later ones. The sdist has the package and
the source of that module.
"""
import ast
import base64
import gzip
import hashlib
import io
import os
import re
import shlex
import shutil
import subprocess
import sys
import sysconfig
import tarfile
import tempfile
import time
import zipfile
from pathlib import Path

HERE = Path(__file__).resolve().parent
NAME, MODULE, SOURCE, HEADER = "libsyslogbox.so.0", "_calls.abi3.so", "_calls.c", "syslogbox.h"
PROJECT = (HERE / "pyproject.toml").read_text(encoding="utf-8")
PACKAGE = (HERE / "syslogbox/__init__.py").read_text(encoding="utf-8")
VERSION = re.search(r'^__version__ = "(.*)"$', PACKAGE, re.M)[1]
TITLE = f"syslogbox-{VERSION}"
CLASSIFIERS = ["Operating System :: POSIX :: Linux", "Programming Language :: Python :: 3",
               "Topic :: System :: Logging", "Typing :: Typed"]
# what is built again of the same sources has the same octets
TIME = int(os.environ.get("SOURCE_DATE_EPOCH", "315532800"))


def _of_project(key):
    return re.search(rf'^{key} = "(.*)"$', PROJECT, re.M)[1]


def _beside(*paths):
    """The first of these files that is beside this folder; not beside an sdist, which is unpacked where anyone may have put one."""
    if (HERE / "PKG-INFO").exists():
        return None
    return next((HERE.parent / path for path in paths if (HERE.parent / path).exists()), None)


def _library():
    path = _beside(f"build/{NAME}", f"lib/{NAME}")
    return path.read_bytes() if path else None


def _header():
    """The library's header: in an sdist, in the tree, or the system's."""
    inside = HERE / HEADER
    return inside if inside.exists() else _beside(f"include/{HEADER}") or Path("/usr/include", HEADER)


def _compiled():
    """The module in C; None where it cannot be compiled, which is told."""
    if sys.implementation.name != "cpython" or sys.version_info < (3, 10) or sysconfig.get_config_var("Py_GIL_DISABLED"):
        return None
    compilers = filter(None, [os.environ.get("CC"), sysconfig.get_config_var("CC"), "cc"])
    compiler = next((words for words in map(shlex.split, compilers) if shutil.which(words[0])), None)
    if compiler is None:
        said = "there is no compiler"
    else:
        with tempfile.TemporaryDirectory() as place:
            made = Path(place) / MODULE
            words = [*compiler, "-O2", "-fPIC", "-shared", "-s", "-fvisibility=hidden",
                     "-Wl,-z,relro,-z,now,-z,noexecstack,--build-id=none", f"-I{_header().parent}",
                     f"-I{sysconfig.get_config_var('INCLUDEPY')}", "-o", str(made), str(HERE / SOURCE)]
            done = subprocess.run(words, stdout=subprocess.DEVNULL, stderr=subprocess.PIPE)
            if not done.returncode:
                return made.read_bytes()
            said = done.stderr.decode(errors="replace").strip()
    print(f"The module in C is left out, since it cannot be compiled here: {said}", file=sys.stderr)
    return None


def _platforms(library, module):
    """The platforms of the wheel: any, this one, or the least glibc that has all versions of symbols that its files name (PEP 600)."""
    if library is None:
        return ["any"] if module is None else [sysconfig.get_platform().replace("-", "_").replace(".", "_")]
    least = max(int(minor) for minor in re.findall(rb"GLIBC_2\.(\d+)", library + (module or b"")))
    if least > 17:
        return [f"manylinux_2_{least}_x86_64"]
    return ["manylinux_2_17_x86_64", "manylinux2014_x86_64"]  # two names of one platform


def _metadata():
    lines = ["Metadata-Version: 2.1", f"Name: {_of_project('name')}", f"Version: {VERSION}",
             f"Summary: {_of_project('description')}", f"Requires-Python: {_of_project('requires-python')}",
             *(f"Classifier: {classifier}" for classifier in CLASSIFIERS), "Description-Content-Type: text/plain"]
    return "\n".join([*lines, "", ast.get_docstring(ast.parse(PACKAGE)), ""]).encode()


def _sources():
    """The files of the package, each with its name."""
    for path in sorted((HERE / "syslogbox").iterdir()):
        if path.suffix == ".py" or path.name == "py.typed":
            yield f"syslogbox/{path.name}", path.read_bytes()


def _wheel_files(library, module, platforms):
    yield from _sources()
    for name, octets in [(NAME, library), (MODULE, module)]:
        if octets is not None:
            yield f"syslogbox/{name}", octets
    yield f"{TITLE}.dist-info/METADATA", _metadata()
    pure = "false" if library or module else "true"
    lines = ["Wheel-Version: 1.0", "Generator: backend", f"Root-Is-Purelib: {pure}",
             *(f"Tag: py3-none-{platform}" for platform in platforms), ""]
    yield f"{TITLE}.dist-info/WHEEL", "\n".join(lines).encode()


def _row(name, octets):
    digest = base64.urlsafe_b64encode(hashlib.sha256(octets).digest()).rstrip(b"=").decode()
    return f"{name},sha256={digest},{len(octets)}\n"


def build_wheel(wheel_directory, config_settings=None, metadata_directory=None):
    """Writes the wheel into a folder, and returns its name."""
    library, module = _library(), _compiled()
    platforms = _platforms(library, module)
    files = list(_wheel_files(library, module, platforms))
    record = f"{TITLE}.dist-info/RECORD"
    files.append((record, ("".join(_row(*file) for file in files) + f"{record},,\n").encode()))
    name = f"{TITLE}-py3-none-{'.'.join(platforms)}.whl"
    with zipfile.ZipFile(Path(wheel_directory) / name, "w") as wheel:
        for path, octets in files:
            entry = zipfile.ZipInfo(path, time.gmtime(TIME)[:6])
            entry.external_attr, entry.compress_type = 0o100644 << 16, zipfile.ZIP_DEFLATED
            wheel.writestr(entry, octets)
    return name


def build_sdist(sdist_directory, config_settings=None):
    """Writes the sdist into a folder, and returns its name."""
    paths = [Path(__file__), HERE / "pyproject.toml", HERE / SOURCE, _header()]
    files = [*_sources(), *((path.name, path.read_bytes()) for path in paths if path.exists()), ("PKG-INFO", _metadata())]
    octets = io.BytesIO()
    with tarfile.open(fileobj=octets, mode="w", format=tarfile.PAX_FORMAT) as sdist:
        for path, inside in files:
            entry = tarfile.TarInfo(f"{TITLE}/{path}")
            entry.size, entry.mtime = len(inside), TIME
            sdist.addfile(entry, io.BytesIO(inside))
    name = f"{TITLE}.tar.gz"
    (Path(sdist_directory) / name).write_bytes(gzip.compress(octets.getvalue(), 9, mtime=TIME))
    return name


def build_module(directory):
    """Writes the module in C into a folder, and returns its name; None where it cannot be compiled."""
    module = _compiled()
    if module is None:
        return None
    # in the place of one that is in use, never into it
    Path(directory, f"{MODULE}.part").write_bytes(module)
    os.replace(Path(directory, f"{MODULE}.part"), Path(directory, MODULE))
    return MODULE


if __name__ == "__main__":
    if sys.argv[1] == "--module":
        sys.exit(build_module(sys.argv[2]) is None)
    print(build_wheel(sys.argv[1]), build_sdist(sys.argv[1]), sep="\n")

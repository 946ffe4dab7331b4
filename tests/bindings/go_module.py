"""The module for Go: its layout, the program of docs/LIBRARY.md, and how others require it without a `replace`."""
import os
import re
import shutil
import sys
import tempfile
from pathlib import Path

from lib import tours
from lib.program import ROOT, run


def go_module(results, folder, environment):
    if shutil.which("gofmt"):
        seen = run("gofmt", ["-l", "."], cwd=ROOT / "go")
        results.same("Go: gofmt finds nothing", seen, (0, b"", b""))
    tour(results, environment)
    downloaded(results, folder, environment)


def program_of(section):
    (program,) = re.findall(r"^```go\n(.*?)^```$", section, re.MULTILINE | re.DOTALL)
    return program


def section():
    return (ROOT / "docs/LIBRARY.md").read_text().split("\n## Go\n")[1].split("\n## ")[0]


def tour(results, environment):
    """The program in Go of docs/LIBRARY.md, by the commands that stand below it, in a folder beside the module's."""
    steps = tours.steps(section())
    results.check("docs/LIBRARY.md has a tour of Go", len(steps) > 1)
    with tempfile.TemporaryDirectory() as place:
        folder = Path(place)
        shutil.copytree(ROOT / "go", folder / "go")
        (folder / "build").symlink_to(ROOT / "build")
        (folder / "program").mkdir()
        (folder / "program/main.go").write_text(program_of(section()))
        for command, shown in steps:
            status, seen = tours.take(command, folder, os.environ["PATH"], CGO_LDFLAGS=environment["CGO_LDFLAGS"], GOFLAGS="")
            right = seen == shown and (shown or status == 0)
            results.check(f"docs/LIBRARY.md shows what is printed: {command}", right, f"{status} {seen}")


def downloaded(results, folder, environment):
    """The same program, whose module is downloaded from what scripts/go_proxy.py writes, and required in its version."""
    proxy, program = folder.path / "goproxy", folder.path / "downloading"
    program.mkdir()
    (program / "main.go").write_text(program_of(section()))
    status, output, notes = run(sys.executable, ["-B", ROOT / "scripts/go_proxy.py", proxy])
    results.check("Go: the module is packed", status == 0, (output + notes).decode())
    (name,) = re.findall(r"^module (\S+)$", (ROOT / "go/go.mod").read_text(), re.MULTILINE)
    environment = {**environment, "GOFLAGS": "-modcacherw", "GOMODCACHE": str(folder.path / "modules"), "GOPROXY": f"file://{proxy}",
                   "GONOSUMDB": name}
    for words in (["mod", "init", "example.com/program"], ["get", name], ["run", "."]):
        octets = b"16 <0>1 - - - - - -" if words == ["run", "."] else b""
        status, output, notes = run("go", words, octets, environment=environment, cwd=program, timeout=300)
        results.check(f"Go: go {' '.join(words)}", status == 0, notes.decode(errors="replace")[-400:])
    results.check("Go: what was downloaded runs", output == b"0 \n", str(output))
    required = re.search(rf"^require {name} v\d", (program / "go.mod").read_text(), re.MULTILINE)
    results.check("Go: the module is required without a replace", required, (program / "go.mod").read_text())

"""Tours: the blocks of a document that are marked `console`. A line that begins with `$ ` is a command, and goes on in the next
line as long as it ends in `|` or a backslash; the lines up to the next command are what it prints."""
import os
import re
import subprocess

BLOCK = re.compile(r"^```console\n(.*?)^```$", re.MULTILINE | re.DOTALL)


def steps(text):
    """The commands of a document, each with the lines that are shown under it."""
    found = []
    for block in BLOCK.findall(text):
        goes_on = False
        for line in block.splitlines():
            if line.startswith("$ "):
                found.append((line[2:], []))
            elif goes_on:
                found[-1] = found[-1][0] + "\n" + line, []
            else:
                found[-1][1].append(line)
            goes_on = (line.startswith("$ ") or goes_on) and line.endswith(("|", "\\"))
    return found


def folder_of(program, name):
    """A fresh folder, and the path on which programs are found from it, the program first."""
    folder = program.folder.path / name
    (folder / "work").mkdir(parents=True)
    (folder / "bin").mkdir()
    (folder / "bin/syslogbox").symlink_to(program.path)
    return folder / "work", f"{folder / 'bin'}:{os.environ['PATH']}"


def take(command, folder, path, **environment):
    """Runs a command as a terminal does: its status, and all that it prints."""
    done = subprocess.run(["bash", "-c", command], cwd=folder, env={**os.environ, "PATH": path, "LC_ALL": "C", **environment},
                          stdin=subprocess.DEVNULL, stdout=subprocess.PIPE, stderr=subprocess.STDOUT, text=True, timeout=60)
    return done.returncode, done.stdout.splitlines()

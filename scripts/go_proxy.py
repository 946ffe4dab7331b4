#!/usr/bin/env python3
"""Writes the module of go/ below a folder as go downloads it (https://go.dev/ref/mod#goproxy-protocol): go_proxy.py FOLDER

    GOPROXY=file://FOLDER GONOSUMDB=cupolachive.example go get cupolachive.example/syslogbox

Its time is SOURCE_DATE_EPOCH; of the same sources it is the same octets.
"""
import json
import os
import re
import subprocess
import sys
import time
import zipfile
from pathlib import Path

ROOT = Path(__file__).resolve().parents[1]


def packed(path, prefix, files, moment):
    """A zip of these files, each below the prefix."""
    with zipfile.ZipFile(path, "w") as module:
        for file in files:
            entry = zipfile.ZipInfo(f"{prefix}/{file.name}", moment[:6])
            entry.external_attr, entry.compress_type = 0o100644 << 16, zipfile.ZIP_DEFLATED
            module.writestr(entry, file.read_bytes())


def main(folder):
    settings = (ROOT / "go/go.mod").read_text(encoding="utf-8")
    name = re.search(r"^module (\S+)$", settings, re.M)[1]
    told = subprocess.run(["sh", ROOT / "scripts/version.sh"], stdout=subprocess.PIPE, check=True, text=True)
    version = f"v{told.stdout.strip()}"
    moment = time.gmtime(int(os.environ.get("SOURCE_DATE_EPOCH", "315532800")))
    versions = Path(folder) / name / "@v"
    versions.mkdir(parents=True)
    (versions / "list").write_text(f"{version}\n")
    (versions / f"{version}.mod").write_text(settings)
    about = {"Version": version, "Time": time.strftime("%Y-%m-%dT%H:%M:%SZ", moment)}
    (versions / f"{version}.info").write_text(json.dumps(about) + "\n")
    packed(versions / f"{version}.zip", f"{name}@{version}", [ROOT / "go/go.mod", *sorted((ROOT / "go").glob("*.go"))], moment)


if __name__ == "__main__":
    main(sys.argv[1])

"""docs/AUDITING.md: its commands, run as they stand, print what it says; and a seal is signed, stamped and checked as it says, if
OpenSSH and OpenSSL are there."""
import re
import shutil
import subprocess
import tempfile
from pathlib import Path

from lib import tours
from lib.program import ROOT
from lib.reference import archive_text

BOTH = b"<13>1 2026-11-25T09:00:00.000000Z h a - - - both"
HERE = b"<13>1 2026-11-25T10:20:00.000000Z h a - - - only here"
THERE = b"<13>1 2026-11-25T10:40:00.000000Z h a - - - only there"

AUTHORITY = """
[tsa]
default_tsa = here
[here]
serial = serial
default_policy = 1.2.3.4.1
digests = sha256
accuracy = secs:1
signer_digest = sha256
"""
# a key and the certificate of an authority of this test's own, and its answer to a query
KEYS = ["ssh-keygen -q -t ed25519 -N '' -C site -f site_key",
        "openssl req -x509 -newkey rsa:2048 -nodes -keyout authority.key -out authority.pem -days 2 -subj /CN=authority"
        " -addext extendedKeyUsage=critical,timeStamping"]
ANSWER = ("openssl ts -reply -config authority.conf -queryfile sealed.tsq -inkey authority.key -signer authority.pem"
          " -out sealed.tsr")


def sealing_words():
    """The lines of the two blocks on a seal: how it is made and signed, and how it is checked."""
    blocks = re.findall(r"```sh\n(.*?)```", (ROOT / "docs/AUDITING.md").read_text(), re.DOTALL)
    return [block.splitlines() for block in blocks]


def is_signed(program, results):
    """What is said on seals that are signed and stamped."""
    if not all(map(shutil.which, ["ssh-keygen", "openssl"])):
        results.skip("a seal is signed", "ssh-keygen or openssl is not there")
        return
    make, check = sealing_words()
    with tempfile.TemporaryDirectory() as path:
        folder = Path(path)
        (folder / "authority.conf").write_text(AUTHORITY)
        (folder / "serial").write_text("01\n")

        def sh(line):
            line = line.replace("/var/lib/syslogbox", "store").replace("syslogbox ", f"{Path(program.path).absolute()} ", 1) if line.startswith("syslogbox") else line
            return subprocess.run(["sh", "-c", line], cwd=folder, capture_output=True)

        program.run(["add", str(folder / "store")], archive_text([BOTH, HERE, THERE]))
        for line in KEYS:
            results.check(line, sh(line).returncode == 0)
        (folder / "allowed_signers").write_text("site " + (folder / "site_key.pub").read_text())
        for line in make:
            seen = sh(ANSWER if line.startswith("curl ") else line)
            results.check(f"AUDITING.md: {line}", seen.returncode == 0, str(seen))
        for line in check:
            seen = sh(line)
            results.check(f"AUDITING.md: {line}", seen.returncode == 0, str(seen))
        (folder / "sealed").write_bytes((folder / "sealed").read_bytes().replace(b" seal ", b" gone "))
        for line in check:
            results.check(f"another line: {line}", sh(line).returncode != 0)


def auditing(program, results):
    is_signed(program, results)
    folder, path = tours.folder_of(program, "audit")
    steps = tours.steps((ROOT / "docs/AUDITING.md").read_text())
    for command, shown in steps:
        right = 1 if command.startswith("syslogbox diff") else 0
        status, seen = tours.take(command, folder, path)
        results.check(f"AUDITING.md shows what is printed: {command}", (status, seen) == (right, shown), f"{status} {seen}")
    whole = archive_text([BOTH, HERE, THERE])
    results.check("AUDITING.md: both sites have all in the end",
                  len(steps) > 8 and [(folder / name).read_bytes() for name in ("whole", "whole.there")] == [whole] * 2)
    results.check("AUDITING.md names commands of the program",
                  set(re.findall(r"syslogbox (\w+)", "\n".join(command for command, _ in steps)))
                  == {"archive", "digest", "select", "diff", "minus", "common", "union", "root", "convert", "prove", "confirm", "add", "seal",
                      "verify"})

"""`scripts/costs.py`, on lines as `rt check` prints them."""
import re
import sys

from lib.program import ROOT, run

SCRIPT = str(ROOT / "scripts/costs.py")
LOW = b"""0.000 rt: the library is built
5.000 so far: 0 of 3 functions checked; the verdict comes last
6.500 checked low::f, 1 of 3
6.750 checked low::T::g, 2 of 3
10.750 checked low::f::{closure}, 3 of 3
11.000 fn low::f: proved
11.000 logic=proved functions=2
"""
HIGH = b"3.000 by-macro: x blocks=1\n5.000 checked main, 1 of 1\n5.500 fn high::main: proved\n"
BATCHES = b"1.000 so far: 31 of 68 functions checked\n2.000 fn low::f: proved\n"
TABLE = b"""seconds   share  function
    4.0  51.6 %  low::f::{closure}
    2.0  25.8 %  high::main
    1.5  19.4 %  low::f
    0.2   3.2 %  low::T::g
    7.8 seconds for 4 functions; these 4 have 100.0 %
"""
PROVED = b"""  0:00  0 of 2 crates proved; octet_language begins
  0:05  0 of 2 crates proved; octet_language: 1 of 7 functions
  1:11  1 of 2 crates proved; octet_language is proved, 7 functions, 65 processor seconds
 12:00  2 of 2 crates proved; no_such_crate is proved, 3 functions, 900 processor seconds, and built
"""
CRATES = rb"""\| Crate \| Functions \| Lines of proof \| Minutes \| Processor seconds \|
\|---\|---\|---\|---\|---\|
\| `no_such_crate` \| 3 \| 0 \| 10:49 \| 900 \|
\| `octet_language` \| 7 \| (\d+) \| 1:11 \| 65 \|
\| all \| 10 \| \1 \| 12:00 \| 965 \|
"""


def costs(program, results):
    low, high, batches = (program.folder.file(*it) for it in [("low", LOW), ("high", HIGH), ("batches", BATCHES)])
    results.same("costs of two crates", run(sys.executable, [SCRIPT, low, high]), (0, TABLE, b""))
    status, output, _ = run(sys.executable, [SCRIPT, "--first", "1", low, high])
    right = status == 0 and output.splitlines()[1:] == [TABLE.splitlines()[1], b"    7.8 seconds for 4 functions; these 1 have 51.6 %"]
    results.check("costs of the first alone", right, str(output))
    seen = run(sys.executable, [SCRIPT, batches])
    right = seen[:2] == (1, b"") and b"31 functions have no time of their own: check with --jobs 1" in seen[2]
    results.check("costs of a check in batches", right, str(seen))
    again = b"  0:02  1 of 9 crates proved; octet_language is proved, 7 functions, 2 processor seconds\n"
    log = program.folder.file("log", PROVED + again)
    status, output, _ = run(sys.executable, [SCRIPT, "--crates", log])
    results.check("costs of crates", status == 0 and re.fullmatch(CRATES, output), str(output))
    log = program.folder.file("log", re.sub(rb", \d+ processor seconds", b"", PROVED))
    seen = run(sys.executable, [SCRIPT, "--crates", log])
    results.check("costs of crates by the minute", seen[0] == 0 and b" 12:00 |\n" in seen[1], str(seen))
    seen = run(sys.executable, [SCRIPT, "--crates", low])
    results.check("costs of no crate", seen[0] == 1, str(seen))
    results.check("costs of nothing", run(sys.executable, [SCRIPT])[0] == 2)
    status, output, _ = run(sys.executable, [SCRIPT, "--stamp"], b"checked low::f, 1 of 1\nlogic=proved functions=1\n")
    right = re.fullmatch(rb"\d+\.\d{3} checked low::f, 1 of 1\n\d+\.\d{3} logic=proved functions=1\n", output)
    results.check("lines are stamped", status == 0 and right, str(output))

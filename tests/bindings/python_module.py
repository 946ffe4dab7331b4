"""The module in C for Python beside the calls by ctypes: the same answers to odd arguments, also under sanitizers, no memory kept,
each allocation failing in turn, and lists that are checked in several threads."""
import sys

from bindings.building import with_module
from lib.program import ROOT, run

ODD, STRAINED = (ROOT / "tests/bindings" / name for name in ("odd_calls.py", "strained_calls.py"))


def module(results, folder, ways):
    if len(ways) < 2:
        return
    by_ctypes, in_c = ways
    right = run(sys.executable, ["-B", ODD], environment=by_ctypes.environment(), timeout=300)
    results.check("Python: odd arguments are answered", (right[0], right[2]) == (0, b"") and right[1].count(b"\n") > 500, right[2][-300:])
    seen = run(sys.executable, ["-B", ODD], environment=in_c.environment(), timeout=300)
    results.same("Python: the module in C answers odd arguments as ctypes does", seen, right)
    strained(results, in_c)
    sanitized(results, folder, right)


def strained(results, way):
    for what, right in [("kept", b""), ("threads", b"0 wrong\n")]:
        seen = run(sys.executable, ["-B", STRAINED, what], environment=way.environment(), timeout=300)
        results.same(f"Python: the module in C, {what}", seen, (0, right, b""))
    status, output, notes = run(sys.executable, ["-B", STRAINED, "failing"], environment=way.environment(), timeout=300)
    if status == 77:
        results.skip("allocations of Python that fail", "this Python cannot make them fail")
        return
    results.check("Python: allocations fail in the module in C", status == 0 and output.strip().isdigit() and int(output) > 100,
                  (output + notes)[-300:].decode(errors="replace"))


def sanitized(results, folder, right):
    """The same under the sanitizers of gcc, where Python runs with them."""
    way, said = with_module(folder, "sanitized", CC="gcc -g -fsanitize=address,undefined -fno-sanitize-recover=all")
    runtime = run("gcc", ["-print-file-name=libasan.so"])[1].decode().strip()
    environment = {"LD_PRELOAD": runtime, "ASAN_OPTIONS": "detect_leaks=0", "PYTHONMALLOC": "malloc"}
    if not way or run(sys.executable, ["-c", ""], environment=environment)[0]:
        results.skip("the module in C under sanitizers", said.strip() or "Python does not run with them")
        return
    environment = {**way.environment(), **environment}
    seen = run(sys.executable, ["-B", ODD], environment=environment, timeout=300)
    results.same("Python: the module in C under sanitizers", seen, right)
    status, output, notes = run(sys.executable, ["-B", STRAINED, "failing"], environment=environment, timeout=300)
    results.check("Python: allocations fail in the module in C under sanitizers", status in (0, 77) and not notes, (output + notes)[-600:])

"""`serve` whose standard error nobody reads, and its file of refused frames: torn, on a full disk, and where something
else stands in its place."""
import fcntl
import os
import pty
import re
import select
import socket
import stat
import subprocess
import tempfile
import termios
import threading
import time
import tty

from cases.rows import A
from lib.loopback import HERE, free_port
from lib.reference import counted_frames, framed
from lib.server import SOON, Runs, any_port, refused_file, spelled, until

PAGE = 4_096
ROOM = 262_144  # octets of lines that wait
PERIOD = 0.5
LINE = re.compile(rb"lf [0-9.]+:\d+ \d+ \S+( \S+)* \d+|listening \S+ \S+|dropped [1-9]\d* lines|received .*|\S+ reset")
DROPPED = re.compile(rb"dropped ([1-9]\d*) lines")
CUT = re.compile(rb"refused: ([1-9]\d*) octets behind the last whole entry cut off")
NOT_KEPT = re.compile(rb"refused: ([1-9]\d*) entries not kept: No space left on device .*")


# ---------------------------------------------------------------- standard error

class Pipe:
    """A pipe of one page, which is read when that is asked for."""

    def __init__(self, size=PAGE):
        self.reader, self.writer = os.pipe()
        fcntl.fcntl(self.writer, fcntl.F_SETPIPE_SZ, size)
        self.octets = b""

    def __enter__(self):
        return self

    def __exit__(self, *_):
        self.close_writer()
        os.close(self.reader)

    def close_writer(self):
        if self.writer is not None:
            os.close(self.writer)
        self.writer = None

    def flags(self):
        return fcntl.fcntl(self.writer, fcntl.F_GETFL)

    def take(self, seconds=0.0):
        """Takes what is there, and what comes within this time."""
        while select.select([self.reader], [], [], seconds)[0]:
            found = os.read(self.reader, 1 << 20)
            if not found:
                break
            self.octets += found
        return self.octets


def on_port(runs, pipe, *words, store=None):
    """A server whose standard error is the pipe, and where it takes lines."""
    port = free_port(socket.SOCK_STREAM)
    server = runs.until_eof("--lf", f"{HERE}:{port}", *words, store=store, stderr=pipe.writer)
    until(lambda: is_open(port))
    return server, ("lf", (HERE, port))


def is_open(port):
    try:
        socket.create_connection((HERE, port)).close()
    except ConnectionRefusedError:
        return False
    return True


def empty_lines(server, where, count, source=HERE):
    """A connection that sends so many LF, all of which the server has taken."""
    with server.open(where, source) as one:
        one.sendall(b"\n" * count)
        one.shutdown(socket.SHUT_WR)
        return one.recv(1) == b""


def whole_lines(octets):
    """Whether these are lines of a server, each whole."""
    lines = octets.split(b"\n")
    return lines[-1] == b"" and all(LINE.fullmatch(line) for line in lines[:-1])


def unread(runs):
    """Nobody reads: a record that comes behind 3,000 refused frames is committed in its time, and the server ends; what
    it could write are whole lines."""
    with Pipe() as pipe:
        flags = pipe.flags()
        server, where = on_port(runs, pipe, "--commit", int(1_000 * PERIOD))
        with server:
            taken = empty_lines(server, where, 3_000)
            runs.results.check("3,000 lines beside a full pipe are taken", taken)
            begun = time.monotonic()
            server.send(where, A + b"\n")
            held = until(lambda: A in server.held(), PERIOD + 5)
            late = time.monotonic() - begun
            runs.results.check("a record beside a full pipe is held", held and late < PERIOD + 0.7, f"{late:.2f} s")
            begun = time.monotonic()
            server.process.stdin.close()
            status, late = server.status(), time.monotonic() - begun
            right = status == 1 and late < PERIOD + 3
            runs.results.check("a server with a full pipe ends", right, f"{status} after {late:.2f} s")
        runs.results.check("the flags of a pipe stay as they were", pipe.flags() == flags)
        pipe.close_writer()
        octets = pipe.take(1.0)
        runs.results.check("a pipe that was full has whole lines", octets and whole_lines(octets), str(octets[-200:]))
        kept = refused_file(server.store)
        runs.results.check("each refused frame is kept", len(kept) == 3_000, str(len(kept)))


def read_late(runs):
    """Lines beyond the room are dropped whole, and counted; once somebody reads, a line says how many."""
    sources, rounds, each = [f"127.0.0.{n}" for n in range(2, 102)], 9, 10
    with Pipe() as pipe:
        server, where = on_port(runs, pipe, *SOON)
        with server:
            for _ in range(rounds):
                begun = time.monotonic()
                for source in sources:
                    empty_lines(server, where, each, source)
                time.sleep(max(0.0, begun + 1.05 - time.monotonic()))  # a thousand lines a second
            pipe.take(0.2)
            server.send(where, A + b"\n")

            def told():
                pipe.take(0.05)
                return any(map(DROPPED.fullmatch, pipe.octets.split(b"\n")))

            runs.results.check("lines that were dropped are told", until(told, 10), str(pipe.octets[-300:]))
            server.process.stdin.close()
            ended = lambda: pipe.take(0.05) and server.process.poll() is not None
            reader = threading.Thread(target=until, args=(ended,))
            reader.start()
            runs.results.check("it ends", server.status() == 1)
            reader.join()
        pipe.close_writer()
        octets = pipe.take(1.0)
        runs.results.check("lines that came late are whole", whole_lines(octets), str(octets[-300:]))
        lines = octets.split(b"\n")
        dropped = sum(int(found.group(1)) for found in map(DROPPED.fullmatch, lines) if found)
        refusals = sum(line.startswith(b"lf ") for line in lines)
        runs.results.check("no more lines than frames", refusals + dropped <= rounds * each * len(sources),
                           f"{refusals} and {dropped}")
        runs.results.check("what waited has its room", len(octets) > ROOM, str(len(octets)))


def no_reader(runs):
    """A pipe that nobody has open any more stops nothing."""
    with Pipe() as pipe:
        port = free_port(socket.SOCK_STREAM)
        with runs.until_eof("--lf", f"{HERE}:{port}", *SOON, stderr=pipe.writer) as server:
            until(lambda: is_open(port))
            os.close(pipe.reader)
            pipe.reader = os.open("/dev/null", os.O_RDONLY)
            server.send(("lf", (HERE, port)), b"x\n" + A + b"\n")
            runs.holds("beside a pipe without a reader", server, A)
            server.process.stdin.close()
            runs.results.check("a server without a reader ends", server.status() == 1)


def in_order(runs):
    """Lines that are read come at once, in order, and what waits at the end is read."""
    with Pipe(1 << 16) as pipe:
        server, where = on_port(runs, pipe, *SOON)
        with server:
            for n in range(20):
                name = spelled(server.send(where, b"x\n"))
                line = b"lf %b %d syntax priority 0" % (name, n + 1)
                runs.results.check("a line comes at once", until(lambda: pipe.take(0.01).endswith(line + b"\n"), 5),
                                   str(pipe.octets[-200:]))
            server.process.stdin.close()
            server.status()
        runs.results.check("the lines are whole", whole_lines(pipe.octets), str(pipe.octets))


def to_a_file(runs):
    """A file takes all lines, however many one turn has."""
    with runs.until_eof(*any_port("lf"), *SOON) as server:
        server.send("lf", b"x\n" * 30_000)
        status, lines = server.end()
        runs.results.check("no line to a file is dropped", status == 1 and not any(map(DROPPED.fullmatch, lines)))


def stopped_terminal(runs):
    """A terminal whose output is stopped, as by ^S, stops nothing; once it goes on, it gets its lines."""
    try:
        ours, theirs = pty.openpty()
    except OSError as error:
        runs.results.skip("a stopped terminal", error)
        return
    try:
        tty.setraw(theirs)
        termios.tcflow(theirs, termios.TCOOFF)
        port = free_port(socket.SOCK_STREAM)
        with runs.until_eof("--lf", f"{HERE}:{port}", *SOON, stderr=theirs) as server:
            until(lambda: is_open(port))
            server.send(("lf", (HERE, port)), b"x\n" + A + b"\n")
            runs.holds("beside a stopped terminal", server, A)
            termios.tcflow(theirs, termios.TCOON)
            server.process.stdin.close()
            runs.results.check("a server with a terminal ends", server.status() == 1)
            octets = os.read(ours, PAGE) if select.select([ours], [], [], 1)[0] else b""
            runs.results.check("a terminal gets its lines", octets.count(b"\n") == 2 and whole_lines(octets), octets)
    finally:
        os.close(ours)
        os.close(theirs)


def silent_terminal(runs):
    """A terminal that nobody reads takes some lines and then none, and stops nothing."""
    try:
        ours, theirs = pty.openpty()
    except OSError as error:
        runs.results.skip("a terminal that nobody reads", error)
        return
    try:
        port = free_port(socket.SOCK_STREAM)
        with runs.until_eof("--lf", f"{HERE}:{port}", *SOON, stderr=theirs) as server:
            until(lambda: is_open(port))
            taken = all(empty_lines(server, ("lf", (HERE, port)), 200, f"127.0.0.{n}") for n in range(2, 22))
            runs.results.check("4,000 lines beside a terminal that nobody reads are taken", taken)
            server.send(("lf", (HERE, port)), A + b"\n")
            runs.holds("beside a terminal that nobody reads", server, A)
            begun = time.monotonic()
            server.process.stdin.close()
            status, late = server.status(), time.monotonic() - begun
            runs.results.check("a server with such a terminal ends", status == 1 and late < 5, f"{status} after {late:.2f} s")
    finally:
        os.close(ours)
        os.close(theirs)


# ---------------------------------------------------------------- the file of refused frames

def with_refused(runs):
    """A store with three refused frames; gives its path."""
    with runs.until_eof(*any_port("lf"), *SOON) as server:
        server.send("lf", b"one\n" + A + b"\ntwo\nthree\n")
        server.end()
    return server.store


def torn(runs):
    """A file that is cut at any octet of its last entry loses that entry alone; what comes later can be read."""
    store = with_refused(runs)
    path = store / "refused"
    whole = path.read_bytes()
    entries = counted_frames(whole)[0]
    front = whole[:len(whole) - len(framed("counted", entries[-1]))]
    for at in range(len(front), len(whole) + 1):
        path.write_bytes(whole[:at])
        with runs.until_eof(*any_port("lf"), *SOON, store=store) as server:
            server.send("lf", b"later\n")
            status, lines = server.end()
        kept = refused_file(store)
        before = entries[:2] if at < len(whole) else entries
        right = [tuple(one.split(b"\n", 1)) for one in before] + [(lines[-1], b"later")]
        runs.results.check(f"a file of {at} octets: what is kept", kept == right, str(kept))
        cuts = [int(found.group(1)) for found in map(CUT.fullmatch, lines) if found]
        right = [at - len(front)] if len(front) < at < len(whole) else []
        runs.results.check(f"a file of {at} octets: what is told", cuts == right, str(lines))
        runs.results.check(f"a file of {at} octets: its end", status == 1)


def others(runs):
    """A link, a FIFO or a folder in place of the file: no server begins, and nothing of it changes."""
    target = runs.path / "target"
    target.write_bytes(b"octets")
    makes = {"link": lambda path: path.symlink_to(target),
             "dangling link": lambda path: path.symlink_to(runs.path / "none"),
             "FIFO": os.mkfifo, "folder": lambda path: path.mkdir()}
    for name, make in makes.items():
        store = with_refused(runs)
        path = store / "refused"
        path.unlink()
        make(path)
        said = "Is a directory" if name == "folder" else "not a regular file"
        runs.refused(f"a {name} in place of the file", any_port("lf"), f"{path}: ", said, store=store)
        runs.results.check(f"the {name} stays", os.path.lexists(path) and not stat.S_ISREG(os.lstat(path).st_mode))
    runs.results.check("the target is as it was", target.read_bytes() == b"octets")
    runs.results.check("a dangling link makes no file", not (runs.path / "none").exists())


def damaged(runs):
    """More behind the last whole entry than an entry has is damage: the file keeps it under its other name."""
    store = with_refused(runs)
    path = store / "refused"
    entries = framed("counted", b"x" * 1_000) * 500
    for place in "its front", "the end of what is whole":
        whole = path.read_bytes()
        at = 0 if place == "its front" else len(whole)
        octets = bytearray(whole + entries)
        octets[at] ^= 0x80
        path.write_bytes(octets)
        with runs.until_eof(*any_port("lf"), *SOON, store=store) as server:
            server.send("lf", b"later\n")
            status, lines = server.end()
        told = b"refused: damaged at octet %d: kept as refused.1, and begun anew" % at
        runs.results.check(f"a file that is damaged at {place}: what is told", status == 1 and told in lines, f"{status} {lines}")
        runs.results.check(f"a file that is damaged at {place}: it stays", (store / "refused.1").read_bytes() == octets)
        kept = [frame for _, frame in refused_file(store)]
        runs.results.check(f"a file that is damaged at {place}: a new one", kept == [b"later"], str(kept))


def one_bit(runs):
    """A bit of a count that is flipped cuts nothing off: all entries behind it stay, under the other name."""
    store = with_refused(runs)
    path = store / "refused"
    entries = [framed("counted", b"%d " % n + b"x" * 50) for n in range(2_000)]
    octets = b"".join(entries)
    for place in 0, len(entries[0]), len(entries[0]) + 1, len(entries[0]) + 2:
        for bit in range(8):
            flipped = bytearray(octets)
            flipped[place] ^= 1 << bit
            path.write_bytes(flipped)
            with runs.until_eof(*any_port("lf"), *SOON, store=store) as server:
                status, lines = server.end()
            kept = path.read_bytes() + (store / "refused.1").read_bytes() if (store / "refused.1").exists() else path.read_bytes()
            right = status == 0 and kept.count(b"x" * 50) == len(entries)
            runs.results.check(f"bit {bit} at {place} of refused: every entry stays", right, f"{status} {lines} {len(kept)}")
            (store / "refused.1").unlink(missing_ok=True)


def blank_end(runs):
    """Zeros that a power cut leaves in place of what was written are cut off."""
    store = with_refused(runs)
    path = store / "refused"
    whole = path.read_bytes()
    path.write_bytes(whole + bytes(4_096))
    with runs.until_eof(*any_port("lf"), *SOON, store=store) as server:
        status, lines = server.end()
    right = status == 0 and b"refused: 4096 octets behind the last whole entry cut off" in lines
    runs.results.check("zeros behind the last whole entry", right and path.read_bytes() == whole, f"{status} {lines}")


def never_turned(runs):
    """Where a folder has the other name, the file has at most 128 MiB; what comes then is counted and told."""
    store = with_refused(runs)
    path = store / "refused"
    path.write_bytes(framed("counted", b"0" * 262_144) * 508)  # 127 MiB
    (store / "refused.1").mkdir()
    with runs.until_eof(*any_port("lf"), *SOON, store=store) as server:
        for _ in range(30):
            server.send("lf", b"x" * 60_000 + b"\n")
        told = server.until_told(re.compile(rb"refused: [1-9]\d* entries not kept: .*"))
        runs.results.check("a file that cannot be turned: what is told", told, str(server.lines()[-2:]))
        server.send("lf", A + b"\n")
        runs.holds("beside a file that cannot be turned", server, A)
        size = path.stat().st_size
        runs.results.check("a file that cannot be turned: its size", size <= (128 << 20) + (1 << 17), str(size))


def turned(runs):
    """A turn-over whose new file cannot be made loses nothing, and the old file goes on, until it can be made."""
    store = with_refused(runs)
    path, count = store / "refused", 256  # 64 MiB
    path.write_bytes(framed("counted", b"0" * 262_144) * count)
    (store / "refused.new").mkdir()
    with runs.until_eof(*any_port("lf"), *SOON, store=store) as server:
        begun = path.stat().st_size
        server.send("lf", b"first\n")
        until(lambda: path.stat().st_size > begun)
        (store / "refused.new").rmdir()
        server.send("lf", b"second\n")
        server.end()
    kept = [words for _, words in refused_file(store)]
    older = counted_frames((store / "refused.1").read_bytes())[0][count:]
    runs.results.check("the old file goes on", [one.split(b"\n", 1)[1] for one in older] == [b"first"], str(older))
    runs.results.check("the new file begins", kept == [b"second"], str(kept))
    runs.results.check("nothing else is left", not (store / "refused.new").exists())


def moved(runs):
    """Where somebody moves or removes the file while a server runs, what is refused then is kept in a new one; a folder in its
    place is told."""
    for name, change in {"removed": lambda path: path.unlink(), "moved": lambda path: path.rename(path.with_name("refused.old")),
                         "replaced": lambda path: (path.unlink(), path.touch())}.items():
        store = with_refused(runs)
        path = store / "refused"
        with runs.until_eof(*any_port("lf"), *SOON, store=store) as server:
            server.send("lf", b"first\n")
            until(lambda: path.read_bytes().endswith(b"first"))
            change(path)
            server.send("lf", b"second\n")
            server.end()
        kept = [words for _, words in refused_file(store)]
        runs.results.check(f"a file that is {name}: the new one", kept == [b"second"], str(kept))
    store = with_refused(runs)
    path = store / "refused"
    with runs.until_eof(*any_port("lf"), *SOON, store=store) as server:
        path.unlink()
        path.mkdir()
        server.send("lf", b"second\n")
        told = server.until_told(re.compile(rb"refused: 1 entries not kept: Is a directory.*"))
        runs.results.check("a folder in its place is told", told, str(server.lines()[-2:]))


def full_disk(runs):
    """On a full disk the file has whole entries; those that are not kept are counted, and it goes on with more room."""
    disk = runs.path / "disk"
    disk.mkdir()
    words = ["mount", "-t", "tmpfs", "-o", "size=256k", "none", str(disk)]
    if subprocess.run(words, capture_output=True).returncode != 0:
        runs.results.skip("refused frames on a full disk", "no disk may be mounted")
        return
    try:
        with runs.until_eof(*any_port("lf"), *SOON, store=disk / "store") as server:
            for n in range(100):
                server.send("lf", b"%d %b\n" % (n, b"x" * 3_000))
            told = server.until_told(NOT_KEPT)
            runs.results.check("entries that are not kept are told", told, str(server.lines()[-2:]))
            runs.results.check("once a minute", sum(map(bool, map(NOT_KEPT.fullmatch, server.lines()))) == 1)
            kept = refused_file(server.store)
            numbers = [frame.split()[0] for _, frame in kept] if isinstance(kept, list) else None
            right = numbers == [b"%d" % n for n in range(len(kept))]
            runs.results.check("a full disk has whole entries", right and 0 < len(kept) < 100, str(kept)[-200:])
            subprocess.run(["mount", "-o", "remount,size=16m", str(disk)], check=True)
            server.send("lf", b"last\n" + A + b"\n")
            runs.holds("a disk with room", server, A)
            status, lines = server.end()
            after = refused_file(server.store)
            right = after[:len(kept)] == kept and [frame for _, frame in after[len(kept):]] == [b"last"]
            runs.results.check("a disk with room: the next entry", status == 1 and right, str(after)[-200:])
            lost = sum(int(found.group(1)) for found in map(NOT_KEPT.fullmatch, lines) if found)
            runs.results.check("each entry is kept or counted", lost + len(kept) == 100, f"{lost} {len(kept)}")
    finally:
        subprocess.run(["umount", str(disk)], check=True)


def printed(path):
    """A path as a line has it: octets from 32 to 126 as themselves, but quote and backslash, and all others as `\\x..`."""
    octets = os.fsencode(path)
    return b"".join(b"%c" % one if 32 <= one <= 126 and one not in b'"\\' else b"\\x%02x" % one for one in octets)


# folders whose names have octets that would do something to a terminal, or to a line
NAMES = ["a\x1b[31mb", "a\nb", "\r\ta", "a\x7f", "a\u009b31mb", 'a"b\\x1b']


def shown(runs):
    """The name of a folder that has control octets is printed without them, by whatever command tells of it."""
    for name in NAMES:
        none, empty = runs.path / "none" / name, runs.path / name
        empty.mkdir()
        with runs.server(*any_port("lf"), store=none) as server:
            right = server.status() == 2 and all(line.startswith(printed(none) + b": No such file") for line in server.told())
            runs.results.check(f"serve of {name!r}", right and len(server.told()) == 1, str(server.told()))
        for command, *words in ["read"], ["verify"], ["compact"], ["expire", "--keep", "1"], ["add"]:
            seen = runs.program.run([command, str(none), *words])
            line = printed(none) + b": No such file or directory (os error 2)\n"
            runs.results.same(f"{command} of {name!r}, which is not there", seen, (2, b"", line))
            if command != "add":
                seen = runs.program.run([command, str(empty), *words])
                line = printed(empty) + b": not a store: it has neither a journal nor a segment\n"
                runs.results.same(f"{command} of {name!r}, which is empty", seen, (2, b"", line))
        (empty / "lock").mkdir()
        with runs.server(*any_port("lf"), store=empty) as server:
            right = [printed(empty) + b"/lock: Is a directory (os error 21)"]
            runs.results.check(f"serve of {name!r}, whose lock is a folder", (server.status(), server.told()) == (2, right), str(server.told()))


TESTS = [unread, read_late, no_reader, in_order, to_a_file, stopped_terminal, silent_terminal, torn, others, damaged, one_bit, blank_end, turned, never_turned, moved, full_disk, shown]


def full_pipes(program, results):
    for test in TESTS:
        with tempfile.TemporaryDirectory() as path:
            try:
                test(Runs(program, results, path))
            except Exception as error:  # a server that has ended too early, or waits for ever
                results.check(f"full pipes, {test.__name__}: it comes to its end", False, repr(error))

"""logger of util-linux, to recorders and to `collect`."""
import subprocess
import time

from lib import reference
from lib.loopback import HERE, NEVER, Collect
from lib.results import difference
from peers.answers import agree
from peers.changes import described
from peers.recorder import FRAMINGS, Recorder
from peers.records import record

def logged(message="message", data=b"-", words=(), came=None, app=b"app"):
    """The record that logger is to send, and its words."""
    text = message if isinstance(message, bytes) else message.encode()
    return record(text if came is None else came, b"-", b"-", data=data, app=app), [*words, "--", text]


LOGGER = [
    ("plain", *logged()),
    ("empty message", *logged("")),
    ("UTF-8", *logged("größe 接続")),
    ("octets beyond UTF-8", *logged(b"x\xff\xfe\x80y")),
    ("leading and trailing spaces", *logged("  message  ")),
    ("tab", *logged("a\tb")),
    ("control characters", *logged(b"a\x01\x07\x1b[1m\x7fb")),
    ("CR at the end", *logged("message\r")),
    ("LF inside", *logged("a\nb")),
    ("LF at the end", *logged("message\n")),
    ("one element", *logged(data=b'[a@1 k="v"]', words=["--sd-id", "a@1", "--sd-param", 'k="v"'])),
    ("elements that descend", *logged(data=b'[b@1 k="1" l="2"][a@1 k="3"]', words=[
        "--sd-id", "b@1", "--sd-param", 'k="1"', "--sd-param", 'l="2"', "--sd-id", "a@1", "--sd-param", 'k="3"'])),
    ("escapes", *logged(data=b'[a@1 k="\\"\\\\\\]"]', words=["--sd-id", "a@1", "--sd-param", 'k="\\"\\\\\\]"'])),
    ("a value with ] unescaped", *logged(data=b'[a@1 k="x\\]y"]', words=["--sd-id", "a@1", "--sd-param", 'k="x]y"'])),
    ("an id twice", *logged(data=b"[a@1][a@1]", words=["--sd-id", "a@1", "--sd-id", "a@1"])),
    ("app of 48", *logged(words=["-t", "a" * 48], app=b"a" * 48)),
    ("app of 49", *logged(words=["-t", "a" * 49], app=b"a" * 48)),
    ("app with a space", *logged(words=["-t", "a b"], app=b"a-b")),
    *[(f"message of {size:,}", *logged("0123456789abcdef" * (size // 16))) for size in (1_024, 1_040, 8_192)],
    *[(f"message of {size:,}, --size 64KiB", *logged("0123456789abcdef" * (size // 16), words=["--size", "64KiB"]))
      for size in (8_192, 60 * 1_024)],
]
LOGGER_WAYS = {"lines": ["--tcp"], "counted": ["--tcp", "--octet-count"], "udp": ["--udp"]}


def log(path, way, port, words):
    """One run of logger, without a time and a host of its own, so that two runs send the same."""
    front = [path, "--rfc5424=notime,nohost", "--server", HERE, "--port", str(port), "-p", "local4.notice", "-t", "app", "--id=4711",
             "--msgid", "ID47", *LOGGER_WAYS[way]]
    return subprocess.run([*front, *words], capture_output=True, stdin=subprocess.DEVNULL, timeout=NEVER)


def recorded(results, path, way, name, words):
    """A recorder with what one run of logger sends."""
    recorder = Recorder(way)
    done = log(path, way, recorder.port, words)
    time.sleep(0.02)
    recorder.close()
    results.check(f"logger, {way}, {name}", done.returncode == 0, done.stderr)
    return recorder


def expected(recorders):
    """What a collector answers on these connections, or datagrams."""
    answers = reference.Answers(b"", "counted")
    answers.outcomes = [reference.read(frame) for recorder in recorders for frame in recorder.frames()[0]]
    answers.stop = [stop.encode() for recorder in recorders if (stop := recorder.frames()[1])]
    return answers.archive()


def accepted(path):
    """The cases that logger accepts; a line for each that it does not."""
    for name, octets, words in LOGGER:
        done = log(path, "udp", 9, ["--no-act", *words])
        if done.returncode:
            print(f"  {name}: logger refuses it, {done.stderr.decode().strip()}")
        else:
            yield name, octets, words


def stamped(program, results, path):
    """A record with the time, the host and the quality of time that logger adds by itself, on each way."""
    for way, words in LOGGER_WAYS.items():
        run = Collect(program, FRAMINGS.get(way, "udp"), 1)
        front = [path, "--rfc5424", "--server", HERE, "--port", str(run.port), *words]
        subprocess.run([*front, "-t", "app", "message"], stdin=subprocess.DEVNULL, timeout=NEVER)
        status, archive, notes = run.answer()
        entry = archive.partition(b" ")[2]
        record = reference.read(entry)
        right = (status, notes) == (0, b"") and not isinstance(record, bytes) and record.message == b"message"
        results.check(f"logger as it is, {way}", right, f"{status} {archive!r} {notes!r}")
        print(f"  {way}, without these words: {entry.decode(errors='replace')}")


def loggers(program, results, path):
    """Each case is sent to a recorder of its own, and again to one collector for all of them."""
    version = subprocess.run([path, "--version"], capture_output=True, text=True).stdout.split()[-1]
    print(f"\nlogger of util-linux {version}, --rfc5424=notime,nohost", flush=True)
    cases = list(accepted(path))
    ways = {way: [recorded(results, path, way, name, words) for name, _, words in cases] for way in LOGGER_WAYS}
    answers = {}
    for way, recorders in ways.items():
        count = sum(len(one.pieces) if way == "udp" else bool(one.pieces) for one in recorders)
        run = Collect(program, FRAMINGS.get(way, "udp"), count)
        for (_, _, words), recorder in zip(cases, recorders):
            if recorder.pieces:
                log(path, way, run.port, words)
        answers[way], right = run.answer(), expected(recorders)
        # the line on an unfinished frame has no number, so that it may stand between others
        same = answers[way][:2] == right[:2] and sorted(answers[way][2].splitlines()) == sorted(right[2].splitlines())
        results.check(f"logger, {way}: the archive is that of what came", same, difference(answers[way], right))
    seen = {way: [recorder.frames() for recorder in recorders] for way, recorders in ways.items()}
    agree(results, "logger", answers, seen)
    described([case[:2] for case in cases], {way: ([one for one, _ in frames], "") for way, frames in seen.items()})
    for way, frames in seen.items():
        for (name, _, _), (_, stop) in zip(cases, frames):
            if stop:
                print(f"  {way}, {name}: {stop}")
    stamped(program, results, path)

"""What the module in C does again and again, and where each allocation of Python fails in turn.

usage: strained_calls.py kept | failing | threads

`kept` prints the calls after which Python holds more memory than before; `failing` those that give something else than a right
answer or want of memory, and how often that was; `threads` goes over lists in several threads. Status 77 is a Python that cannot
make its allocations fail.
"""
import ctypes
import sys
from threading import Thread

import syslogbox
from syslogbox import _streams

PLAIN = b"<165>1 2003-10-11T22:14:15.003Z mymachine.example.com evntslog - ID47 - hi"
LONG = b"<34>1 - h su - - " + b"".join(b'[a%d k="\\"%b" l=""]' % (n, b"v" * n) for n in range(60)) + b" " + b"m" * 5_000
VIEWS = [syslogbox.view(record) for record in (PLAIN, LONG)]
STREAM = b"".join(syslogbox.framed(record) for record in (PLAIN, LONG, b"<0>1")) + b"9 "


def refused(call, *args, **names):
    """A call that may be refused, but for want of memory."""
    try:
        return call(*args, **names)
    except (ValueError, TypeError):
        return None


CALLS = {f"{call.__name__} of {record[:9]}, {len(record)}": (call, record) for record in (PLAIN, LONG, b"<0>1", "text")
         for call in (syslogbox.check, syslogbox.is_record, syslogbox.canonical, syslogbox.view, syslogbox.trimmed)}
CALLS |= {f"build {len(one.elements)}": (syslogbox.build, one) for one in VIEWS}
CALLS["build what is refused"] = syslogbox.build, syslogbox.Record(0, 0, None, "a b", None, None, None)
CALLS["build what is none"] = syslogbox.build, syslogbox.Record(0, 0, 1.5, None, None, None, None)
CALLS["refused"] = _streams.refused, [PLAIN, LONG, b"<0>1"] * 3
CALLS["refused, of what is none"] = _streams.refused, [PLAIN, "text"]
CALLS["scan"] = _streams.scan, 1, 9_000, STREAM, 0, 0, 0
CALLS["scan of what is too long"] = _streams.scan, 1, 99, STREAM, 0, 0, 0
CALLS["legacy"] = syslogbox.legacy, b"<13>Oct 11 22:14:15 h a[1]: x", 2003
CALLS["legacy, wide"] = lambda: syslogbox.legacy(b"<13>" + b"x" * 5_000, 2003, dialect=syslogbox.Dialect.WIDE),
CALLS["legacy that is refused"] = syslogbox.legacy, b"<0>1 x", 2003
CALLS["a fault as text"] = syslogbox.RecordError, 1, 2, 3
# without memory for a generator, Python 3.12 and 3.13 themselves fail
ITERATORS = {"check_all": (lambda: list(syslogbox.check_all([PLAIN, LONG, b"<0>1"] * 3)),),
             "frames": (lambda: list(syslogbox.frames(STREAM)),), "records": (lambda: list(syslogbox.records(STREAM)),)}


def kept():
    """Blocks of memory grow with the calls only where one of them keeps what it took."""
    for name, call in {**CALLS, **ITERATORS}.items():
        for _ in range(20):
            refused(*call)
        before = sys.getallocatedblocks()
        for _ in range(1_000):
            refused(*call)
        if sys.getallocatedblocks() - before > 100:
            print(name, sys.getallocatedblocks() - before)


def failing():
    try:
        from _testcapi import remove_mem_hooks, set_nomemory
    except ImportError:
        sys.exit(77)
    wanting = 0
    for name, call in CALLS.items():
        count, since, right = 0, 0, repr(refused(*call))
        # a call that is answered although an allocation failed may take more of them; one that is answered forty times does not
        while since < 40 and count < 3_000:
            set_nomemory(count, count + 1)
            try:
                seen = refused(*call)
            except (MemoryError, SystemError, ctypes.ArgumentError):
                # some calls of Python and ctypes tell want of memory as something else
                remove_mem_hooks()
                wanting, since = wanting + 1, 0
            else:
                remove_mem_hooks()
                since += 1
                if repr(seen) != right:
                    print(name, "at", count)
            count += 1
    print(wanting)


def threads():
    """Each thread has the answer of its own list, while others take theirs to pieces."""
    wrong = []

    def go(number):
        batch = [PLAIN] * 500
        for turn in range(200):
            batch[(turn * 7) % 500] = b"<%d>" % number
            right = [n for n, record in enumerate(batch) if record != PLAIN]
            seen = [n for n, _ in syslogbox.check_all(batch)]
            batch = [bytes(bytearray(record)) for record in batch]
            if seen != right:
                wrong.append(seen)

    every = [Thread(target=go, args=[number]) for number in range(4)]
    for one in every:
        one.start()
    for one in every:
        one.join()
    print(len(wrong), "wrong")


if __name__ == "__main__":
    assert syslogbox.IN_C
    {"kept": kept, "failing": failing, "threads": threads}[sys.argv[1]]()

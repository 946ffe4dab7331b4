#!/usr/bin/env python3
"""Tries the real program.

usage: tests/run.py PROGRAM INJECTION TRIAL [PART..]
       tests/run.py soak PROGRAM [--seconds N | --cases N] [--seed N] [--jobs N]
       tests/run.py algebra PROGRAM [--rounds N] [--seed N]
       tests/run.py bindings PROGRAM [--records N] [--seed N]
       tests/run.py stores PROGRAM TRIAL [--rounds N] [--disks N] [--seed N]
       tests/run.py clients PROGRAM [--seconds N]
       tests/run.py lying-sites PROGRAM [--cases N] [--jobs N] [--seed N]
       tests/run.py kills-of-sites PROGRAM [--kills N] [--seed N]
       tests/run.py three-sites PROGRAM [--seconds N] [--rate N] [--seed N]
       tests/run.py noisy PROGRAM [--seconds N] [--folder FOLDER] [KIND..]
       tests/run.py mutants [--jobs N] [CRATE..]
       tests/run.py senders PROGRAM [--tools FOLDER]
       tests/run.py load PROGRAM [--tools FOLDER] [--records N] [--rounds N]
       tests/run.py cluster PROGRAM [--folder FOLDER] [--records N] [--engines ENGINE..]
       tests/run.py serve-clients PROGRAM [--tools FOLDER] [--records N] [--kills N] [--seed N] [--parts PART..]
       tests/run.py prometheus PROGRAM [--records N]
       tests/run.py serve-soak PROGRAM [--seconds N] [--rate N] [--connections N] [--folder FOLDER]
       tests/run.py serve-load PROGRAM [--tools FOLDER] [--records N] [--rounds N] [--folder FOLDER]

PROGRAM is syslogbox, INJECTION the program `fault_injection` of the libraries, TRIAL the program `store_trial` of stores; `-` is
one that is not there, and the part that needs it is skipped, and told. The first form runs them on tables of inputs, with devices
that fail and with allocations that fail: all parts, or those that are named. As many parts run side by side as there are cores,
each in a process, a folder and ports of its own, and a line tells of each what it counted and its seconds. One part that is named
alone runs in this very process. The others tell about themselves with --help.
Each prints what fails, and last `N passed, M failed`; `mutants` prints how many were refused for a goal, for a name alone, let
through or unreadable. The status is 0 exactly where nothing failed.
"""
import multiprocessing
import sys
import tempfile
from importlib import import_module

sys.dont_write_bytecode = True
from lib.program import Folder, Program
from lib.results import Results
from lib.side_by_side import Parts, cores, python

# the parts that run side by side, those that take longest first; each is a module of cases/ with a function of its name
SIDE_BY_SIDE = ["stores", "reconciling", "lying_sites", "libraries", "algebra", "mutated", "serving", "serving_short", "legacy", "bindings", "commands", "verdicts", "archives",
                "reading", "following", "terminal", "unsafe_folders", "damaged_journals", "damaged_segments", "many_days", "full_pipes", "notes_pace", "watching", "sending",
                "collect", "backing_up", "adding", "expiring", "ledgers", "statistics", "spilling", "counting", "proofs", "scarce_memory", "documents", "sockets", "descriptors", "costs", "auditing"]
# these run after the others, one after the other: `soak` takes all cores itself, the others measure
AT_THE_END = ["soak", "colliding_ids", "noisy_senders"]
MODULES = {"soak": "hostile.soak"}
PARTS = SIDE_BY_SIDE + AT_THE_END
ALONE = {"soak": "hostile.soak", "algebra": "hostile.archives", "stores": "hostile.stores", "clients": "hostile.clients",
         "lying-sites": "hostile.lying_sites", "kills-of-sites": "hostile.kills_of_sites", "three-sites": "hostile.three_sites",
         "bindings": "bindings.lines",
         "mutants": "mutants.run", "noisy": "cases.noisy_senders", "senders": "peers.senders", "load": "peers.load", "cluster": "peers.cluster",
         "serve-clients": "peers.serve_clients", "prometheus": "peers.prometheus", "serve-soak": "peers.serve_soak", "serve-load": "peers.serve_load"}


def try_part(name, words, results):
    """Tries one part in this process."""
    part = getattr(import_module(MODULES.get(name, f"cases.{name}")), name)
    with tempfile.TemporaryDirectory() as path:
        program, injection, trial = (Program(word, Folder(path)) for word in words)
        part(*{"libraries": [injection], "stores": [program, trial], "reading": [program, trial]}.get(name, [program]), results)


def share_memory():
    """Whether processes can share memory."""
    try:
        multiprocessing.Lock()
    except OSError:
        return False
    return True


def there(names, words, results):
    """Those of the parts whose programs are there, and all else that they need; the others are told."""
    lacking = {name: "its program is not there" for name, word in [("libraries", words[1]), ("stores", words[2]), ("reading", words[2])] if word == "-"}
    if not share_memory():
        lacking |= dict.fromkeys(["soak", "noisy_senders"], "no process may write to /dev/shm")
    for name in names:
        if name in lacking:
            results.skip(name, lacking[name])
    return [name for name in names if name not in lacking]


def main(words):
    if words and words[0] in ALONE:
        return import_module(ALONE[words[0]]).main(words[1:])
    if len(words) < 3 or not set(words[3:]) <= set(PARTS):
        print(__doc__, f"\nThe parts are {', '.join(PARTS)}.", file=sys.stderr)
        return 2
    results, words, names = Results(), words[:3], words[3:] or PARTS
    names = there(names, words, results)
    if len(names) == 1:
        try_part(names[0], words, results)
    else:
        parts = Parts([*python(__file__), *words], results)
        parts.side_by_side([name for name in names if name not in AT_THE_END], cores())
        parts.side_by_side([name for name in names if name in AT_THE_END], 1)
    return results.end()


if __name__ == "__main__":
    sys.exit(main(sys.argv[1:]))

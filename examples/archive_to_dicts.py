"""Prints the records of an archive as a list of dicts.

usage: archive_to_dicts.py ARCHIVE

An archive is a stream of counted frames, each a canonical record. The status is 1 if ARCHIVE is none, and 2 if it cannot
be read, or is not the only argument.
"""
import pprint
import sys

import syslogbox


def records(path):
    """The records of an archive, each as a dict."""
    with open(path, "rb") as archive:
        return [syslogbox.view(frame).asdict() for frame in syslogbox.frames(archive, longest=syslogbox.ENTRY_MAX)]


def main(words):
    if len(words) != 1:
        print("usage: archive_to_dicts.py ARCHIVE", file=sys.stderr)
        return 2
    try:
        dicts = records(words[0])
    except OSError as failed:
        print(f"{words[0]}: {failed.strerror}", file=sys.stderr)
        return 2
    except syslogbox.SyslogError as refused:
        print(f"{words[0]}: {refused}", file=sys.stderr)
        return 1
    pprint.pprint(dicts, sort_dicts=False)
    return 0


if __name__ == "__main__":
    sys.exit(main(sys.argv[1:]))

#!/usr/bin/env python3
"""Confirms proofs that records are in an archive, or that they are not, by the grammar of docs/PROOF_FORMAT.md alone.

usage: confirm.py COUNT ROOT RECORDS < PROOFS

RECORDS has counted records in canonical form (`syslogbox convert --to counted` writes them), in the order of the proofs: what is
said of any other spelling is worth nothing. A line for each: present, absent or not shown. The status is 0 if all are shown, 1 if
one is not or octets follow the last proof, which is told, and 2 if RECORDS cannot be read, or an argument is wrong."""
import hashlib
import re
import sys

USAGE = "usage: confirm.py COUNT ROOT RECORDS < PROOFS"
NUMBER = rb"(0|[1-9][0-9]*)"


def node(left, right):
    return hashlib.sha256(b"\1" + left + right).digest()


def root_of(octets, index, path, count):
    """The root that the path leads to (RFC 9162, section 2.1.3.2), or None."""
    last, root = count - 1, hashlib.sha256(b"\0" + octets).digest()
    for beside in path:
        if last == 0:
            return None
        if index & 1 or index == last:
            root = node(beside, root)
            while index and not index & 1:
                index, last = index >> 1, last >> 1
        else:
            root = node(root, beside)
        index, last = index >> 1, last >> 1
    return root if last == 0 else None


def ended(text, at):
    return re.compile(b"\n").match(text, at).end()


def read_path(text, at):
    head = re.compile(NUMBER + b" " + NUMBER + b"\n").match(text, at)
    if len(head[1]) > 20 or int(head[1]) >= 1 << 64 or len(head[2]) > 2 or int(head[2]) > 64:
        raise ValueError("the path is longer than any")
    index, number, at = int(head[1]), int(head[2]), head.end()
    lines = re.compile(rb"(?:[0-9a-f]{64}\n){%d}" % number).match(text, at).group()
    return (index, [bytes.fromhex(line.decode()) for line in lines.split()]), at + len(lines)


def read_neighbour(word, text, at):
    found = re.compile(word + b" " + NUMBER + b" ").match(text, at)
    if not found:
        return None, at
    if len(found[1]) > 6:
        raise ValueError("the record is longer than any")
    end = found.end() + int(found[1])
    path, behind = read_path(text, ended(text, end))
    return (text[found.end():end], *path), behind


def place(octets):
    """Records without a time come first, then the earlier time, then the lesser octets."""
    time = octets.split(b" ")[1]
    return (b"" if time == b"-" else time, octets)


def shown(count, root, record, text, at):
    """What the proof at this place of the text shows of the record, and where the next one begins."""
    if text.startswith(b"present ", at):
        (index, path), at = read_path(text, at + 8)
        is_there = index < count and root_of(record, index, path, count) == root
        return "present" if is_there else "not shown", ended(text, at)
    before, at = read_neighbour(b"before", text, re.compile(b"absent\n").match(text, at).end())
    behind, at = read_neighbour(b"behind", text, at)
    stand = all(n[1] < count and root_of(*n, count) == root for n in (before, behind) if n)
    ends = (before[1] + 1 if before else 0) == (behind[1] if behind else count)
    order = [place(octets) for octets in [before and before[0], record, behind and behind[0]] if octets]
    apart = all(a < b for a, b in zip(order, order[1:]))
    is_shown = stand and ends and apart and (count or root == hashlib.sha256().digest())
    return "absent" if is_shown else "not shown", ended(text, at)


def counted(octets):
    """The frames of a stream of octets."""
    at = 0
    while at < len(octets):
        head = re.compile(NUMBER + b" ").match(octets, at)
        if not head or head.end() + int(head[1]) > len(octets):
            raise ValueError(f"there is no counted frame at octet {at}")
        at = head.end() + int(head[1])
        yield octets[head.end():at]


def records_of(path):
    with open(path, "rb") as file:
        return list(counted(file.read()))


def confirm(count, root, records):
    """Prints a line for each record; gives whether the proofs show all of them, and nothing follows the last."""
    text, at, all_shown, is_read = sys.stdin.buffer.read(), 0, True, True
    for record in records:
        try:
            answer, at = shown(count, root, record, text, at)
        except (AttributeError, IndexError, TypeError, ValueError):  # no proof is there, nor behind
            answer, at, is_read = "not shown", len(text), False
        all_shown &= answer != "not shown"
        print(answer)
    if is_read and at < len(text):
        print(f"trailing {at}", file=sys.stderr)
        return False
    return all_shown


def main(words):
    if len(words) != 3 or not re.fullmatch("[0-9]+", words[0]) or not re.fullmatch("[0-9a-fA-F]{64}", words[1]):
        print(USAGE, file=sys.stderr)
        return 2
    count, root, path = words
    try:
        records = records_of(path)
    except (OSError, ValueError) as wrong:
        print(f"{path}: {wrong.strerror if isinstance(wrong, OSError) else wrong}", file=sys.stderr)
        return 2
    return 0 if confirm(int(count), bytes.fromhex(root), records) else 1


if __name__ == "__main__":
    sys.exit(main(sys.argv[1:]))

"""What a sender changed: the records that were sent beside the frames that came."""
import os

from lib import reference

FEW = 3  # records with a change of one kind, which are told one by one
FIELDS = ["priority", "time", "host", "app", "proc", "msgid", "data", "message"]


def shown(octets, at=0):
    """Octets as Python writes them; of many, the part around a place, and how many there are."""
    if octets is None:
        return "nothing"
    if len(octets) <= 60:
        return repr(octets)[1:]
    begin = max(0, min(at - 16, len(octets) - 32))
    return f"{'..' if begin else ''}{repr(octets[begin:begin + 32])[1:]}{'..' if begin + 32 < len(octets) else ''} ({len(octets):,})"


def beside(name, sent, came):
    """What was sent beside what came, from the first octet in which they differ."""
    at = len(os.path.commonprefix([sent or b"", came or b""]))
    return f"{name} {shown(sent, at)} -> {shown(came, at)}"


def time_change(sent, came):
    if sent == b"-":
        return "a time made up"
    if came == b"-":
        return "no time"
    one, other = reference.instant(sent), reference.instant(came)
    if one == other:
        return "the same instant, written otherwise"
    return "the fraction cut off" if one - one % 1_000_000 == other else "another instant"


def kind_of(field, sent, came):
    """The kind of a change, under which records are told together."""
    if came == (sent or b" ") + b"\n":
        return f"{field}: a line feed more"
    if field == "time":
        return f"time: {time_change(sent, came)}"
    if field == "message" and sent is None and came == b" ":
        return "message: a space in place of nothing"
    front = b"" if sent == b"-" else sent
    if field == "data" and came.startswith(front + b"["):
        more = b" ".join(name for name, _, _ in reference.raw_elements(came[len(front):]))
        return f"data: {more.decode()} more"
    return f"{field}: {shown(came)} in its place" if field in FIELDS[2:6] else field


def judged(frame):
    """A frame, and whether it is refused."""
    return shown(frame) + (" (refused)" if frame is None or isinstance(reference.read(frame), bytes) else "")


def changes(sent, frames):
    """How the frames that came differ from what was sent: a sign, and the kinds of change, each with a text.
    `.` not at all, `=` the same record in other octets, `*` another record, `!` refused or lost or cut up."""
    if frames == [sent]:
        return ".", []
    if len(frames) != 1:
        return "!", [("frames", f"{len(frames)} frames" + "".join(f", {judged(one)}" for one in frames[:3]))]
    if frames == [None]:
        return "!", [("refused", "refused as too-long")]
    came, outcome = frames[0], reference.read(frames[0])
    if isinstance(outcome, bytes):
        return "!", [("refused", f"refused as {outcome.decode()}: {shown(came, int(outcome.split()[-1]))}")]
    fields = zip(FIELDS, reference.parsed(sent).groups(), reference.parsed(came).groups())
    same = reference.canonical(outcome) == reference.canonical(reference.read(sent))
    return "=" if same else "*", [(kind_of(*one), beside(*one)) for one in fields if one[1] != one[2]]


def told(cases, seen):
    """Prints how many records of each sign there are, and what changed: few records each, many together by kind."""
    signs, kinds = dict.fromkeys(".=*!", 0), {}
    for (name, sent), frames in zip(cases, seen):
        sign, changed = changes(sent, frames)
        signs[sign] += 1
        for kind, text in changed:
            kinds.setdefault(kind, []).append((sign, name, text))
    print(f"    {signs['.']} of {len(cases)} came as they were, {signs['=']} in other octets (=), {signs['*']} as other records (*), "
          f"{signs['!']} refused, lost or cut up (!)")
    for kind, records in kinds.items():
        if len(records) > FEW and ":" in kind:
            _, name, text = records[0]
            print(f"    {''.join(sorted({sign for sign, _, _ in records}))} {kind}: {len(records)} records, as {name}: {text}")
        else:
            for sign, name, text in records:
                print(f"    {sign} {name}: {text}")


def is_longer(some, others):
    """Whether the others are the same frames, with or without a line feed more at the end of each."""
    return len(some) == len(others) and all(other in (one, one + b"\n") for one, other in zip(some, others))


def described(cases, ways):
    """Prints what changed, in full for the first way, and for the others how they differ from it. A way has the frames of each
    case, and how its stream ends if not after one."""
    first = next(iter(ways.values()))[0]
    for way, (seen, stop) in ways.items():
        print(f"  {way}:" + (f" the stream ends as {stop}" if stop else ""))
        if seen is first:
            told(cases, seen)
        elif seen == first:
            print("    the same frames")
        else:
            same = sum(one == other for one, other in zip(first, seen))
            rest = [n for n, _ in enumerate(cases) if not is_longer(first[n], seen[n])]
            print(f"    {same} with the same frames, {len(cases) - same - len(rest)} with a line feed more at the end, "
                  f"{len(rest)} with others")
            if rest:
                told([cases[n] for n in rest], [seen[n] for n in rest])

"""What collectors have to answer, after what was recorded."""
from lib import reference
from peers.recorder import FRAMINGS


def archive_of(program, recorder):
    """What `archive` answers on what was recorded; of datagrams, what the second reader does."""
    if recorder.way == "udp":
        answers = reference.Answers(b"", "counted")
        answers.outcomes = [reference.read(octets) for octets in recorder.pieces]
        return answers.archive()
    return archived(program, FRAMINGS[recorder.way], b"".join(recorder.pieces))


def archived(program, framing, octets, *options):
    return program.run(["archive", "--framing", framing, *options], octets)


def agree_trimmed(program, results, name, frames):
    """With --trim the frames of all ways are one archive."""
    archives = {way: archived(program, "counted", reference.counted(came), "--trim")[1] for way, (came, _) in frames.items()}
    same = len(set(archives.values())) == 1
    print(f"  trimmed, the archives of {', '.join(archives)}: {'equal' if same else 'different'}")
    results.check(f"{name}: trimmed, one archive", same, str({way: len(octets) for way, octets in archives.items()}))


def agree(results, name, answers, frames):
    """The archives of the ways, octet for octet; where the same frames came they have to be equal."""
    (first, one), *others = answers.items()
    for way, other in others:
        same, alike = one[1] == other[1], frames[first] == frames[way]
        told = "equal" if same else "different" + ("" if alike else ", as were the frames that came")
        print(f"  archives of {first} and {way}: {told}; {len(one[1]):,} and {len(other[1]):,} octets")
        results.check(f"{name}: {first} and {way}", same or not alike, "the frames are the same and the archives are not")

"""Where ranges of instants begin: the bounds of all ranges, and their places in an archive."""
from entries import LAST, Archive

SAMPLES = 256  # for each range
FIRST = b"0000-01-01T00:00:00.000000Z"  # the first instant


def sampled(paths: list[str], ranges: int) -> list[tuple[bytes, float]]:
    """Times of entries of all archives, ascending, and how many octets each stands for."""
    samples, count = [], max(4, SAMPLES * ranges // len(paths))
    for path in paths:
        archive = Archive(path)
        places = (archive.next_entry(archive.size * n // count) for n in range(count))
        samples += [(archive.time(place), archive.size / count) for place in places]
    return sorted(sample for sample in samples if FIRST <= sample[0] < LAST)


def bounds(samples: list[tuple[bytes, float]], ranges: int) -> list[bytes]:
    """Where each range begins, FIRST first, so that between two of them there are about as many octets."""
    begins, reached, whole = [FIRST], 0.0, sum(weight for _, weight in samples)
    for time, weight in samples:
        reached += weight
        while len(begins) < ranges and reached >= whole * len(begins) / ranges:
            begins.append(time)
    return begins + [begins[-1]] * (ranges - len(begins))


def cuts(archive: Archive, begins: list[bytes]) -> list[int]:
    """Where each range begins in an archive, that without times first, and last where the archive ends."""
    places, time = [0], b""
    for bound in begins:
        if time < bound:
            place = archive.place(bound, places[-1])
            time = archive.time(place)
        places.append(place)
    return [*places, archive.size]

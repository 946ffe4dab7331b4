"""Archives as several sites collect them for some days: of each record a second site has a copy.

Nine sites by seven days give 63 archives; the archive of a site and a day has the records that the site was sent and
those that the next site was sent. The 64th has records of all sites and days that came late. One record of 200 has no
time; one site's clocks are two hours ahead of UTC, so that its days reach into those before; by day there is more than
by night, and on the fourth day two records of five are of five minutes. The records are those of `plain`
(bench/corpus.py).
"""
import subprocess
import sys
from concurrent.futures import ProcessPoolExecutor

from lib.program import ROOT

sys.path.append(str(ROOT / "bench"))
import corpus

SITES, DAYS = 9, 7
HOURS = [*range(24), *range(7, 20), *range(9, 17)]  # how often each hour is drawn
STORM = 3  # the day of the storm


class Site(corpus.Source):
    """The records that one site was sent on one day."""

    def __init__(self, site, day):
        super().__init__(site * DAYS + day)
        self.day = day
        self.zone = "+02:00" if site == SITES - 1 else "Z"

    def time(self, n):
        if n % 200 == 7:
            return "-"
        draw = int(self.random.random() * 3_600_000_000)
        hour = self.pick(HOURS)
        if self.day == STORM and n % 5 < 2:
            hour, draw = 10, draw // 12
        second, micros = divmod(draw, 1_000_000)
        return f"2026-11-{self.day + 1:02d}T{hour:02d}:{second // 60:02d}:{second % 60:02d}.{micros:06d}{self.zone}"


def lines_of(path, site, day, count):
    """Writes what a site was sent on a day, as lines."""
    source = Site(site, day)
    path.write_bytes(b"".join(source.plain(n) + b"\n" for n in range(count)))


def archive_of(program, path, parts):
    """Writes the archive of some lines of some files: of each the first and the last but one."""
    with open(path, "wb") as archive:
        process = subprocess.Popen([program, "archive", "--framing", "lf"], stdin=subprocess.PIPE, stdout=archive)
        with process.stdin as lines:
            for part, first, last in parts:
                lines.writelines(part.read_bytes().splitlines(keepends=True)[first:last])
        if process.wait() != 0:
            raise RuntimeError(f"status {process.returncode} of archive")


def archives(program, folder, records, jobs=4):
    """Makes the 64 archives of so many records each in a folder, and gives their names."""
    half = records // 2
    days = [(site, day) for day in range(DAYS) for site in range(SITES)]
    sent = {at: folder / "sent.{}.{}".format(*at) for at in days}
    names = {at: folder / "site{}.day{}.archive".format(*at) for at in days}
    parts = {names[site, day]: [(sent[site, day], 0, half), (sent[(site + 1) % SITES, day], 0, half)]
             for site, day in days}
    ends = [2 * half * n // len(days) for n in range(len(days) + 1)]
    late = folder / "late.archive"
    parts[late] = [(sent[at], 0, end - begin) for at, begin, end in zip(days, ends, ends[1:])]
    with ProcessPoolExecutor(jobs) as pool:
        list(pool.map(lines_of, sent.values(), *zip(*days), [half] * len(days)))
        list(pool.map(archive_of, [program] * len(parts), parts.keys(), parts.values()))
    for path in sent.values():
        path.unlink()
    return [*names.values(), late]

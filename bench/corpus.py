"""Seeded corpora of syslog records (RFC 5424), as counted streams and as lines (RFC 6587).

`plain` has records of about 170 octets without elements, `elements` records of about 250 octets with one to
three elements in any order, some of whose values need escapes. Priorities, offsets, fractions, words and
messages vary as they do in logs; the same number of records gives the same octets each time. No record holds
LF, so that both streams have the same records.

`hard` has a tenth as many records, of about 750 octets: values full of escapes and of octets beyond ASCII, ids, names
and words up to their greatest lengths, messages of up to 4,000 octets. `evil` has one record of nearly 65,535 octets for
5,000 of the others, in turns: thousands of ids in any order, thousands of parameters, values of escapes alone, values of
characters and escapes in turn, one long text. All are records, and so are their canonical forms.
"""
from random import Random

WORDS = ("accepted connection from for user session opened closed by failed to read the file with status "
         "timeout after retry request served in ms cache miss hit queue depth worker started stopped signal "
         "received disk usage at percent link up down on interface lease renewed expired address assigned "
         "certificate valid until checksum mismatch block device mounted unmounted scheduling job finished "
         "password publickey port preauth kernel memory process killed out of socket listening backend "
         "upstream returned reset peer error warning notice debug trace id value (uid=0) pid=1 GET POST 200 404 "
         "It's 10.0.0.1 /var/log/messages %% -- [ok] \"quoted\" a=b").split()
OFFSETS = ["Z"] * 12 + ["+00:00", "-00:00", "+01:00", "+02:00", "-07:00", "-05:00", "+05:30", "+09:00", "-03:30", "+12:45"]
TEXTS = ["größe überschritten", "ошибка чтения файла", "接続を受け付けました", "naïve café – terminé", "δίσκος γεμάτος"]
IDS = ["exampleSDID@32473", "examplePriority@32473", "origin", "meta", "timeQuality", "audit@32473", "request@47196",
       "trace@47196", "k8s@55555", "unit@32473"]
NAMES = ["iut", "eventSource", "eventID", "class", "ip", "software", "swVersion", "sequenceId", "sysUpTime", "language",
         "tzKnown", "isSynced", "path", "method", "span", "pod", "namespace", "unit"]
ESCAPED = ['C:\\\\temp\\\\x', 'say \\"hello\\"', 'list[0\\]', 'a\\\\b\\]c', 'regular \\n stays']


def words(random, count):
    return " ".join(random.choice(WORDS) for _ in range(count))


class Source:
    """Pools to draw from, and the draws."""

    def __init__(self, seed):
        self.random = random = Random(seed)
        self.text = words(random, 40_000)
        self.hosts = ([f"host{n:03d}.example.com" for n in range(120)] + [f"192.0.2.{n}" for n in range(40)]
                      + [f"2001:db8::{n:x}" for n in range(20)] + [f"web-{n}" for n in range(40)] + ["-"] * 4)
        self.apps = ["sshd", "kernel", "systemd", "nginx", "postfix/smtpd", "cron", "dhcpd", "evntslog", "postgres",
                     "kubelet", "su", "app-gateway", "-"]
        self.procs = [str(random.randrange(1, 65_536)) for _ in range(400)] + ["-"] * 60
        self.ids = [f"ID{n}" for n in range(40)] + ["TCPIN", "TCPOUT", "audit"] + ["-"] * 60
        self.values = ([str(random.randrange(100_000)) for _ in range(150)] + [words(random, 2) .replace('"', "").replace("]", "")
                       for _ in range(120)] + ["Application", "high", "10.1.2.3", "/index.html", "true"] * 6)
        self.micros = 1_061_727_255_000_003

    def pick(self, pool):
        return pool[int(self.random.random() * len(pool))]

    def time(self, n):
        random = self.random
        at = int(random.random() * 86_400_000_000)
        second, micros = divmod(at, 1_000_000)
        fraction = f"{micros // 1_000:03d}" if n % 3 == 0 else f"{micros:06d}"
        return (f"20{n % 25:02d}-{n % 12 + 1:02d}-{int(random.random() * 28) + 1:02d}T{second // 3_600:02d}:"
                f"{second // 60 % 60:02d}:{second % 60:02d}.{fraction}{self.pick(OFFSETS)}")

    def header(self, n):
        return (f"<{int(self.random.random() * 192)}>1 {self.time(n)} {self.pick(self.hosts)} {self.pick(self.apps)} "
                f"{self.pick(self.procs)} {self.pick(self.ids)}")

    def message(self, least, most):
        # the mean of two draws, so that most messages are of middling length
        length = least + int((self.random.random() + self.random.random()) / 2 * (most - least))
        at = int(self.random.random() * (len(self.text) - most))
        return self.text[at:at + length]

    def value(self):
        return self.pick(ESCAPED) if self.random.random() < 0.04 else self.pick(self.values)

    def element(self, name):
        count = int(self.random.random() * 4)
        params = "".join(f' {self.pick(NAMES)}="{self.value()}"' for _ in range(count))
        return f"[{name}{params}]"

    def elements(self):
        ids = self.random.sample(IDS, 1 + int(self.random.random() * 3))
        return "".join(self.element(name) for name in ids)

    def plain(self, n):
        return f"{self.header(n)} - {self.message(20, 176)}".encode()

    def structured(self, n):
        front = f"{self.header(n)} {self.elements()} "
        if n % 20 == 0:
            return front.encode() + b"\xef\xbb\xbf" + f"{self.pick(TEXTS)} {self.message(20, 120)}".encode()
        return (front + self.message(20, 160)).encode()


    def short_of(self, most):
        """Lengths up to the greatest, short ones more often."""
        return 1 + int(self.random.random() ** 2 * most)

    def hard_name(self, most):
        return "".join(self.random.choices(NAMED, k=self.short_of(most)))

    def hard_value(self):
        return "".join(self.random.choices(PIECES, k=int(self.random.random() * 60)))

    def hard_element(self, n):
        params = "".join(f' {self.hard_name(32)}="{self.hard_value()}"' for _ in range(int(self.random.random() * 5)))
        return f"[{self.hard_name(30)}{n}{params}]"

    def hard(self, n):
        words = " ".join(self.hard_name(most) + "." for most in (254, 47, 127, 31))
        elements = "".join(self.hard_element(place) for place in range(1 + n % 4))
        mark = "\ufeff" if n % 2 else ""
        message = "".join(self.random.choices(TEXT_PIECES, k=1_000 if n % 50 == 0 else n % 61))
        return f"<{n % 192}>1 {self.time(n)} {words} {elements} {mark}{message}".encode()

    def evil(self, n):
        front = f"{self.header(n)} "
        room = 65_500 - len(front)
        kind = n % 5
        if kind == 0:
            ids = [first + second + third for first in LETTERS for second in LETTERS for third in LETTERS[:5]]
            self.random.shuffle(ids)
            return (front + "".join(f"[{name}]" for name in ids[:room // 5])).encode()
        if kind == 1:
            return (front + "[x" + ' k=""' * (room // 5) + "]").encode()
        if kind == 2:
            # a backslash before n is doubled by the canonical form, which has to fit a frame too
            return (front + '[x k="' + "\\n" * (room // 3) + '"]').encode()
        if kind == 3:
            return (front + '[x k="' + "é\\]a\\\"" * (room // 7 - 2) + '"]').encode()
        return (front + "- \ufeff" + "接aé" * (room // 6 - 1)).encode()


LETTERS = "abcdefghijklmnopqrstuvwxyzABCDEFGHIJKLMNOPQRSTUVWXYZ0123456789"
NAMED = LETTERS + "!#$%&'()*+,-./:;<>?@[\\^_`{|}~"
PIECES = ['\\"', "\\\\", "\\]", "\\n", "é", "接", "\U0001F600", "a", " ", "="]
TEXT_PIECES = ["接", "é", "\U0001F600", "word ", "x"]


def make(folder, name, count, record):
    """Writes both streams of one corpus; a run that is broken off leaves no half stream behind."""
    counted, lines = folder / f"{name}.counted", folder / f"{name}.lf"
    if counted.exists() and lines.exists():
        return
    with open(f"{counted}.part", "wb") as one, open(f"{lines}.part", "wb") as two:
        for begin in range(0, count, 10_000):
            records = [record(n) for n in range(begin, min(begin + 10_000, count))]
            one.write(b"".join(b"%d %b" % (len(octets), octets) for octets in records))
            two.write(b"".join(octets + b"\n" for octets in records))
    for path in (counted, lines):
        path.with_name(path.name + ".part").rename(path)


def corpora(folder, count):
    """Makes what is not there yet, and gives the names and how many records each has."""
    folder.mkdir(parents=True, exist_ok=True)
    counts = {"plain": count, "elements": count, "hard": max(1, count // 10), "evil": max(5, count // 5_000)}
    for (name, many), seed, record in zip(counts.items(), (5424, 6587, 5426, 3164),
                                          (Source.plain, Source.structured, Source.hard, Source.evil)):
        source = Source(seed)
        make(folder, name, many, lambda n: record(source, n))
    return counts

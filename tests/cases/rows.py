"""Tables of what the program is given and what it must write."""
from lib import reference
from lib.loopback import HERE
from lib.reference import MARK

HELLO = b"<165>1 - - - - - - hello"
EXAMPLE = (b"<165>1 2003-08-24T05:14:15.000003-07:00 192.0.2.1 myproc 8710 - - "
           b"%% It's time to make the do-nuts.")
ELEMENTS = (b'<34>1 2003-10-11T22:14:15.003Z mymachine.example.com su - ID47 [exampleSDID@32473 iut="3" eventSource='
            b'"a\\]b\\\\c\\"d"][class@32473 high="1"] ' + MARK + "größe".encode())
NIL = b"<0>1 - - - - - "  # all up to the structured data
LARGEST = NIL + b'[a k="' + b"\\n" * 131_060 + b'"]'  # 262,143 octets, canonical 393,203
B = b"<14>1 2024-02-29T23:30:00.000000Z h a - - -"

# a record, and its canonical form
RECORDS = [
    ("nil fields", HELLO, HELLO),
    ("the example of RFC 5424", EXAMPLE,
     b"<165>1 2003-08-24T12:14:15.000003Z 192.0.2.1 myproc 8710 - - %% It's time to make the do-nuts."),
    ("an instant ahead of UTC", b"<14>1 2024-03-01T00:30:00+01:00 h a - - -", B),
    ("the same instant in UTC", b"<14>1 2024-02-29T23:30:00.0Z h a - - -", B),
    ("minus no offset", b"<14>1 2024-02-29T23:30:00-00:00 h a - - -", B),
    ("the first instant", b"<0>1 0000-01-01T00:00:00Z - - - - -", b"<0>1 0000-01-01T00:00:00.000000Z - - - - -"),
    ("the last instant", b"<0>1 9999-12-31T23:59:59.999999Z - - - - -", b"<0>1 9999-12-31T23:59:59.999999Z - - - - -"),
    ("a leap day of the year 0", b"<0>1 0000-02-29T01:00:00.1+01:00 - - - - -", b"<0>1 0000-02-29T00:00:00.100000Z - - - - -"),
    ("a regular backslash", NIL + b'[a k="x\\n"]', NIL + b'[a k="x\\\\n"]'),
    ("an escaped backslash", NIL + b'[a k="x\\\\n"]', NIL + b'[a k="x\\\\n"]'),
    ("each escape", NIL + b'[a k="\\"\\]\\\\" l=""]', NIL + b'[a k="\\"\\]\\\\" l=""]'),
    ("escapes before a message", NIL + b'[a k="\\"\\]"] m', NIL + b'[a k="\\"\\]"] m'),
    ("a parameter twice", NIL + b'[a k="1" k="2"]', NIL + b'[a k="1" k="2"]'),
    ("parameters in their order", NIL + b'[a l="1" k="2"]', NIL + b'[a l="1" k="2"]'),
    ("elements by id", NIL + b"[b][a]", NIL + b"[a][b]"),
    ("elements by id, not by length", NIL + b"[b][ab][B][a] x", NIL + b"[B][a][ab][b] x"),
    ("elements by id, a backslash and a text", NIL + b'[b k="\\n"][a] ' + MARK + b"m", NIL + b'[a][b k="\\\\n"] ' + MARK + b"m"),
    ("no message", NIL + b"-", NIL + b"-"),
    ("an empty message", NIL + b"- ", NIL + b"-"),
    ("the mark alone", NIL + b"- " + MARK, NIL + b"- " + MARK),
    ("a part of the mark", NIL + b"- " + MARK[:2], NIL + b"- " + MARK[:2]),
    ("a text", NIL + b"- " + MARK + "größe".encode(), NIL + b"- " + MARK + "größe".encode()),
    ("any octets", b"<191>1 - - - - - - \x00\xff\n\r ", b"<191>1 - - - - - - \x00\xff\n\r "),
    ("a line feed at the end", HELLO + b"\n", HELLO + b"\n"),
    ("a line feed in the message", NIL + b"- a\nb", NIL + b"- a\nb"),
    ("a host of 255 octets", b"<0>1 - " + b"a" * 255 + b" - - - -", b"<0>1 - " + b"a" * 255 + b" - - - -"),
    ("words of the greatest lengths", b"<0>1 - " + b"h" * 255 + b" " + b"a" * 48 + b" " + b"p" * 128 + b" " + b"m" * 32 + b" -",
     b"<0>1 - " + b"h" * 255 + b" " + b"a" * 48 + b" " + b"p" * 128 + b" " + b"m" * 32 + b" -"),
    ("the longest record", HELLO + b"x" * (262_144 - 24), HELLO + b"x" * (262_144 - 24)),
    ("the longest canonical form", LARGEST, NIL + b'[a k="' + b"\\\\n" * 131_060 + b'"]'),
]

# octets that are no record, and what follows the number on the line
REFUSED = [
    ("no octets", b"", b"syntax priority 0"),
    ("no priority", b"<>", b"syntax priority 1"),
    ("a priority above 191", b"<192>1 -", b"syntax priority 3"),
    ("a leading zero", b"<007>1 -", b"syntax priority 2"),
    ("a version of two digits", b"<0>10 -", b"syntax version 4"),
    ("another version", b"<0>2", b"syntax version 3"),
    ("no timestamp", b"<13>1 x", b"syntax timestamp 6"),
    ("29 February 2003", b"<0>1 2003-02-29T00:00:00Z - - - - -", b"syntax timestamp 14"),
    ("second 60", b"<0>1 2003-02-28T00:00:60Z - - - - -", b"syntax timestamp 22"),
    ("month 13", b"<0>1 2024-13", b"syntax timestamp 11"),
    ("30 February", b"<0>1 2023-02-3", b"syntax timestamp 13"),
    ("31 April", b"<0>1 2023-04-31", b"syntax timestamp 14"),
    ("a fraction of no digits", b"<0>1 2003-02-28T00:00:00.Z", b"syntax timestamp 25"),
    ("a fraction of seven digits", b"<0>1 2003-02-28T00:00:00.1234567Z", b"syntax timestamp 31"),
    ("hour 24 of an offset", b"<0>1 2003-02-28T00:00:00+24:00", b"syntax timestamp 26"),
    ("an instant after the last", b"<0>1 9999-12-31T23:59:59-00:01 - - - - -", b"instant-range 5"),
    ("an instant before the first", b"<0>1 0000-01-01T00:00:59+00:01 - - - - -", b"instant-range 5"),
    ("a fault comes before the instant's range", b"<0>1 9999-12-31T23:59:59-00:01 - - - - x", b"syntax structured-data 39"),
    ("two spaces", b"<0>1 -  -", b"syntax hostname 7"),
    ("an end inside the host", b"<0>1 - ab", b"syntax hostname 9"),
    ("a host of 256 octets", b"<0>1 - " + b"a" * 256 + b" - - - -", b"syntax hostname 262"),
    ("a control octet", b"<0>1 - - \x7f", b"syntax app-name 9"),
    ("a space for a process id", b"<0>1 - - -  ", b"syntax procid 11"),
    ("an end after the message id", b"<0>1 - - - - -", b"syntax msgid 14"),
    ("no structured data", NIL, b"syntax structured-data 15"),
    ("octets after the structured data", NIL + b"-x", b"syntax structured-data 16"),
    ("an element without an id", NIL + b"[]", b"syntax structured-data 16"),
    ("a parameter without a name", NIL + b"[a ]", b"syntax structured-data 18"),
    ("an id of 33 octets", NIL + b"[" + b"a" * 33, b"syntax structured-data 48"),
    ("a bracket without a backslash", NIL + b'[a k="]"]', b"syntax structured-data 21"),
    ("octets that are no UTF-8", NIL + b'[a k="\xe0\x80"]', b"syntax structured-data 22"),
    ("an escaped quotation mark last", NIL + b'[a k="x\\"]', b"syntax structured-data 24"),
    ("a backslash before FF", NIL + b'[a k="\\\xff', b"syntax structured-data 22"),
    ("a repeated id", NIL + b"[a][b][a]", b"repeated-id 22"),
    ("an instant after the last comes before a repeated id", b"<0>1 9999-12-31T23:59:59-00:01 - - - - [a][a]", b"instant-range 5"),
    ("a fault comes before a repeated id", NIL + b"[a][a]x", b"syntax structured-data 21"),
    ("a text that is no UTF-8", NIL + b"- " + MARK + b"\xff", b"syntax message 20"),
    ("the mark before a record", MARK + b"A\xff", b"syntax priority 0"),
    ("a text that ends inside a character", NIL + b"- " + MARK + b"\xe2\x82", b"syntax message 22"),
    ("one octet too many", HELLO + b"x" * (262_145 - 24), b"too-long"),
    ("a long input", HELLO + b"x" * 1_000_000, b"too-long"),
]

LINES = b"\nx\n" + b"a" * 262_145 + b"\n<0>1 - - - - - -"
REPORTED = b"1 syntax priority 0\n2 syntax priority 0\n3 too-long\n"

# what options take, as a line on another value says
SEVERITIES = "emerg, alert, crit, err, warning, notice, info or debug"
ADDRESS = "an address and a port, such as 127.0.0.1:514 or [::1]:514"
TAKES = {
    "--framing": "datagram, counted or lf", "--to": "counted or lf", "--memory": "a number from 1 to 1048576",
    "--legacy": "a year from 1 to 9998", "--zone": "E or W, then hours and minutes in two digits each, such as E0130",
    "--dialect": "bsd or wide", "--severity": SEVERITIES,
    "--facility": "kern, user, mail, daemon, auth, syslog, lpr, news, uucp, cron, authpriv, ftp, ntp, audit, alert, clock or "
                  "local0 to local7",
    "--by": "month, day or hour", "--udp": ADDRESS, "--counted": ADDRESS, "--lf": ADDRESS, "--inherited": "udp, counted or lf",
    "--connections": "a number from 1 to 16384", "--per-peer": "a number from 1 to 16384", "--rate": "a number from 1 to 1000000",
    "--idle": "a number from 1 to 31536000", "--commit": "a number from 0 to 3600000",
    "--checkpoint": "a number from 1 to 2048", "--unix": "the name of a file",
    "--allow": "an address or a network, such as 192.0.2.1, 192.0.2.0/24 or 2001:db8::/32",
    **{option: f"1 to {most} printable ASCII characters without spaces, or - for none"
       for option, most in [("--host", 255), ("--app", 48), ("--proc", 128), ("--msgid", 32), ("--not-host", 255), ("--not-app", 48)]},
    "--id": '1 to 32 printable ASCII characters without spaces, =, ] and "',
    **dict.fromkeys(["--message", "--not-message"], "a text that is not empty"),
    **dict.fromkeys(["--host-like", "--app-like"], "1 to 1024 octets, of which * stands for any number of others and ? for one"),
}
# values that options of serve do not take
REFUSED_OF_SERVE = {
    "--udp": [HERE, "localhost:514", "127.1:514", ":514", "127.0.0.1:-1"],
    "--counted": [f"{HERE}:65536", f"{HERE}:", "::1:514"], "--lf": ["[::1]", "", "[::1:514"],
    "--inherited": ["unix", "", "UDP"], "--unix": [""],
    "--connections": ["0", "16385", "", "x", "+1", "1.5", "18446744073709551617"], "--idle": ["0", "31536001", "never"],
    "--commit": ["3600001", "1s"], "--checkpoint": ["0", "2049", "64M"],
    "--per-peer": ["0", "16385"], "--rate": ["0", "1000001", "", "10/s"], "--legacy": ["0", "9999"],
    "--allow": ["", "localhost", "192.0.2", "192.0.2.0/", "192.0.2.0/33", "192.0.2.0/+24", "::/129", "192.0.2.0/24,::/0"],
    "--zone": ["E2400", "0000"], "--dialect": ["rfc3164", ""],
}

TIME = "a time in the years 0 to 9999 of UTC, such as 2026-11-25T10:00:00Z, 2026-11-25T10:00 or 2026-11-25"


def invalid(option, value, takes=None):
    """The line on a value that its option does not take."""
    return f"error: invalid value '{value}' for {option}: expected {takes or TAKES[option]}\n".encode()


# words, standard input, status, standard output, standard error (None: any text, but some)
WORDS = [
    ("counted frames", ["check", "--framing", "counted"], b"16 <0>1 - - - - - -17 <0>1 - - - - - - ", 0, b"1 ok\n2 ok\n", b""),
    ("a bad count", ["check", "--framing", "counted"], b"016 ", 1, b"1 bad-count 0\n", b""),
    ("a count of zero", ["check", "--framing", "counted"], b"0 ", 1, b"1 bad-count 0\n", b""),
    ("a count without its space", ["check", "--framing", "counted"], b"16<", 1, b"1 bad-count 2\n", b""),
    ("a count of eleven digits", ["check", "--framing", "counted"], b"12345678901 ", 1, b"1 bad-count 10\n", b""),
    ("a bad count after a frame", ["check", "--framing=counted"], b"16 <0>1 - - - - - -x", 1, b"1 ok\n2 bad-count 19\n", b""),
    ("a bad count after a frame", ["check", "--framing", "counted"], b"16 <0>1 - - - - - -x", 1, b"1 ok\n2 bad-count 19\n", b""),
    ("an unfinished frame", ["check", "--framing", "counted"], b"16 <0>", 1, b"unterminated 0\n", b""),
    ("an unfinished count", ["check", "--framing", "counted"], b"16 <0>1 - - - - - -16", 1, b"1 ok\nunterminated 19\n", b""),
    ("lines", ["check", "--framing", "lf"], LINES + b"\n", 1, REPORTED + b"4 ok\n", b""),
    ("an unfinished line", ["check", "--framing", "lf"], LINES, 1, REPORTED + b"unterminated 262149\n", b""),
    ("a long line", ["check", "--framing", "lf"], LINES.replace(b"a" * 262_145, b"a" * 65_536) + b"\n", 1,
     REPORTED.replace(b"too-long", b"syntax priority 0") + b"4 ok\n", b""),
    ("no lines", ["check", "--framing", "lf"], b"", 0, b"", b""),
    ("an empty line and one that is none", ["check", "--framing", "lf"], b"\nx\n<0>1 - - - - - -\n", 1,
     b"1 syntax priority 0\n2 syntax priority 0\n3 ok\n", b""),
    ("no counted frames", ["check", "--framing", "counted"], b"", 0, b"", b""),
    ("the framing of datagrams", ["check", "--framing", "datagram"], b"", 1, b"1 syntax priority 0\n", b""),
    ("an unknown framing", ["check", "--framing", "tcp"], HELLO, 2, b"", invalid("--framing", "tcp")),
    ("an empty framing", ["check", "--framing="], HELLO, 2, b"", invalid("--framing", "")),
    ("an empty framing as a word", ["show", "--framing", ""], HELLO, 2, b"", invalid("--framing", "")),
    ("a framing in capitals", ["convert", "--framing", "LF"], HELLO, 2, b"", invalid("--framing", "LF")),
    ("an option given twice", ["check", "--framing", "lf", "--framing", "lf"], HELLO, 2, b"", None),
    ("an option without its value", ["check", "--framing"], HELLO, 2, b"", None),
    ("an option of show without its value", ["show", "--framing"], HELLO, 2, b"", None),
    ("check writes in no framing", ["check", "--to", "lf"], HELLO, 2, b"", None),
    ("no words", [], HELLO, 2, b"", None),
    ("an unknown word", ["konvert"], HELLO, 2, b"", None),
    ("a word too many", ["convert", "x"], HELLO, 2, b"", None),
    ("an unknown option", ["convert", "--x"], HELLO, 2, b"", None),
    ("an empty word", [""], HELLO, 2, b"", None),
    ("help", ["--help"], HELLO, 2, b"", None),
    ("help in short", ["-h"], HELLO, 2, b"", None),
    ("help as a word", ["help"], HELLO, 2, b"", None),
    ("help of a command", ["help", "convert"], HELLO, 2, b"", None),
    ("the version", ["--version"], HELLO, 2, b"", None),
    ("a word that is no UTF-8", [b"\xff"], HELLO, 2, b"", None),
    ("a record is sent", ["send", "--micros", "1", "--host", "h", "--app", "a", "hi"], b"", 0, b"<13>1 1970-01-01T00:00:00.000001Z h a - - - hi\n", b""),
    ("an empty text is sent", ["send", ""], b"", 0, b"<13>1 - - - - - -\n", b""),
    ("the kernel's facility", ["send", "--facility", "kern", "x"], b"", 0, b"<13>1 - - - - - - x\n", b""),
    ("a text beyond ASCII", ["send", b"\xc3\xa9"], b"", 0, b"<13>1 - - - - - - \xef\xbb\xbf\xc3\xa9\n", b""),
    ("a text of two lines", ["send", "a\nb"], b"", 1, b"", b"has-lf\n"),
    ("a text of two lines, held back", ["send", "--up-to", "err", "a\nb"], b"", 0, b"", b""),
    ("a counted frame is sent", ["send", "--facility", "local4", "--severity", "notice", "--framing", "counted", "hello"], b"", 0, b"24 <165>1 - - - - - - hello", b""),
    ("a severity above the mask", ["send", "--facility", "local4", "--severity", "notice", "--up-to", "warning", "hello"], b"", 0, b"", b""),
    ("a severity above the mask, of the user", ["send", "--severity", "notice", "--up-to", "warning", "hello"], b"", 0, b"", b""),
    ("a text like an option", ["send", "--", "-x"], b"", 0, b"<13>1 - - - - - - -x\n", b""),
    ("a hyphen as a text", ["send", "-"], b"", 0, b"<13>1 - - - - - - -\n", b""),
    ("help as a text", ["send", "help"], b"", 0, b"<13>1 - - - - - - help\n", b""),
    ("forty leading zeros", ["send", "--micros", "0" * 40 + "1", "x"], b"", 0, b"<13>1 1970-01-01T00:00:00.000001Z - - - - - x\n", b""),
    ("a plus before digits", ["send", "--micros", "+5", "x"], b"", 2, b"", None),
    ("a host that is nil", ["send", "--host", "-", "x"], b"", 2, b"", None),
    ("a host like an option", ["send", "--host", "-x", "x"], b"", 2, b"", None),
    ("a host that begins with a hyphen", ["send", "--host=-x", "x"], b"", 0, b"<13>1 - -x - - - - x\n", b""),
    ("an empty host", ["send", "--host=", "x"], b"", 2, b"", None),
    ("an unknown severity to send up to", ["send", "--up-to", "error", "x"], b"", 2, b"",
     b"error: invalid value for --up-to: expected " + SEVERITIES.encode() + b"\n"),
    ("an unknown facility", ["send", "--facility", "Kern", "x"], b"", 2, b"",
     b"error: invalid value for --facility: expected " + TAKES["--facility"].encode() + b"\n"),
    ("nothing to send", ["send"], b"", 2, b"", None),
    ("no room in memory", ["archive", "--spill", ".", "--memory", "0"], HELLO, 2, b"", invalid("--memory", 0)),
    ("too much room in memory", ["archive", "--memory", "1048577"], HELLO, 2, b"", invalid("--memory", 1048577)),
    ("no room in memory without a folder", ["archive", "--memory", "0"], HELLO, 2, b"", invalid("--memory", 0)),
    ("room in memory without a folder", ["archive", "--memory", "1"], HELLO, 0, b"24 " + HELLO, b""),
    ("a folder given twice", ["archive", "--spill", ".", "--spill", "."], HELLO, 2, b"", None),
    ("a store is not named", ["read"], HELLO, 2, b"", None),
    *[("a word is missing", words, HELLO, 2, b"", None) for words in (["verify"], ["add"], ["expire", "d"], ["seal", "d"], ["reconcile"],
                                                                     ["answer"], ["backup", "d"], ["serve", "d"])],
    ("a store to no time", ["read", "d", "--to", "-"], HELLO, 2, b"", invalid("--to", "-", TIME)),
    ("a store from no time", ["read", ".", "--from", "-"], HELLO, 2, b"", invalid("--from", "-", TIME)),
    ("undated records of a store alone", ["read", ".", "--only-undated"], HELLO, 2, b"", None),
    ("two stores", ["verify", ".", "."], HELLO, 2, b"", None),
    ("no store that is compacted", ["compact"], HELLO, 2, b"", None),
    ("a range of a store that is compacted", ["compact", ".", "--undated"], HELLO, 2, b"", None),
    ("a range of a store that is verified", ["verify", ".", "--undated"], HELLO, 2, b"", None),
    ("no store whose files are told", ["stat"], HELLO, 2, b"", None),
    ("two stores whose files are told", ["stat", ".", "."], HELLO, 2, b"", None),
    ("a range of a store whose files are told", ["stat", ".", "--undated"], HELLO, 2, b"", None),
    ("a server without a listener", ["serve", "."], HELLO, 2, b"",
     b"error: serve needs a listener: --udp, --counted, --lf, --unix or --inherited\n"),
    ("a server without a store", ["serve", "--udp", "127.0.0.1:0"], HELLO, 2, b"", None),
    ("a listener without a port", ["serve", ".", "--udp", "127.0.0.1"], HELLO, 2, b"", invalid("--udp", "127.0.0.1")),
    ("an IPv6 listener without brackets", ["serve", ".", "--lf", "::1:514"], HELLO, 2, b"", invalid("--lf", "::1:514")),
    ("a listener that is a name", ["serve", ".", "--counted", "localhost:514"], HELLO, 2, b"", invalid("--counted", "localhost:514")),
    ("an inherited listener of no kind", ["serve", ".", "--inherited", "unix"], HELLO, 2, b"", invalid("--inherited", "unix")),
    ("no connection at all", ["serve", ".", "--unix", "s", "--connections", "0"], HELLO, 2, b"", invalid("--connections", 0)),
    ("too many connections", ["serve", ".", "--unix", "s", "--connections", "16385"], HELLO, 2, b"", invalid("--connections", 16385)),
    ("more connections of an address than in all", ["serve", ".", "--unix", "s", "--per-peer", "20", "--connections", "10"], HELLO, 2, b"",
     b"error: the value of --per-peer is greater than that of --connections\n"),
    ("a network with host bits", ["serve", ".", "--unix", "s", "--allow", "::/0", "--allow", "192.0.2.1/24"], HELLO, 2, b"",
     b"error: invalid value '192.0.2.1/24' for --allow: bits behind the prefix are set; the network is 192.0.2.0/24\n"),
    ("idle for no second", ["serve", ".", "--unix", "s", "--idle", "0"], HELLO, 2, b"", invalid("--idle", 0)),
    ("a commit after more than an hour", ["serve", ".", "--unix", "s", "--commit", "3600001"], HELLO, 2, b"", invalid("--commit", 3600001)),
    ("the first of two values that are refused", ["serve", ".", "--idle", "0", "--udp", "514"], HELLO, 2, b"", invalid("--udp", 514)),
    ("a checkpoint of nothing", ["serve", ".", "--unix", "s", "--checkpoint", "0"], HELLO, 2, b"", invalid("--checkpoint", 0)),
]

COUNTED, LF = ["--framing", "counted"], ["--framing", "lf"]
TWICE = b"<0>1 - - - - - -\n<0>1 - - - - - -\n"
SHOWN = (b"record 1\npriority 165 local4 notice\ntime -\nhost -\napp -\nproc -\nmsgid -\nelement a\n"
         b'param k "x\\x5cn"\nmessage any "hi"\n')

# `convert` and `show` of streams
STREAMS = [
    ("counted frames to lines", ["convert", *COUNTED, "--to", "lf"], b"16 <0>1 - - - - - -17 <0>1 - - - - - - ", 0, TWICE, b""),
    ("counted frames stay counted", ["convert", *COUNTED], b"17 <0>1 - - - - - - ", 0, b"16 <0>1 - - - - - -", b""),
    ("a counted frame that is no record", ["convert", *COUNTED], b"17 <0>1 - - - - - - 2 ab16 <1>1 - - - - - -", 1,
     b"16 <0>1 - - - - - -16 <1>1 - - - - - -", b"2 syntax priority 0\n"),
    ("lines to counted frames", ["convert", *LF, "--to", "counted"], b"<0>1 - - - - - - \n", 0, b"16 <0>1 - - - - - -", b""),
    ("lines stay lines", ["convert", *LF], b"<0>1 - - - - - - \n<0>1 - - - - - -\n", 0, TWICE, b""),
    ("lines, an empty one and one without its end", ["convert", *LF], b"<0>1 - - - - - - \n\n<1>1 - - - - - - \r\n<2>1 - - - - - -", 1,
     b"<0>1 - - - - - -\n<1>1 - - - - - - \r\n", b"2 syntax priority 0\nunterminated 38\n"),
    ("unordered elements of a line", ["convert", *LF, "--to", "counted"], b"<0>1 - - - - - [b][a]\n", 0, b"21 <0>1 - - - - - [a][b]", b""),
    ("a datagram to a line", ["convert", "--to", "lf"], HELLO, 0, HELLO + b"\n", b""),
    ("a datagram to a counted frame", ["convert", "--to", "counted"], HELLO, 0, b"24 " + HELLO, b""),
    ("a canonical form with a line feed", ["convert", "--to", "lf"], NIL + b"- a\nb", 1, b"", b"1 has-lf\n"),
    ("a line feed in a counted frame", ["convert", "--to", "counted"], NIL + b"- a\nb", 0, b"20 " + NIL + b"- a\nb", b""),
    ("another record behind one with a line feed", ["convert", *COUNTED, "--to", "lf"],
     b"20 <0>1 - - - - - - a\nb16 <1>1 - - - - - -", 1, b"<1>1 - - - - - -\n", b"1 has-lf\n"),
    ("a counted frame with a line feed to a line", ["convert", *COUNTED, "--to", "lf"], b"20 " + NIL + b"- a\nb16 " + NIL + b"-",
     1, NIL + b"-\n", b"1 has-lf\n"),
    ("a canonical form too long to be counted", ["convert", "--to", "counted"], LARGEST, 1, b"", b"1 canonical-too-long\n"),
    ("a canonical form too long for a line", ["convert", "--to", "lf"], LARGEST, 1, b"", b"1 canonical-too-long\n"),
    ("a line feed comes before the length", ["convert", "--to", "lf"], LARGEST[:-3] + b'\n"]', 1, b"", b"1 has-lf\n"),
    ("a stream whose canonical form is too long", ["convert", *LF], LARGEST + b"\n" + HELLO + b"\n", 1, HELLO + b"\n",
     b"1 canonical-too-long\n"),
    ("what is refused is reported and passed over", ["convert", *LF], LINES + b"\n", 1, NIL + b"-\n", REPORTED),
    ("an unfinished line is not converted", ["convert", *LF], LINES, 1, b"", REPORTED + b"unterminated 262149\n"),
    ("nothing is read after a bad count", ["convert", *COUNTED], b"16 <0>1 - - - - - -x16 <0>1 - - - - - -", 1,
     b"16 <0>1 - - - - - -", b"2 bad-count 19\n"),
    ("no lines to convert", ["convert", *LF], b"", 0, b"", b""),
    ("a count that begins with a zero", ["convert", *COUNTED], b"16 <0>1 - - - - - -016 <0>1 - - - - - -", 1, b"16 <0>1 - - - - - -",
     b"2 bad-count 19\n"),
    ("unordered elements", ["convert"], NIL + b"[b][a]", 0, NIL + b"[a][b]", b""),
    ("an unknown framing to convert to", ["convert", "--to", "tcp"], HELLO, 2, b"", invalid("--to", "tcp")),
    ("a framing to convert to twice", ["convert", "--to", "lf", "--to", "lf"], HELLO, 2, b"", None),
    ("no datagram to convert to", ["convert", "--to", "datagram"], HELLO, 2, b"", invalid("--to", "datagram")),
    ("fields are shown", ["show"], b'<165>1 - - - - - [a k="x\\n"] hi', 0, SHOWN, b""),
    ("fields with octets that are not ASCII", ["show"],
     b'<34>1 2003-10-11T22:14:15.003Z h su 7 ID [b][a c="\\"" c="~ "] ' + MARK + b"\xc3\xa9\n", 0,
     b"record 1\npriority 34 auth crit\ntime 2003-10-11T22:14:15.003000Z\nhost h\napp su\nproc 7\nmsgid ID\nelement a\n"
     b'param c "\\x22"\nparam c "~ "\nelement b\nmessage utf8 "\\xc3\\xa9\\x0a"\n', b""),
    ("a record behind a line that is none", ["show", *LF], b"x\n<0>1 - - - - - -\n", 1,
     b"record 2\npriority 0 kern emerg\ntime -\nhost -\napp -\nproc -\nmsgid -\nmessage any \"\"\n", b"1 syntax priority 0\n"),
    ("lines are shown", ["show", *LF], HELLO + b"\nx\n" + HELLO + b"\n", 1,
     b"".join(b"record %d\npriority 165 local4 notice\ntime -\nhost -\napp -\nproc -\nmsgid -\n"
              b'message any "hello"\n' % n for n in (1, 3)), b"2 syntax priority 0\n"),
    ("show writes in no framing", ["show", "--to", "lf"], HELLO, 2, b"", None),
]

A = b"<13>1 - h a - - - x"
Y = b"<14>1 2024-02-29T23:30:00.000000Z h a - - - y"
Z = b"<12>1 2024-02-29T23:00:00.000000Z h a - - - z"


def entries(*records):
    """Records as the entries of a text."""
    return reference.counted(records)


# words, standard input, status, standard output, standard error
ARCHIVED = [
    ("one instant in two zones", ["archive", *LF],
     b"<14>1 2024-03-01T00:30:00+01:00 h a - - -\n<14>1 2024-02-29T23:30:00.0Z h a - - -\n", 0, entries(B), b""),
    ("no message, and the mark", ["archive", *COUNTED], entries(NIL + b"- " + MARK, NIL + b"- ", NIL + b"-"), 0,
     entries(NIL + b"-", NIL + b"- " + MARK), b""),
    ("a datagram", ["archive"], HELLO, 0, entries(HELLO), b""),
    ("unordered elements", ["archive"], NIL + b"[b][a]", 0, entries(NIL + b"[a][b]"), b""),
    ("a datagram with a line feed", ["archive", "--framing", "datagram"], NIL + b"- a\nb", 0, entries(NIL + b"- a\nb"), b""),
    ("an empty datagram", ["archive"], b"", 1, b"", b"1 syntax priority 0\n"),
    ("no frames", ["archive", *COUNTED], b"", 0, b"", b""),
    ("no lines", ["archive", *LF], b"", 0, b"", b""),
    ("frames that do not ascend", ["archive", *COUNTED], entries(Y, A), 0, entries(A, Y), b""),
    ("one record in two forms, and others", ["archive", *COUNTED],
     entries(Y.replace(b".000000", b""), A, Z.replace(b".000000", b""), Y), 0, entries(A, Z, Y), b""),
    ("lines that are no records", ["archive", *LF], b"x\n" + A + b"\ny\n", 1, entries(A), b"1 syntax priority 0\n3 syntax priority 0\n"),
    ("nothing behind a count that begins with a zero", ["archive", *COUNTED], entries(b"x", A) + b"016 <0>1 - - - - - -", 1, entries(A),
     b"1 syntax priority 0\n3 bad-count 25\n"),
    ("frames that are no records", ["archive", *LF], b"x\n" + A + b"\n\n", 1, entries(A), b"1 syntax priority 0\n3 syntax priority 0\n"),
    ("lines", ["archive", *LF], LINES + b"\n", 1, entries(NIL + b"-"), REPORTED),
    ("an unfinished line", ["archive", *LF], LINES, 1, b"", REPORTED + b"unterminated 262149\n"),
    ("a bad count", ["archive", *COUNTED], entries(A) + b"x" + entries(Y), 1, entries(A), b"2 bad-count 22\n"),
    ("an unfinished frame", ["archive", *COUNTED], entries(A) + b"45 <14>1", 1, entries(A), b"unterminated 22\n"),
    ("the longest canonical form", ["archive"], LARGEST, 0, entries(NIL + b'[a k="' + b"\\\\n" * 131_060 + b'"]'), b""),
    ("archive writes in no framing", ["archive", "--to", "lf"], HELLO, 2, b"", None),
    ("archive takes no name", ["archive", "a"], HELLO, 2, b"", None),
    ("a file too few", ["merge", "a"], b"", 2, b"", None),
    ("a file too many", ["merge", "a", "b", "c"], b"", 2, b"", None),
    ("no file", ["migrate"], b"", 2, b"", None),
]

# records of no host, of fw-1, and of web; and the words of `select` with those that are chosen
END, FAILED, ONE_TWO = b"<13>1 - - cron - - - end", b"<13>1 - fw-1 sshd - - - Failed", b"<13>1 - web su - - - one two"
CHOSEN = [
    (["--host", "fw-1"], [FAILED]), (["--host", "fw-1", "--host", "-"], [END, FAILED]), (["--not-host", "fw-1", "--not-host", "web"], [END]),
    (["--not-host=-"], [FAILED, ONE_TWO]), (["--host-like", "*w*"], [FAILED, ONE_TWO]), (["--host-like", "w?b", "--app-like", "*s*"], [ONE_TWO]),
    (["--message", "e", "--app", "sshd"], [FAILED]), (["--message", "e t", "--message", "nd"], [END, ONE_TWO]),
    (["--not-message", "n", "--not-app", "su"], [FAILED]), (["--host=web", "--not-app=su"], []),
]
ARCHIVED += [("what is selected", ["select", *words], entries(END, FAILED, ONE_TWO), 0, entries(*chosen), b"") for words, chosen in CHOSEN]

# two files, status, standard output, standard error
MERGED = [
    ("the union", entries(A, Z), entries(A, Y), 0, entries(A, Z, Y), b""),
    ("the union, the other way round", entries(A, Y), entries(A, Z), 0, entries(A, Z, Y), b""),
    ("an archive with itself", entries(A, Z, Y), entries(A, Z, Y), 0, entries(A, Z, Y), b""),
    ("no records", b"", b"", 0, b"", b""),
    ("an archive and no records", b"", entries(A, Z, Y), 0, entries(A, Z, Y), b""),
    ("entries of the right one that do not ascend", b"", entries(Y, A), 1, entries(Y), b"right not-ascending 48\n"),
    ("octets behind the last entry", entries(A) + b"x", b"", 1, entries(A), b"left bad-frame 22\n"),
    ("a count above the octets", b"17 <0>1 - - - - - -", b"", 1, b"", b"left bad-frame 19\n"),
    ("entries that do not ascend", entries(Y, A), b"", 1, entries(Y), b"left not-ascending 48\n"),
    ("an entry that is repeated", b"", entries(A, A), 1, entries(A), b"right not-ascending 22\n"),
    ("a cut archive", entries(A, Y)[:-1], b"", 1, entries(A), b"left bad-frame 69\n"),
    ("a count that is none", b"x", b"x", 1, b"", b"left bad-frame 0\n"),
    ("the first fault that is met", entries(A) + b"x", b"x", 1, b"", b"right bad-frame 0\n"),
    ("an entry that is no record", b"4 <0>1", b"", 1, b"", b"left bad-entry 0 syntax version 4\n"),
    ("an entry that is not canonical", entries(NIL + b"- "), b"", 1, b"", b"left not-canonical 0\n"),
    ("an entry that is too long", b"524296 ", b"", 1, b"", b"left entry-too-long 0\n"),
    ("the longest entry, which is missing", b"524295 ", b"", 1, b"", b"left bad-frame 7\n"),
]

# a file, status, standard output, standard error
MIGRATED = [
    ("two orders of elements", entries(NIL + b"[a][b]", NIL + b"[b][a]"), 0, entries(NIL + b"[a][b]"), b""),
    ("another order of entries", entries(NIL + b"[b][c]", NIL + b"[c][a]"), 0, entries(NIL + b"[a][c]", NIL + b"[b][c]"), b""),
    ("entries that do not ascend", entries(NIL + b"[b][a]", NIL + b"[a][b]"), 1, b"", b"old not-ascending 24\n"),
    ("an archive", entries(A, Z, Y), 0, entries(A, Z, Y), b""),
    ("a count that is none", b"x", 1, b"", b"old bad-frame 0\n"),
    ("an entry that is no record", b"4 <0>1", 1, b"", b"old bad-entry 0 syntax version 4\n"),
    ("no octets", b"", 0, b"", b""),
    ("a cut archive", entries(A)[:-1], 1, b"", b"old bad-frame 21\n"),
]

LEGACY_2001 = ["--legacy", "2001"]
STAMP = b"<13>Feb  5 17:32:18 "
IN_2001 = b"<13>1 2001-02-05T17:32:18.000000Z "
NIL_13 = b"<13>1 - - - - - -"

# a clock, a packet, and what `convert` writes
LEGACY_FORMS = [
    (LEGACY_2001, STAMP + b"h", IN_2001 + b"h - - - -"),
    (LEGACY_2001, b"<13>Feb 05 17:32:18 - x y", IN_2001 + b"- - - - - x y"),
    (LEGACY_2001, STAMP[:-1], NIL_13 + b" Feb  5 17:32:18"),
    (LEGACY_2001, b"<192>hello", NIL_13 + b" <192>hello"),
    (["--legacy", "2003"], b"<34>Oct 11 22:14:15 mymachine su: 'su root' failed for lonvick on /dev/pts/8",
     b"<34>1 2003-10-11T22:14:15.000000Z mymachine su - - - 'su root' failed for lonvick on /dev/pts/8"),
    (["--legacy", "2003"], b"Use the BFG!", NIL_13 + b" Use the BFG!"),
    (["--legacy", "2003"], b"<13>Feb 29 01:02:03 h t: m", NIL_13 + b" Feb 29 01:02:03 h t: m"),
    (["--legacy", "2004"], b"<13>Feb 29 01:02:03 h t: m", b"<13>1 2004-02-29T01:02:03.000000Z h t - - - m"),
    (["--legacy", "2003"], b"", NIL_13),
    (LEGACY_2001, b"", NIL_13),
    (["--legacy", "0002004", "--zone", "E2359"], b"<13>Feb 29 01:02:03 h t: m", b"<13>1 2004-02-28T01:03:03.000000Z h t - - - m"),
    (LEGACY_2001, b"<14>1 2024-02-29T23:30:00Z h a - - - y", b"<14>1 2024-02-29T23:30:00.000000Z h a - - - y"),
    (["--legacy", "2001", "--zone", "W0500"], STAMP + b"10.0.0.99 cron[42]: x",
     b"<13>1 2001-02-05T22:32:18.000000Z 10.0.0.99 cron 42 - - x"),
    (["--zone", "E0100", "--legacy", "2001"], b"<13>Jan  1 00:30:00 h t: m", b"<13>1 2000-12-31T23:30:00.000000Z h t - - - m"),
    (["--legacy=1", "--zone=E2359"], b"<13>Jan  1 00:00:00 h t: m", b"<13>1 0000-12-31T00:01:00.000000Z h t - - - m"),
    (["--legacy=9998", "--zone=W2359"], b"<13>Dec 31 23:59:59 h t: m", b"<13>1 9999-01-01T23:58:59.000000Z h t - - - m"),
    (["--legacy", "0" * 40 + "2001"], STAMP + b"h", IN_2001 + b"h - - - -"),
    # the version without a space behind it, and another number
    (LEGACY_2001, b"<13>1", NIL_13 + b" 1"),
    (LEGACY_2001, b"<13>10 x", NIL_13 + b" 10 x"),
    # a good time with a bad host: a tab, FF, a second space, 256 octets
    (LEGACY_2001, STAMP + b"a\tb", IN_2001 + b"- - - - - a\tb"),
    (LEGACY_2001, STAMP + b"\xff t: m", IN_2001 + b"- - - - - \xff t: m"),
    (LEGACY_2001, STAMP + b" h t: m", IN_2001 + b"- - - - -  h t: m"),
    (LEGACY_2001, STAMP + b"h" * 256 + b" t: m", IN_2001 + b"- - - - - " + b"h" * 256 + b" t: m"),
    # there is no day 00
    (LEGACY_2001, b"<13>Feb 00 17:32:18 h", NIL_13 + b" Feb 00 17:32:18 h"),
    # the mark makes a text, also without PRI
    (LEGACY_2001, MARK + b"A", NIL_13 + b" " + MARK + b"A"),
    # with the front of RFC 5424 a record is read as one
    (LEGACY_2001, EXAMPLE, b"<165>1 2003-08-24T12:14:15.000003Z 192.0.2.1 myproc 8710 - - %% It's time to make the do-nuts."),
    # the longest packet, as bare octets
    (LEGACY_2001, b"a" * 262_144, NIL_13 + b" " + b"a" * 262_144),
]

PACKETS = STAMP + b"h t: m\n" + A + b"\n<13>1 x\n" + MARK + b"\xff\n" + b"a" * 262_145 + b"\n<13>z\n"
PACKET_LINES = b"3 syntax timestamp 6\n4 legacy-not-utf8 3\n5 too-long\n"
LEGACY_LINES = STAMP + b"h a: y\n<12>1 - - - - - - x\nz\n"
T = IN_2001 + b"h t - - - m"

# words, standard input, status, standard output, standard error (None: any text, but some)
LEGACY = [
    *[("a legacy packet", ["convert", *clock], packet, 0, form, b"") for clock, packet, form in LEGACY_FORMS],
    *[("a legacy packet of UTC", ["convert", *clock, "--zone", "E0000"], packet, 0, form, b"")
      for clock, packet, form in LEGACY_FORMS if clock[::2] == ["--legacy"]],
    *[("a legacy packet", ["check", *clock], packet, 0, b"1 ok\n", b"") for clock, packet, _ in LEGACY_FORMS],
    *[("a legacy packet", ["archive", *clock], packet, 0, entries(form), b"") for clock, packet, form in LEGACY_FORMS],
    ("a text that is no UTF-8", ["check", *LEGACY_2001], MARK + b"A\xff", 1, b"1 legacy-not-utf8 4\n", b""),
    ("a text that is no UTF-8", ["convert", *LEGACY_2001], MARK + b"A\xff", 1, b"", b"1 legacy-not-utf8 4\n"),
    ("a text that is no UTF-8", ["show", *LEGACY_2001], MARK + b"A\xff", 1, b"", b"1 legacy-not-utf8 4\n"),
    ("a text that is no UTF-8", ["archive", *LEGACY_2001], MARK + b"A\xff", 1, b"", b"1 legacy-not-utf8 4\n"),
    ("a text that ends inside a character", ["check", *LEGACY_2001], b"<13>" + MARK + b"\xe2\x82", 1, b"1 legacy-not-utf8 9\n", b""),
    ("a character that is cut off", ["check", *LEGACY_2001], b"<13>" + MARK + b"\xe0\x80", 1, b"1 legacy-not-utf8 8\n", b""),
    ("a character that is cut off", ["archive", *LEGACY_2001], b"<13>" + MARK + b"\xe0\x80", 1, b"", b"1 legacy-not-utf8 8\n"),
    ("a faulty record of RFC 5424", ["check", *LEGACY_2001], b"<13>1 x", 1, b"1 syntax timestamp 6\n", b""),
    ("a faulty record of RFC 5424", ["archive", *LEGACY_2001], b"<13>1 x", 1, b"", b"1 syntax timestamp 6\n"),
    ("a packet above the limit", ["check", *LEGACY_2001], b"a" * 262_145, 1, b"1 too-long\n", b""),
    ("a canonical form too long for a line", ["convert", *LEGACY_2001, "--to", "lf"], b"a" * 262_144, 1, b"", b"1 canonical-too-long\n"),
    ("lines of both kinds are checked", ["check", *LF, *LEGACY_2001], PACKETS, 1, b"1 ok\n2 ok\n" + PACKET_LINES + b"6 ok\n", b""),
    ("lines of both kinds are converted", ["convert", *LEGACY_2001, *LF], PACKETS, 1,
     T + b"\n" + A + b"\n<13>1 - - - - - - z\n", PACKET_LINES),
    ("lines of both kinds are archived", ["archive", *LF, *LEGACY_2001], PACKETS + T + b"\n", 1,
     entries(b"<13>1 - - - - - - z", A, T), PACKET_LINES),
    ("counted packets", ["convert", *COUNTED, *LEGACY_2001, "--to", "lf"], entries(STAMP + b"h t: m", b"x\n", A), 1,
     T + b"\n" + A + b"\n", b"2 has-lf\n"),
    ("packets are archived", ["archive", *LF, *LEGACY_2001], LEGACY_LINES, 0,
     entries(b"<12>1 - - - - - - x", NIL_13 + b" z", IN_2001 + b"h a - - - y"), b""),
    ("packets are no records", ["check", *LF], LEGACY_LINES, 1, b"1 syntax version 4\n2 ok\n3 syntax priority 0\n", b""),
    ("a bad count", ["check", *COUNTED, *LEGACY_2001], entries(b"x") + b"x", 1, b"1 ok\n2 bad-count 3\n", b""),
    ("the fields of a packet", ["show", *LEGACY_2001], STAMP + b"h t[1]: m", 0,
     b"record 1\npriority 13 user notice\ntime 2001-02-05T17:32:18.000000Z\nhost h\napp t\nproc 1\nmsgid -\nmessage any \"m\"\n", b""),
    ("a zone without a year has no effect", ["convert", "--zone", "W0500"], HELLO, 0, HELLO, b""),
    ("a zone without a year is no clock", ["check", "--zone", "W0500"], STAMP + b"h", 1, b"1 syntax version 4\n", b""),
    *[("a zone that is none", ["convert", "--zone", zone], HELLO, 2, b"", invalid("--zone", zone))
      for zone in ["E2400", "E0060", "e0000", "0000", "E000", "E00000", "+0100", "Z", "W24:00", "E-100", "E+100", "E 100"]],
    *[("a zone that is none, with a year", [command, *LEGACY_2001, "--zone", zone], HELLO, 2, b"", invalid("--zone", zone))
      for command in ["check", "convert", "show", "archive"] for zone in ["E2400", "W0060", ""]],
    *[("a year that is none", [command, f"--legacy={year}"], HELLO, 2, b"", invalid("--legacy", year))
      for command in ["check", "convert", "show", "archive"]
      for year in ["9999", "0", "", "+5", "-5", "2001x", " 2001", "67537", "18446744073709553617", "\u0662\u0660\u0660\u0661"]],
    ("a year without its value", ["check", "--legacy"], HELLO, 2, b"", None),
    *[("a year that is none, as a word", ["convert", "--legacy", year], b"", 2, b"", invalid("--legacy", year)) for year in ["0", "9999", "+5", ""]],
    *[("a zone that is none", [command, *clock, "--zone", zone], b"", 2, b"", invalid("--zone", zone)) for command, clock, zone in
      [("convert", LEGACY_2001, "E0060"), ("check", LEGACY_2001, "N0000"), ("show", LEGACY_2001, "E000"), ("archive", [], "e0000")]],
    ("a year given twice", ["check", *LEGACY_2001, *LEGACY_2001], HELLO, 2, b"", None),
    ("a zone given twice", ["check", "--zone", "E0000", "--zone", "E0000"], HELLO, 2, b"", None),
    ("send has no clock", ["send", *LEGACY_2001, "x"], b"", 2, b"", None),
    ("merge has no clock", ["merge", *LEGACY_2001, "a", "b"], b"", 2, b"", None),
    ("migrate has no clock", ["migrate", *LEGACY_2001, "a"], b"", 2, b"", None),
    ("the version in short", ["-V"], HELLO, 2, b"", None),
    ("help of collect", ["help", "collect"], HELLO, 2, b"", None),
]

TRIM = ["--trim"]
WIDE = ["--dialect", "wide"]
# a line end or a NUL, of which one is dropped from the end of a frame
ENDS = [b"\r\n", b"\n", b"\r", b"\0"]
FULL = HELLO + b"x" * (262_144 - 24)

# words, standard input, status, standard output, standard error (None: any text, but some)
TRIMMED = [
    *[("an end is dropped", ["convert", *TRIM], HELLO + end, 0, HELLO, b"") for end in [b"", *ENDS]],
    *[("an end is an octet of the record", ["convert"], HELLO + end, 0, HELLO + end, b"") for end in ENDS],
    *[("an end is dropped once", ["convert", *TRIM], HELLO + first + end, 0, HELLO + first, b"")
      for first in [b"\n", b"\r\n", b"\0", b" "] for end in ENDS if first + end != b"\r\n"],
    *[("an octet inside is kept", ["convert", *TRIM], HELLO + end + b"x", 0, HELLO + end + b"x", b"") for end in ENDS],
    *[("other octets at the end are kept", ["convert", *TRIM], HELLO + end, 0, HELLO + end, b"")
      for end in [b" ", b"\t", b"\n ", b"\x0b", b"\xff", b"\\n"]],
    *[("an end alone is no record", ["check", *TRIM], end, 1, b"1 syntax priority 0\n", b"") for end in ENDS],
    ("an end behind an empty message", ["convert", *TRIM], b"<165>1 - - - - - - \n", 0, b"<165>1 - - - - - -", b""),
    ("faults at the ends of lines", ["check", *LF, *TRIM], b"<0>1 - ab\r\n<0>1 - ab\n<13>x\r\n", 1,
     b"1 syntax hostname 9\n2 syntax hostname 9\n3 syntax version 4\n", b""),
    ("a packet is shown without its end", ["show", *LF, *TRIM, *LEGACY_2001], b"<13>x\r\n", 0,
     b"record 1\npriority 13 user notice\ntime -\nhost -\napp -\nproc -\nmsgid -\nmessage any \"x\"\n", b""),
    *[("one record by two routes", ["archive", *framing, *TRIM], octets, 0, entries(NIL + b"-"), b"") for framing, octets in
      [(COUNTED, b"17 <0>1 - - - - - -\n18 <0>1 - - - - - -\r\n"), (LF, b"<0>1 - - - - - -\n<0>1 - - - - - -\0\n")]],
    *[("a fault at the end", [command, *TRIM], b"<0>1 - ab" + end, 1,
       b"1 syntax hostname 9\n" if command == "check" else b"", b"" if command == "check" else b"1 syntax hostname 9\n")
      for command in ["check", "convert", "show", "archive"] for end in ENDS],
    ("a fault before it", ["check", *TRIM], b"<192>1 -\r\n", 1, b"1 syntax priority 3\n", b""),
    ("a whole frame at the limit", ["convert", *TRIM], FULL[:-1] + b"\n", 0, FULL[:-1], b""),
    ("too long before it is trimmed", ["check", *TRIM], FULL + b"\n", 1, b"1 too-long\n", b""),
    ("lines without their carriage returns", ["convert", *LF, *TRIM], A + b"\r\n" + A + b"\n" + A + b"\0\n", 0, (A + b"\n") * 3, b""),
    ("counted records as lines", ["convert", *COUNTED, *TRIM, "--to", "lf"], entries(A + b"\n", A, A + b"\r\n"), 0, (A + b"\n") * 3, b""),
    ("a second line feed is in the record", ["convert", *COUNTED, *TRIM, "--to", "lf"], entries(A + b"\n\n"), 1, b"", b"1 has-lf\n"),
    *[("two routes are one archive", ["archive", *framing, *TRIM], octets, 0, entries(A, Y), b"")
      for framing, octets in [(LF, A + b"\r\n" + Y + b"\n" + A + b"\n"), (COUNTED, entries(Y + b"\0", A + b"\n", A))]],
    ("positions are those of the stream", ["check", *COUNTED, *TRIM], entries(A + b"\n") + b"x", 1, b"1 ok\n2 bad-count %d\n" % (4 + len(A)), b""),
    ("the last line is unterminated", ["check", *LF, *TRIM], A + b"\r\n" + A + b"\r", 1, b"1 ok\nunterminated %d\n" % (2 + len(A)), b""),
    *[("a legacy packet", ["convert", *TRIM, *LEGACY_2001], STAMP + b"h t: m" + end, 0, IN_2001 + b"h t - - - m", b"") for end in ENDS],
    *[("an end alone is the empty packet", ["convert", *TRIM, *LEGACY_2001], end, 0, NIL_13, b"") for end in ENDS],
    ("the fields of a record", ["show", *TRIM], HELLO + b"\n", 0,
     b"record 1\npriority 165 local4 notice\ntime -\nhost -\napp -\nproc -\nmsgid -\nmessage any \"hello\"\n", b""),
    *[("trim takes no value", [command, "--trim=true"], HELLO, 2, b"", None) for command in ["check", "convert", "show", "archive"]],
    ("trim given twice", ["check", *TRIM, *TRIM], HELLO, 2, b"", None),
    ("send does not trim", ["send", *TRIM, "x"], b"", 2, b"", None),
    ("merge does not trim", ["merge", *TRIM, "a", "b"], b"", 2, b"", None),
    *[("a dialect without a year has no effect", [command, "--dialect", dialect], HELLO, 0, output, b"")
      for command, output in [("check", b"1 ok\n"), ("convert", HELLO), ("archive", entries(HELLO))] for dialect in ["bsd", "wide"]],
    ("a dialect without a year is no clock", ["check", *WIDE], STAMP + b"h", 1, b"1 syntax version 4\n", b""),
    ("the packets of RFC 3164", ["convert", *LEGACY_2001, "--dialect", "bsd"], STAMP + b"h t: m", 0, IN_2001 + b"h t - - - m", b""),
    *[("a dialect that is none", [command, *clock, "--dialect", dialect], HELLO, 2, b"", invalid("--dialect", dialect))
      for command in ["check", "convert", "show", "archive"] for clock in [[], LEGACY_2001] for dialect in ["", "BSD", "wide ", "rfc3164"]],
    ("a dialect given twice", ["check", *LEGACY_2001, *WIDE, *WIDE], HELLO, 2, b"", None),
    ("send has no dialect", ["send", *WIDE, "x"], b"", 2, b"", None),
]

SUMMARY = ["check", "--summary"]
NO_PACKETS = b"legacy 0 no-time 0 no-host 0\n"

# words, standard input, status, standard output, standard error (None: any text, but some)
SUMMARIES = [
    ("no legacy packet", SUMMARY, HELLO, 0, b"1 ok\n", NO_PACKETS),
    ("no legacy packet, with a clock", [*SUMMARY, *LEGACY_2001], HELLO, 0, b"1 ok\n", NO_PACKETS),
    ("a refused record", SUMMARY, b"x", 1, b"1 syntax priority 0\n", NO_PACKETS),
    ("no frame", [*SUMMARY, *LF], b"", 0, b"", NO_PACKETS),
    ("a packet", [*SUMMARY, *LEGACY_2001], STAMP + b"h t: m", 0, b"1 ok\n", b"legacy 1 no-time 0 no-host 0\n"),
    ("a packet without a time, which has no host", [*SUMMARY, *LEGACY_2001], b"<13>h t: m", 0, b"1 ok\n", b"legacy 1 no-time 1 no-host 1\n"),
    ("a packet without a host", [*SUMMARY, *LEGACY_2001], STAMP + b"\tm", 0, b"1 ok\n", b"legacy 1 no-time 0 no-host 1\n"),
    ("packets and records", [*SUMMARY, *LF, *LEGACY_2001], b"\n".join([STAMP + b"h t: m", A, b"x", STAMP + b"h", b"<13>\xef\xbb\xbf\xff", b"<13>1 x", b""]),
     1, b"1 ok\n2 ok\n3 ok\n4 ok\n5 legacy-not-utf8 7\n6 syntax timestamp 6\n", b"legacy 3 no-time 1 no-host 1\n"),
    ("an unfinished line", [*SUMMARY, *LF, *LEGACY_2001], STAMP + b"h\nx", 1, b"1 ok\nunterminated %d\n" % (len(STAMP) + 2), b"legacy 1 no-time 0 no-host 0\n"),
    ("a bad count", [*SUMMARY, *COUNTED, *LEGACY_2001], entries(b"x") + b"x", 1, b"1 ok\n2 bad-count 3\n", b"legacy 1 no-time 1 no-host 1\n"),
    ("a datagram that is too long", [*SUMMARY, *LEGACY_2001], b"x" * 262_145, 1, b"1 too-long\n", NO_PACKETS),
    ("a line that is too long", [*SUMMARY, *LF, *LEGACY_2001], b"x" * 262_145 + b"\nx\n", 1, b"1 too-long\n2 ok\n", b"legacy 1 no-time 1 no-host 1\n"),
    *[("summary is no option", [command, "--summary"], HELLO, 2, b"", None) for command in ["convert", "show", "archive"]],
    *[("summary takes no value and stands once", words, HELLO, 2, b"", None) for words in [["check", "--summary=true"], [*SUMMARY, "--summary"]]],
]

# words of `collect` that are refused before anything is bound
NOT_COLLECTED = [
    [], ["udp"], ["udp", "5140"], ["udp", "5140", "1", "1"], ["tcp", "5140", "1"], ["UDP", "5140", "1"], ["datagram", "5140", "1"],
    ["udp", "0", "1"], ["udp", "65536", "1"], ["udp", "70676", "1"], ["udp", "+514", "1"], ["udp", "-1", "1"], ["udp", "", "1"],
    ["udp", "5140", "0"], ["udp", "5140", "1000001"], ["udp", "5140", "4294967297"], ["udp", "5140", "+1"], ["udp", "5140", ""],
    ["counted", "5140", "0"], ["counted", "5140", "100001"], ["lf", "5140", "100001"], ["lf", "5140", "1x"],
    ["udp", "5140", "1", "--legacy", "0"], ["udp", "5140", "1", "--legacy", "9999"], ["udp", "5140", "1", "--zone", "E2400"],
    ["udp", "5140", "1", "--framing", "lf"], ["udp", "5140", "1", "--to", "lf"], ["udp", b"\xff", "1"],
]

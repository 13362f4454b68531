"""The worked examples, as runs of `lmtpd rehearse` and `lmtpd check`: what goes in, and every byte that comes out.

What is expected is written out here by the rules of the standards and by hand; nothing is taken from the program."""

from dataclasses import dataclass, field

import replies
from replies import CLOSING, GO_AHEAD, GREETING, OFFER, RECIPIENT_OK, SENDER_OK
from replies import malformed, over_quota, rejected_over_quota, stored, too_large

CRLF = b"\r\n"
PROLOGUE = [b"LHLO relay.example", b"MAIL FROM:<carl@a.example>"]
TO_ANNA = b"RCPT TO:<anna@mx.example>"
TO_BEN = b"RCPT TO:<ben@mx.example>"
HELLO = [b"Subject: hi", b"", b"hello", b"."]
HELLO_STORED = b"Subject: hi\n\nhello\n"
EPOCH = (b"Thu Jan  1 00:00:00 1970", b"Thu, 1 Jan 1970 00:00:00 +0000")  # in the From line, and in the trace
OPENED = [GREETING, *OFFER, SENDER_OK]
PLACE_OF_OFFER = slice(1, 1 + len(OFFER))  # in a row's replies


def head(number=1, sender=b"carl@a.example", moment=EPOCH, protocol=b"LMTP"):
    """The From line and the trace lines of a record."""
    lines = [
        b"From " + (sender or b"MAILER-DAEMON") + b" " + moment[0],
        b"Return-Path: <" + sender + b">",
        b"Received: from relay.example",
        b"\tby mx.example with %s id 0-%d;" % (protocol, number),
        b"\t" + moment[1],
    ]
    return b"".join(line + b"\n" for line in lines)


def record(text, **given):
    return head(**given) + text + b"\n"


@dataclass
class Row:
    name: str
    given: list  # lines, or bytes that are taken as they are
    replies: list  # lines, as texts
    mailboxes: dict
    words: list = field(default_factory=list)
    time: int = 0
    boxes: bytes = None  # the text of a file of mailboxes, where there is one
    named: list = None  # the mailboxes of the words, where they aren't all that there are

    def input(self):
        return b"".join(one if isinstance(one, bytearray) else one + CRLF for one in self.given)

    def output(self):
        said = replies.as_bytes(self.replies)
        titled = (b"mailbox %s %d\n" % (box.encode(), len(text)) + text for box, text in self.mailboxes.items())
        return said + b"".join(titled)


def message(name, data, text, **more):
    """One message for anna in `data`, which becomes this text of her record."""
    return Row(
        name,
        [*PROLOGUE, TO_ANNA, b"DATA", *data, b"QUIT"],
        [*OPENED, RECIPIENT_OK, GO_AHEAD, stored("anna"), CLOSING],
        {"anna": record(text, **more), "ben": b""},
    )


def rows():
    yield from conversations()
    yield from texts()
    yield from limits()
    yield from quotas()
    yield from moments()
    yield from smuggled()
    yield from forms()


def conversations():
    yield Row(
        "one message",
        [*PROLOGUE, TO_ANNA, b"DATA", *HELLO, b"QUIT"],
        [*OPENED, RECIPIENT_OK, GO_AHEAD, stored("anna"), CLOSING],
        {"anna": record(HELLO_STORED)},
    )
    yield Row(
        "two mailboxes, and one that there isn't",
        [*PROLOGUE, TO_ANNA, b"RCPT TO:<zoe@mx.example>", TO_BEN, b"DATA", *HELLO, b"QUIT"],
        [
            *OPENED,
            RECIPIENT_OK,
            replies.NO_SUCH_BOX,
            RECIPIENT_OK,
            GO_AHEAD,
            stored("anna"),
            stored("ben"),
            CLOSING,
        ],
        {"anna": record(HELLO_STORED), "ben": record(HELLO_STORED)},
    )
    yield Row(
        "one mailbox twice",
        [*PROLOGUE, TO_ANNA, TO_ANNA, b"DATA", *HELLO, b"QUIT"],
        [*OPENED, RECIPIENT_OK, RECIPIENT_OK, GO_AHEAD, stored("anna"), stored("anna"), CLOSING],
        {"anna": record(HELLO_STORED) * 2, "ben": b""},
    )
    yield Row(
        "no recipient is accepted, so data is out of order",
        [*PROLOGUE, b"RCPT TO:<zoe@mx.example>", b"DATA", b"hello", b".", b"QUIT"],
        [*OPENED, replies.NO_SUCH_BOX, replies.OUT_OF_ORDER, *[replies.UNKNOWN_COMMAND] * 2, CLOSING],
        {"anna": b"", "ben": b""},
    )
    yield Row(
        "HELO and EHLO have no positive reply",
        [b"HELO a", b"EHLO a", b"MAIL FROM:<>", b"QUIT"],
        [GREETING, replies.USE_LHLO, replies.USE_LHLO, replies.OUT_OF_ORDER, CLOSING],
        {"anna": b"", "ben": b""},
    )
    yield Row(
        "the input ends inside data",
        [*PROLOGUE, TO_ANNA, b"DATA", b"Subject: hi"],
        [*OPENED, RECIPIENT_OK, GO_AHEAD],
        {"anna": b"", "ben": b""},
    )
    yield Row(
        "parameters and paths of MAIL",
        [
            b"LHLO relay.example",
            b"mail from: <a@b> size=10 BODY=8bitmime",
            b"RSET",
            b"MAIL FROM:<a@b> RET=FULL",
            b"MAIL FROM:<a@b> BODY=X",
            b"MAIL FROM:<a@b> SIZE=",
            b"MAIL FROM:a@b",
            b"LHLO",
            b"QUIT",
        ],
        [
            GREETING,
            *OFFER,
            SENDER_OK,
            replies.RESET_OK,
            replies.UNKNOWN_PARAMETER,
            replies.BAD_ARGUMENTS,
            replies.BAD_ARGUMENTS,
            replies.BAD_SENDER,
            replies.BAD_CLIENT_NAME,
            CLOSING,
        ],
        {"anna": b"", "ben": b""},
    )
    yield Row(
        "postmaster, a quoted local part, an address in brackets",
        [*PROLOGUE, b"RCPT TO:<Postmaster>", b'RCPT TO:<"ANNA"@MX.example>', b"RCPT TO:<anna@[127.0.0.1]>", b"QUIT"],
        [*OPENED, RECIPIENT_OK, RECIPIENT_OK, replies.NO_SUCH_BOX, CLOSING],
        {"anna": b"", "ben": b""},
    )
    yield Row(
        "mailboxes of further domains",
        [
            *PROLOGUE,
            b"RCPT TO:<anna@a.example>",
            b"RCPT TO:<ben@b.example>",
            b"RCPT TO:<ben@mx.example>",
            b"RCPT TO:<anna@c.example>",
            b"QUIT",
        ],
        [*OPENED, RECIPIENT_OK, RECIPIENT_OK, RECIPIENT_OK, replies.NO_SUCH_BOX, CLOSING],
        {"anna": b"", "ben": b""},
        ["--domains", "a.example,b.example"],
    )
    tried = [
        (b"anna+lists@mx.example", True),
        (b"Ben+a+b", True),
        (b"ben+", True),
        (b"+anna", False),
        (b"zoe+anna", False),
        (b"anna-lists", False),
        (b"Postmaster+x", True),
        (b'"anna+x"', True),
        (rb'"b\en\+x"@mx.example', True),
        (b"anna+x@other.example", False),
    ]
    yield Row(
        "a user and a detail",
        [*PROLOGUE, *(b"RCPT TO:<%s>" % address for address, _ in tried), b"QUIT"],
        [*OPENED, *(RECIPIENT_OK if known else replies.NO_SUCH_BOX for _, known in tried), CLOSING],
        {"anna": b"", "ben": b""},
        ["--recipient-delimiter", "+"],
    )
    yield Row(
        "a user and a detail, which no word allows",
        [*PROLOGUE, b"RCPT TO:<anna+lists>", b"RCPT TO:<anna>", b"QUIT"],
        [*OPENED, replies.NO_SUCH_BOX, RECIPIENT_OK, CLOSING],
        {"anna": b"", "ben": b""},
    )
    yield Row(
        "a letter for a user with a detail",
        [*PROLOGUE, b"RCPT TO:<ben~x@mx.example>", b"DATA", *HELLO, b"QUIT"],
        [*OPENED, RECIPIENT_OK, GO_AHEAD, stored("ben"), CLOSING],
        {"anna": b"", "ben": record(HELLO_STORED)},
        ["--recipient-delimiter=~"],
    )
    yield Row(
        "commands that change nothing",
        [b"VRFY anna", b"EXPN all", b"HELP", b"RSET", b"QUIT"],
        [
            GREETING,
            replies.NOT_CHECKED,
            replies.NOT_OFFERED,
            replies.HELP_TEXT,
            replies.RESET_OK,
            CLOSING,
        ],
        {"anna": b"", "ben": b""},
    )


def texts():
    yield message("no data", [b"."], b"")
    yield message("dots of transparency", [b"..a", b".b", b"."], b".a\nb\n")
    yield message("bare line feeds", [bytearray(b"a\n.\nb\r\n.\nc\r\n.\r\n")], b"a\n.\nb\n\nc\n")
    yield message(
        "lines that look like From lines",
        [b"From x", b">From x", b">>From x", b"From:x", bytearray(b"a\nFrom y\r\n.\r\n")],
        b">From x\n>>From x\n>>>From x\nFrom:x\na\n>From y\n",
    )
    # near the end of what a lane and a worker take at once, and of a block
    for size in [*range(505, 514), *range(4_089, 4_098)]:
        yield message(
            f"a quoted line after {size} bytes",
            [b"x" * (size - 2), b">>>From q", b"."],
            b"x" * (size - 2) + b"\n>>>>From q\n",
        )
    senders = {b"<>": b"", b"<@a.example,@b.example:c@d.example>": b"c@d.example", b"<carl>": b"carl"}
    for path, sender in senders.items():
        row = message(f"the sender {path.decode()}", HELLO, HELLO_STORED, sender=sender)
        row.given[1] = b"MAIL FROM:" + path
        yield row
    yield message("bytes above 127 and NUL", [b"\xff\x80\x00", b"."], b"\xff\x80\x00\n")


LINE = b"x" * 62  # of 64 bytes with CRLF, and 63 in a mailbox


def at_limit(names, limit, words):
    """Three rows for a site whose words give it that limit: the sizes that MAIL may name, a message of as many bytes,
    and one that is a byte longer."""
    sizes, largest, above = names
    offers = replies.offer(limit=limit)
    count = limit // (len(LINE) + 2)
    yield Row(
        sizes,
        [PROLOGUE[0], b"MAIL FROM:<a@b> SIZE=%d" % (limit + 1), b"MAIL FROM:<a@b> SIZE=%d" % limit, b"QUIT"],
        [GREETING, *offers, replies.MESSAGE_TOO_LARGE, SENDER_OK, CLOSING],
        {"anna": b"", "ben": b""},
        words,
    )
    row = message(largest, [LINE] * count + [b"."], (LINE + b"\n") * count)
    row.words = words
    row.replies[PLACE_OF_OFFER] = offers
    assert len(row.mailboxes["anna"]) == 169 + count * 63 + 1
    yield row
    row = message(above, [b"x" + LINE] + [LINE] * (count - 1) + [b"."], b"")
    row.words = words
    row.replies[PLACE_OF_OFFER] = offers
    row.replies[-2] = replies.too_large("anna")
    row.mailboxes["anna"] = b""
    yield row


def limits():
    names = ["a size above the limit, and the limit", "a message of the limit", "a byte above the limit"]
    yield from at_limit(names, replies.MESSAGE_LIMIT, [])
    names = ["what it offers, a size above it, and its size", "a message of it", "a byte above it"]
    yield from at_limit([f"a site's limit: {name}" for name in names], 65_536, ["--message-limit", "65536"])
    too_much = [b"x" + LINE, *[LINE] * 127, b"."]
    just_fits = [*[LINE] * 128, b"."]
    yield Row(
        "no room, and room for the next one",
        [*PROLOGUE, TO_ANNA, b"DATA", *too_much, PROLOGUE[1], TO_ANNA, b"DATA", *just_fits, b"QUIT"],
        [
            *OPENED,
            RECIPIENT_OK,
            GO_AHEAD,
            replies.no_room("anna"),
            SENDER_OK,
            RECIPIENT_OK,
            GO_AHEAD,
            stored("anna"),
            CLOSING,
        ],
        {"anna": record((LINE + b"\n") * 128, number=2)},
        ["--blocks", "2"],
    )
    yield Row(
        "command lines up to 1,024 bytes",
        [b"NOOP " + b"x" * 1017, b"NOOP " + b"x" * 1018, b"NOOP", b"y" * 10_000_000, b"NOOP", b"QUIT"],
        [
            GREETING,
            replies.NOOP_OK,
            replies.LINE_TOO_LONG,
            replies.NOOP_OK,
            replies.LINE_TOO_LONG,
            replies.NOOP_OK,
            CLOSING,
        ],
        {"anna": b"", "ben": b""},
    )
    yield Row(
        "1,001 recipients",
        [*PROLOGUE, *[b"RCPT TO:<anna>"] * 1_001, b"DATA", *HELLO, b"QUIT"],
        [
            *OPENED,
            *[RECIPIENT_OK] * 1_000,
            replies.TOO_MANY,
            GO_AHEAD,
            *[stored("anna")] * 1_000,
            CLOSING,
        ],
        {"anna": record(HELLO_STORED) * 1_000, "ben": b""},
    )


def quotas():
    """The record of the message of `HELLO` has 189 bytes, that of a message with no bytes 170."""
    for quota, reply, held in [
        (189, stored("anna"), record(HELLO_STORED)),
        (188, over_quota("anna"), b""),
        (0, over_quota("anna"), b""),
        (18_446_744_073_709_551_615, stored("anna"), record(HELLO_STORED)),
    ]:
        yield Row(
            f"one message and a quota of {quota}",
            [*PROLOGUE, TO_ANNA, b"DATA", *HELLO, b"QUIT"],
            [*OPENED, RECIPIENT_OK, GO_AHEAD, reply, CLOSING],
            {"anna": held},
            ["--quota", str(quota)],
        )
    for what, reply in [("defer", over_quota("anna")), ("reject", rejected_over_quota("anna"))]:
        yield Row(
            f"one message over the quota, with {what}, and one that fits",
            [*PROLOGUE, TO_ANNA, b"DATA", *HELLO, PROLOGUE[1], TO_ANNA, b"DATA", b".", b"QUIT"],
            [*OPENED, RECIPIENT_OK, GO_AHEAD, reply, SENDER_OK, RECIPIENT_OK, GO_AHEAD, stored("anna"), CLOSING],
            {"anna": record(b"", number=2)},
            ["--quota", "188", "--over-quota", what],
        )
    yield Row(
        "a shorter message fits after one that is over the quota",
        [*PROLOGUE, TO_ANNA, TO_ANNA, b"DATA", *HELLO, PROLOGUE[1], TO_ANNA, b"DATA", b".", b"QUIT"],
        [
            *OPENED,
            RECIPIENT_OK,
            RECIPIENT_OK,
            GO_AHEAD,
            stored("anna"),
            over_quota("anna"),
            SENDER_OK,
            RECIPIENT_OK,
            GO_AHEAD,
            stored("anna"),
            CLOSING,
        ],
        {"anna": record(HELLO_STORED) + record(b"", number=2), "ben": b""},
        ["--quota", "359"],
    )
    yield Row(
        "each mailbox has the whole quota",
        [*PROLOGUE, TO_ANNA, TO_BEN, TO_ANNA, b"DATA", *HELLO, b"QUIT"],
        [*OPENED, *[RECIPIENT_OK] * 3, GO_AHEAD, stored("anna"), stored("ben"), over_quota("anna"), CLOSING],
        {"anna": record(HELLO_STORED), "ben": record(HELLO_STORED)},
        ["--quota", "189"],
    )


def keeps(quota, records):
    """For each record whether a mailbox keeps it that was empty: it fits after what is held by then."""
    held = 0
    for text in records:
        fits = held + len(text) <= quota
        held += len(text) if fits else 0
        yield fits


def twice_under(quota):
    """One message for anna twice, of 378 bytes without a quota."""
    records = [record(HELLO_STORED)] * 2
    kept = list(keeps(quota, records))
    answers = [stored("anna") if fits else over_quota("anna") for fits in kept]
    return Row(
        f"one mailbox twice and a quota of {quota}",
        [*PROLOGUE, TO_ANNA, TO_ANNA, b"DATA", *HELLO, b"QUIT"],
        [*OPENED, RECIPIENT_OK, RECIPIENT_OK, GO_AHEAD, *answers, CLOSING],
        {"anna": b"".join(text for text, fits in zip(records, kept) if fits), "ben": b""},
        ["--quota", str(quota)],
    )


def moments():
    """The moment of `--time`, in both mailboxes."""
    stamps = {
        951_782_400: (b"Tue Feb 29 00:00:00 2000", b"Tue, 29 Feb 2000 00:00:00 +0000"),
        4_294_967_295: (b"Sun Feb  7 06:28:15 2106", b"Sun, 7 Feb 2106 06:28:15 +0000"),
    }
    for time, moment in stamps.items():
        text = record(HELLO_STORED, moment=moment)
        yield Row(
            f"the moment {time}",
            [*PROLOGUE, TO_ANNA, b"RCPT TO:<ben>", b"DATA", *HELLO, b"QUIT"],
            [*OPENED, RECIPIENT_OK, RECIPIENT_OK, GO_AHEAD, stored("anna"), stored("ben"), CLOSING],
            {"anna": text, "ben": text},
            time=time,
        )


def forms():
    """Messages where malformed ones are refused: those with a NUL, a blank at their front, or a line that counts more
    than 8,190 bytes, of which each CR that no LF follows counts as seven."""
    marks = b"a: b\r\nno colon\r\n%s\r\n"
    taken = {
        "a line of 8,190 bytes": b"x" * 8_190 + CRLF,
        "lines of 8,000 bytes that an LF parts": b"x" * 8_000 + b"\n" + b"x" * 8_000 + CRLF,
        "500 marks behind a CR each": marks % (b"\rStatus: a" * 500),
        "a blank at the front of a later line": b"\r\n a\r\n",
        "no bytes": b"",
        "many lines of 8,190 bytes": (b"y" * 8_190 + CRLF) * 100,
    }
    refused = {
        "a NUL": b"Subject: a\0\r\n",
        "a line of 8,191 bytes": b"x" * 8_191 + CRLF,
        "a line of 8,190 bytes and a CR": b"x" * 8_190 + b"\r\r\n",
        "700 marks behind a CR each": marks % (b"\rStatus: a" * 700),
        "a blank at the front": b" a\r\n",
        "a tab at the front": b"\ta\r\n",
        "NULs alone": b"\0" * 10_000 + CRLF,
        "a NUL behind a million bytes": (b"z" * 98 + CRLF) * 10_000 + b"\0\r\n",
        "a line that ends 500,000 bytes later": b"z" * 500_000 + CRLF,
    }
    for name, text in taken.items():
        yield form(f"{name}, where malformed messages are refused", text, stored("anna"), ["--refuse-malformed"])
    for name, text in refused.items():
        yield form(f"{name}, where malformed messages are refused", text, malformed("anna"), ["--refuse-malformed"])
        yield form(f"{name}, where none are", text, stored("anna"), [])
    large = b"\0" + b"x" * 1_048_574 + CRLF
    yield form("a NUL in a message above the limit", large, too_large("anna"), ["--refuse-malformed"])
    small = ["--refuse-malformed", "--blocks", "2"]
    yield form("a NUL in a message for which there is no room", b"\0" + b"x\r\n" * 3_000, malformed("anna"), small)
    yield Row(
        "a message after one that is malformed",
        [*PROLOGUE, TO_ANNA, TO_BEN, b"DATA", b"a\0", b".", PROLOGUE[1], TO_ANNA, b"DATA", *HELLO, b"QUIT"],
        [
            *[*OPENED, RECIPIENT_OK, RECIPIENT_OK, GO_AHEAD, malformed("anna"), malformed("ben")],
            *[SENDER_OK, RECIPIENT_OK, GO_AHEAD, stored("anna"), CLOSING],
        ],
        {"anna": record(HELLO_STORED, number=2), "ben": b""},
        ["--refuse-malformed"],
    )


def form(name, text, reply, words):
    """A message for anna of just these bytes."""
    kept = reply == stored("anna")
    held = text.replace(CRLF, b"\n")
    return Row(
        name,
        [*PROLOGUE, TO_ANNA, b"DATA", bytearray(text), b".", b"QUIT"],
        [*OPENED, RECIPIENT_OK, GO_AHEAD, reply, CLOSING],
        {"anna": record(held) if kept else b"", "ben": b""},
        words,
    )


def smuggled():
    """What looks like the end of the data and isn't: QUIT after it is content. By the rule a dot directly after CRLF
    is dropped, and a CR directly before LF."""
    texts_of = {
        b"\n.\n": b"\n.\n",
        b"\n.\r\n": b"\n.\n",
        b"\r\n.\n": b"\n\n",
        b"\r.\r": b"\r.\r",
        b"\r.\r\n": b"\r.\n",
        b"\r\n.\r": b"\n\r",
        b"\r\n.\0\r\n": b"\n\0\n",
        b"\r\n\0.\r\n": b"\n\0.\n",
        b"\r\0\n.\r\n": b"\r\0\n.\n",
        b"\r\n.\r\0\n": b"\n\r\0\n",
        b"\r\n.\r\r\n": b"\n\r\n",
        b"\r\n..\r\n": b"\n.\n",
        b"\r\n. \r\n": b"\n \n",
    }
    for end, text in texts_of.items():
        data = bytearray(b"a" + end + b"QUIT\r\nMAIL FROM:<eve@e.example>\r\n.\r\n")
        yield message(f"{end!r} ends no data", [data], b"a" + text + b"QUIT\nMAIL FROM:<eve@e.example>\n")


@dataclass
class Check:
    """Files that are checked: the name of each, its bytes (none where it is missing) and what is said of it, line by
    line."""

    name: str
    files: list

    def output(self):
        return "".join(f"{name} {line}\n" for name, _, said in self.files for line in said.split("\n")).encode()

    def status(self):
        return 0 if all(said.startswith("letters ") for _, _, said in self.files) else 1


def broken(place, letter, start):
    """What is said where that letter has no empty line at its end."""
    return f"no empty line at {place} in letter {letter} at {start}"


def with_nul(said, place, letter, start):
    """What is said of a file with a NUL there, in that letter."""
    return f"{said}\nNUL at {place} in letter {letter} at {start}"


def spoilt():
    """The first NUL of a file is told, after the line that the file would have without it: before the place that breaks
    the form, and no further, since nothing is read there."""
    letter = record(HELLO_STORED)
    nuls = b"\0" * 3_907
    whole = with_nul("letters 2", 189, 1, 0)
    kept = b"From a\nx\n"
    yield "a NUL in the first letter", b"From a\nx\0y\n\n" + letter, with_nul("letters 2", 8, 1, 0)
    yield "a NUL in the second letter", letter + b"From a\nx\0\n\n" + letter, with_nul("letters 3", 197, 2, 189)
    yield "a NUL in each letter", b"From a\0\n\n" * 3, with_nul("letters 3", 6, 1, 0)
    yield "a NUL in place of a From line's last byte", letter + b"From\0\n\n", with_nul("letters 1", 193, 1, 0)
    yield "NULs after a letter", letter + nuls, with_nul(broken(4_096, 1, 0), 189, 1, 0)
    yield "NULs after a letter, and the next one", letter + nuls + b"\n\n" + letter, whole
    yield "NULs and a part of a record, and the next letter", letter + nuls + b"x\n\n" + letter, whole
    after = with_nul("letters 3", 198, 2, 189)
    yield "NULs after a From line, and the next letter", letter + kept + nuls + b"\n\n" + letter, after
    yield "a NUL before a letter without its end", b"From a\0\nFrom b\n\n", with_nul(broken(12, 1, 0), 6, 1, 0)
    yield "a NUL after one without it", b"From a\nFrom b\n\0\n\n", broken(11, 1, 0)
    yield "NULs at the start", nuls + letter, "no From line at 0"
    yield "NULs within the first five bytes", b"Fro\0\0" + letter, "no From line at 3"


def tail_letter(text):
    """The letter that a tail behind ten bytes of one belongs to, and where it begins: its own once `From ` is whole."""
    return (2, 10) if text.startswith("From ") else (1, 0)


def tails():
    """A check doesn't mend a tail that breaks off: it says where it ends."""
    old = b"From a\nx\n\n"
    first = [("F", 1), ("From", 4)]
    then = ["F", "Fro", "From ", "From M", "From c@a Thu Ja", "From c@a Thu Jan  1 00:00:00 1970", "From here on"]
    rows = [(f"a tail of {text} alone", text.encode(), f"no From line at {at}") for text, at in first]
    rows += [(f"a tail of {text}", old + text.encode(), broken(10 + len(text), *tail_letter(text))) for text in then]
    filled = b"From MAILER-DAEMON Thu Jan  1 00:00:00 1970\n\n"
    return [*rows, ("a tail that was filled up", old + filled, "letters 2"), ("a tail that was filled up alone", filled, "letters 1")]


def checks():
    """A From line begins a letter at the head, and after an empty line. Places count from 0: the first byte that no
    mailbox has there, and at the end of the bytes the end itself."""
    letter = record(HELLO_STORED)
    rows = [
        ("no bytes", b"", "letters 0"),
        ("two letters", letter * 2, "letters 2"),
        ("letters beyond a buffer", letter * 1_000, "letters 1000"),
        ("a letter with no lines", b"From a\n\n", "letters 1"),
        ("an empty line inside a letter", b"From a\n\n\nFrom b\n\n", "letters 2"),
        ("lines that look like From lines", b"From a\n>From b\n>>From c\n\nFromage\nFrom\n\n", "letters 1"),
        ("text that is no mailbox", b"hello\n", "no From line at 0"),
        ("an empty line at the start", b"\n", "no From line at 0"),
        ("a prefix of From", b"Fro", "no From line at 3"),
        ("a frog", b"Frog\n\n", "no From line at 3"),
        ("From with no space", b"From\n\n", "no From line at 4"),
        ("a From line that breaks off", b"From a", broken(6, 1, 0)),
        ("a From line alone", b"From a x\n", broken(9, 1, 0)),
        ("a last line with no line feed", letter[:-2], broken(187, 1, 0)),
        ("no empty line at the end", letter[:-1], broken(188, 1, 0)),
        ("a second letter that breaks off", letter + letter[:-1], broken(377, 2, 189)),
        ("a From line after a line", b"From a\nb\nFrom c\n\n", broken(13, 1, 0)),
        ("a From line after a From line", b"From a\nFrom b\n\n", broken(11, 1, 0)),
        ("a third letter without one, and a fourth", letter * 3 + b"From b\nx\nFrom c\n\n", broken(580, 4, 567)),
        ("a thousandth letter without its end", letter * 1_000 + letter[:-1], broken(189_188, 1001, 189_000)),
        ("bytes above 127, NUL and CR", b"From \xff\n\0\r\n\r\n\n", with_nul("letters 1", 7, 1, 0)),
    ]
    for name, text, said in [*rows, *tails(), *spoilt()]:
        yield Check(name, [("anna.mbox", text, said)])
    # a second From line around the end of what is read at once
    for place in range(65_529, 65_539):
        front = b"From a\n" + b"x" * (place - 9)
        yield Check(f"an empty line, and a From line at {place}", [("a", front + b"\n\nFrom b\n\n", "letters 2")])
        late = front + b"x\nFrom b\n\n"
        yield Check(f"a line, and a From line at {place}", [("a", late, broken(place + 4, 1, 0))])
        told = with_nul("letters 2", place, 1, 0)
        yield Check(f"a NUL at {place}", [("a", front + b"xx\0\0\n\nFrom b\0\n\n", told)])
    yield Check("a missing file", [("nobody.mbox", None, "cannot read")])
    yield Check(
        "several files, in the order of the words",
        [
            ("ben.mbox", letter, "letters 1"),
            ("./anna.mbox", b"hello\n", "no From line at 0"),
            ("carla mbox", letter[:-1], broken(188, 1, 0)),
            ("nobody.mbox", None, "cannot read"),
            ("emil", b"From a\n\0\n\n", with_nul("letters 1", 7, 1, 0)),
            ("ben.mbox", letter, "letters 1"),
            ("dora", b"", "letters 0"),
        ],
    )
    yield Check("more files than may be open at once", [("anna.mbox", letter, "letters 1")] * 40)

"""The worked examples of addresses in UTF-8 (RFC 6531): what goes in, and every byte that comes out.

What is expected is written out here by the rules of the standards and by hand; nothing is taken from the program."""

import replies
from replies import CLOSING, GO_AHEAD, GREETING, OFFER, RECIPIENT_OK, SENDER_OK, stored
from rows import HELLO, HELLO_STORED, PROLOGUE, TO_ANNA, Row, record

WORD = ["--smtputf8"]
OFFERED = replies.offer(utf8=True)
NOTHING = {"anna": b"", "ben": b""}
TAKEN = [b"\xc3\xa4@a", b'"\xc3\xa4"@a', b"c@\xc3\xa4", b"\xf0\x9f\x93\xa7@a", b"\xf4\x8f\xbf\xbf", b"@\xc3\xa4:c@a"]
# overlong forms, surrogates, numbers above U+10FFFF, halves of characters; a byte after a backslash, one in brackets
REFUSED = [b"\xc0\x80", b"\xe0\x9f\xbf", b"\xf0\x8f\xbf\xbf", b"\xed\xa0\x80", b"\xed\xbf\xbf", b"\xf4\x90\x80\x80"]
REFUSED += [b"\xf5\x80\x80\x80", b"\xc3", b"\xa4", b"c@\xc3", b"@\xc0\x80:c@a", b'"\\\xc3\xa4"', b"c@[\xc3\xa4]"]


def rows():
    yield from letters()
    yield from addresses()
    yield from parameters()


def letters():
    """A message whose MAIL has the parameter, and one whose MAIL hasn't."""
    for parameter, size in [(b" SMTPUTF8", 193), (b" smtputf8 SIZE=9", 193), (b"", 189)]:
        text = record(HELLO_STORED, protocol=b"UTF8LMTP" if parameter else b"LMTP")
        assert len(text) == size
        yield Row(
            f"UTF-8: one message, and MAIL with `{parameter.decode()}`",
            [PROLOGUE[0], PROLOGUE[1] + parameter, TO_ANNA, b"DATA", *HELLO, b"QUIT"],
            [GREETING, *OFFERED, SENDER_OK, RECIPIENT_OK, GO_AHEAD, stored("anna"), CLOSING],
            {"anna": text, "ben": b""},
            WORD,
        )
    sender = b"j\xc3\xbcrgen@b\xc3\xbc.example"
    subject = b"Subject: Gr\xc3\xbc\xc3\x9fe"
    yield Row(
        "UTF-8: sender and subject",
        [PROLOGUE[0], b"MAIL FROM:<" + sender + b"> SMTPUTF8", TO_ANNA, b"DATA", subject, b"", b".", b"QUIT"],
        [GREETING, *OFFERED, SENDER_OK, RECIPIENT_OK, GO_AHEAD, stored("anna"), CLOSING],
        {"anna": record(subject + b"\n\n", sender=sender, protocol=b"UTF8LMTP"), "ben": b""},
        WORD,
    )
    yield Row(
        "UTF-8: of two messages the first has the parameter",
        [PROLOGUE[0], PROLOGUE[1] + b" SMTPUTF8", TO_ANNA, b"DATA", b".", PROLOGUE[1], TO_ANNA, b"DATA", b".", b"QUIT"],
        [GREETING, *OFFERED, *[SENDER_OK, RECIPIENT_OK, GO_AHEAD, stored("anna")] * 2, CLOSING],
        {"anna": record(b"", protocol=b"UTF8LMTP") + record(b"", number=2), "ben": b""},
        WORD,
    )


def addresses():
    senders = [b"MAIL FROM:<" + sender + b">" for sender in TAKEN]
    yield Row(
        "UTF-8: senders that are in it",
        [PROLOGUE[0], *[line for sender in senders for line in (sender, b"RSET")], b"QUIT"],
        [GREETING, *OFFERED, *[SENDER_OK, replies.RESET_OK] * len(senders), CLOSING],
        NOTHING,
        WORD,
    )
    senders = [b"MAIL FROM:<" + sender + b"> SMTPUTF8" for sender in REFUSED]
    yield Row(
        "UTF-8: senders that aren't in it, and bytes where ASCII must be",
        [PROLOGUE[0], *senders, b"LHLO \xc3\xa4", b"QUIT"],
        [GREETING, *OFFERED, *[replies.BAD_SENDER] * len(senders), replies.BAD_CLIENT_NAME, CLOSING],
        NOTHING,
        WORD,
    )
    yield Row(
        "UTF-8: a sender of 254 bytes, and one of 255",
        [PROLOGUE[0], b"MAIL FROM:<%s\xc3\xa4>" % (b"x" * 253), b"MAIL FROM:<%s\xc3\xa4>" % (b"x" * 252), b"QUIT"],
        [GREETING, *OFFERED, replies.BAD_SENDER, SENDER_OK, CLOSING],
        NOTHING,
        WORD,
    )
    recipients = [b"anna+\xc3\xbc", b"\xc3\xa4", b"anna@b\xc3\xbc.example", b"anna@[\xc3\xbc]", b"\xc3"]
    lines = [*PROLOGUE, *[b"RCPT TO:<" + recipient + b">" for recipient in recipients], b"QUIT"]
    refused = [replies.BAD_RECIPIENT] * 2
    for words, first, third in [
        ([], replies.NO_SUCH_BOX, replies.NO_SUCH_BOX),
        (["--recipient-delimiter", "+"], RECIPIENT_OK, replies.NO_SUCH_BOX),
        (["--domains", "*"], replies.NO_SUCH_BOX, RECIPIENT_OK),
        (["--domains", "b.example,*", "--recipient-delimiter", "+"], RECIPIENT_OK, RECIPIENT_OK),
    ]:
        yield Row(
            f"UTF-8: recipients, {' '.join(words) or 'no further words'}",
            lines,
            [GREETING, *OFFERED, SENDER_OK, first, replies.NO_SUCH_BOX, third, *refused, CLOSING],
            NOTHING,
            [*WORD, *words],
        )
    yield Row(
        "each domain is served, but no address in brackets",
        [*PROLOGUE, *[b"RCPT TO:<anna%s>" % host for host in (b"@a", b"@mx.example", b"", b"@[127.0.0.1]")], b"QUIT"],
        [GREETING, *OFFER, SENDER_OK, *[RECIPIENT_OK] * 3, replies.NO_SUCH_BOX, CLOSING],
        NOTHING,
        ["--domains", "*"],
    )


def parameters():
    mail = PROLOGUE[1]
    yield Row(
        "UTF-8: the parameter with a value, twice, beside one that isn't known, of RCPT",
        [
            PROLOGUE[0],
            *[mail + b" SMTPUTF8" + more for more in (b"=", b"=1", b" SMTPUTF8", b" SIZE=1 smtputf8", b" RET=FULL")],
            mail,
            b"RCPT TO:<anna> SMTPUTF8",
            b"QUIT",
        ],
        [
            GREETING,
            *OFFERED,
            *[replies.BAD_ARGUMENTS] * 4,
            *[replies.UNKNOWN_PARAMETER, SENDER_OK, replies.UNKNOWN_PARAMETER, CLOSING],
        ],
        NOTHING,
        WORD,
    )
    yield Row(
        "UTF-8 where it isn't offered",
        [
            *[PROLOGUE[0], mail + b" SMTPUTF8", *[b"MAIL FROM:<" + sender + b">" for sender in TAKEN]],
            *[mail, b"RCPT TO:<anna@\xc3\xa4>", b"QUIT"],
        ],
        [
            *[GREETING, *OFFER, replies.UNKNOWN_PARAMETER, *[replies.BAD_SENDER] * len(TAKEN)],
            *[SENDER_OK, replies.BAD_RECIPIENT, CLOSING],
        ],
        NOTHING,
    )

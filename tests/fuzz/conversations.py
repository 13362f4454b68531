"""Random conversations: made by the grammar, and then broken."""

import replies

CLIENTS = [b"relay.example", b"[127.0.0.1]", b"x", b"a" * 255, b"a" * 256, b"", b"a b", b"<a>"]
SENDERS = [
    b"<carl@a.example>",
    b"<>",
    b"<@r.example:d@e.example>",
    b'<"a b\\"c"@d.example>',
    b"carl@a.example",
    b"<a@b",
    b"< >",
    b"<\xc3\xa4@\xe2\x82\xac.example>",
    b'<"\xf0\x9f\x93\xa7 "@a>',
    b"<@\xc3\xa4,@b:c@d>",
    b"<\xc0\x80@a>",
    b"<\xed\xa0\x80>",
    b'<"\\\xc3\xa4"@a>',
    b"<%s\xc3\xa4>" % (b"x" * 252),
]
RECIPIENTS = [
    b"<anna>",
    b"<ben@mx.example>",
    b'<"An\\na"@MX.EXAMPLE>',
    b"<postmaster>",
    b"<zoe@mx.example>",
    b"<anna@[1.2.3.4]>",
    b"<anna@other.example>",
    b"anna",
    b"<ann\xc3\xa4>",
    b"<anna@\xc3\xa4>",
    b"<anna@\xf4\x90\x80\x80>",
]
PARAMETERS = [
    b"",
    b" SIZE=10",
    b" size=%d" % (replies.MESSAGE_LIMIT + 1),
    b" BODY=8BITMIME",
    b" SIZE=1 SIZE=2",
    b" SIZE",
    b" =",
    b" RET=FULL",
    b"  ",
    b" SMTPUTF8",
    b" smtputf8 SIZE=10",
    b" SMTPUTF8=",
    b" SMTPUTF8 SMTPUTF8",
]
LINES = [
    b"hello",
    b"",
    b".",
    b"..",
    b".a",
    b"From x",
    b">From x",
    b">>>From ",
    b"From a Thu Jan  1 00:00:00 1970",
    b"x" * 510,
    b"x" * 511,
    b"x" * 1023,
    b"\xff\x00\x80",
    b"a\rb",
    b"a\nFrom y",
    b"\r",
    b"mailbox anna 7",
    b"QUIT",
    b"status: RO",
    b"X-Was-X-Was-X-UID 7",
    b"Content-Length : 9",
    b"X-Status\0: D",
    b"x-uid\v",
    b"a\rX-IMAPbase: 7 4294967295",
    b"X-Was-\rX-Keywords",
]
ALONE = [
    b"RSET",
    b"NOOP",
    b"NOOP x",
    b"VRFY anna",
    b"EXPN all",
    b"HELP",
    b"HELO a",
    b"EHLO a",
    b"DATA",
    b"QUIT x",
    b"",
    b" ",
    b"AUTH",
    b"x" * 1022,
]
INSERTED = [b"\r", b"\n", b"\0", b"\r\n", b".", b"\r\n.\r\n", b"\n.\n", b"\r.\r", b"From ", b" ", b"\xff", b"\xc3\xa4"]
INSERTED += [b"X-Was-", b"Status:", b"\rX-Status:"]


def made(random):
    """The lines of a conversation as a client might hold it."""
    yield b"LHLO " + (random.choice(CLIENTS) if random.random() < 0.2 else CLIENTS[0])
    for _ in range(random.randrange(4)):
        yield from transaction(random)
        if random.random() < 0.3:
            yield random.choice(ALONE)
    if random.random() < 0.8:
        yield b"QUIT"


def one_of_the_first(random, options, counts):
    """One of the first options: of as many as one of the counts says, so that the first ones come more often."""
    return random.choice(options[: random.choice(counts)])


def transaction(random):
    sender = one_of_the_first(random, SENDERS, [1, 3, 7, len(SENDERS)])
    yield b"MAIL FROM:" + sender + one_of_the_first(random, PARAMETERS, [1, 4, 9, len(PARAMETERS)])
    for _ in range(random.choice([0, 1, 1, 2, 3, 8, 101 if random.random() < 0.02 else 1])):
        yield b"RCPT TO:" + one_of_the_first(random, RECIPIENTS, [2, len(RECIPIENTS)])
    yield b"DATA"
    for _ in range(random.choice([0, 1, 3, 10])):
        line = random.choice(LINES)
        yield b"." + line if line.startswith(b".") and random.random() < 0.9 else line
    yield b"."


def broken(random, text):
    """The text with some bytes dropped, doubled, put in or changed, or cut off."""
    text = bytearray(text)
    for _ in range(random.choice([0, 0, 1, 2, 5])):
        at = random.randrange(len(text) + 1)
        until = min(len(text), at + random.choice([1, 1, 2, 30]))
        change = random.randrange(5)
        if change == 0:
            del text[at:until]
        elif change == 1:
            text[at:at] = text[at:until]
        elif change == 2:
            text[at:at] = random.choice(INSERTED)
        elif change == 3:
            text[at:until] = random.randbytes(until - at)
        elif random.random() < 0.3:
            del text[at:]
    return bytes(text)


def conversation(random):
    text = b"".join(line + b"\r\n" for line in made(random))
    return broken(random, text)


def pieces(random, text):
    """The text cut into pieces, at most fifty, or whole."""
    if random.random() < 0.7:
        return [text]
    cuts = sorted(random.randrange(len(text) + 1) for _ in range(random.randrange(50)))
    return [text[at:until] for at, until in zip([0, *cuts], [*cuts, len(text)])]

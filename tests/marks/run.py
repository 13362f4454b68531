"""Plays heads with marks on the built program, for tests/marks.sh."""

import os
import random
import re
import subprocess
import sys

import replies
from cases import case, equal, run_all
from reading import NAMES, WAS, marked, plain_address, quoted, unix, unmarked, unquoted

LMTPD = os.path.abspath(os.environ["LMTPD"])
MESSAGES, SEED = int(sys.argv[1]), sys.argv[2]
AT_ONCE = 50  # messages of one conversation
SECONDS = 20  # that a conversation may take

# what the head of a message has, and what the mailbox has of it
ROWS = [
    (b"status: RO", b"X-Was-status: RO"),
    (b"X-Was-Status: x", b"X-Was-X-Was-Status: x"),
    (b"x-was-Status: x", b"x-was-Status: x"),
    (b"X-UIDL: 1", b"X-UIDL: 1"),
    (b"XStatus: a", b"XStatus: a"),
    (b"Subject: x\r\n Status: a", b"Subject: x\n Status: a"),
    (b"Status", b"Status"),
    (b"Content-Length : 7", b"X-Was-Content-Length : 7"),
    (b"Subject: x\r\n\r\nStatus: RO", b"Subject: x\n\nStatus: RO"),
    (b"Subject: x\rStatus: RO", b"Subject: x\rX-Was-Status: RO"),
    (b"Status: RO\r\nno head at all", b"X-Was-Status: RO\nno head at all"),
    (b"X-Status: D\r\nX-UID: 1\r\nX-Keywords: a\r\n", b"X-Was-X-Status: D\nX-Was-X-UID: 1\nX-Was-X-Keywords: a\n"),
    (b"X-IMAP: 1 2\r\nX-IMAPbase: 7 4294967295", b"X-Was-X-IMAP: 1 2\nX-Was-X-IMAPbase: 7 4294967295"),
    (b"\r\r\nStatus: a", b"\r\nX-Was-Status: a"),
    (b"a: b\n\nStatus: a", b"a: b\n\nStatus: a"),
    (b"Content-Length:", b"X-Was-Content-Length:"),
    (b"Status\0: RO", b"X-Was-Status\0: RO"),
    (b"status\v", b"X-Was-status\v"),
    (b"X-UID\f1", b"X-Was-X-UID\f1"),
    (b"Status\x01: RO", b"Status\x01: RO"),
]
SENDER = b"carl@a.example"
# what ends no name, or a name with a field after it
OTHER_ENDS = [b"", b"\r", b"From x", b"s: 1", b": a\r\n Status: b"]


def head(sender, number, address=None):
    """The From line and the trace lines."""
    return (
        b"From %s Thu Jan  1 00:00:00 1970\nReturn-Path: <%s>\nReceived: from relay.example\n"
        b"\tby mx.example with LMTP id 0-%d;\n\tThu, 1 Jan 1970 00:00:00 +0000\n"
    ) % (address or sender, sender, number)


def stored(messages, words=("--rename-marks",), sender=SENDER):
    """The bytes of anna's mailbox after these messages of one conversation."""
    given = [b"LHLO relay.example"]
    for message in messages:
        data = re.sub(rb"(\A|\r\n)\.", rb"\1..", message)
        given += [b"MAIL FROM:<%s>" % sender, b"RCPT TO:<anna>", b"DATA", data + b"."]
    given += [b"QUIT", b""]
    ended = subprocess.run(
        [LMTPD, "rehearse", "--host", "mx.example", "--time", "0", *words, "anna"],
        input=b"\r\n".join(given),
        capture_output=True,
        timeout=SECONDS,
    )
    equal((ended.returncode, ended.stderr), (0, b""))
    equal(ended.stdout.count(replies.stored("anna").encode()), len(messages))
    found = re.search(rb"^mailbox anna (\d+)\n", ended.stdout, re.MULTILINE)
    text = ended.stdout[found.end() :]
    equal(len(text), int(found[1]))
    return text


def records(texts, sender=SENDER, address=None):
    """The mailbox that has these texts, one a message."""
    parts = [head(sender, number, address) + quoted(text) + b"\n" for number, text in enumerate(texts, 1)]
    return b"".join(parts)


@case
def each_row(_):
    """each worked example, and a reading of the definition in Python says the same"""
    for came, kept in ROWS:
        message = came + b"\r\n"
        equal(marked(unix(message)), kept + b"\n")
        equal(stored([message]), records([kept + b"\n"]))


@case
def address(_):
    """the address on the From line is one word, and Return-Path has the sender as it is"""
    for sender, plain in [(b'"a b\\""@c', b"-a-b---@c"), (b'"\\\\"@a.example', b"----@a.example"), (b"", b"MAILER-DAEMON")]:
        equal(plain_address(sender) or b"MAILER-DAEMON", plain)
        equal(stored([b"a\r\n"], sender=sender), records([b"a\n"], sender, plain))


@case
def without_the_word(_):
    """without the word heads stay, and so does the address"""
    messages = [came + b"\r\n" for came, _ in ROWS]
    equal(stored(messages, words=()), records([unix(message) for message in messages]))
    equal(stored([b"a\r\n"], words=(), sender=b'"a b"@c'), records([b"a\n"], b'"a b"@c'))


def made(chance):
    """A message of parts that marks are made of, whole or broken, anywhere in the lane's reads."""
    parts = [b"Subject: x%s\r\n" % (b"x" * chance.randrange(1100))] if chance.random() < 0.4 else []
    for _ in range(chance.choice([0, 1, 2, 3, 5, 12])):
        parts.append(part(chance))
    text = bytearray(b"".join(parts))
    for _ in range(chance.choice([0, 0, 1, 3])):
        at = chance.randrange(len(text) + 1)
        if chance.random() < 0.5:
            del text[at : at + 1]
        else:
            text[at:at] = chance.choice([b"\r", b"\n", b"\r\n", b":", b" ", b"\t", b"x", b"X-Was-", b".", b"\0", b"\xff"])
    return bytes(text) + b"\r\n" if text else b""


def part(chance):
    """A field or a piece of one."""
    name = bytearray(chance.choice(NAMES))
    if chance.random() < 0.6:
        name = bytes(chance.choice([byte, byte ^ 32 if chr(byte).isalpha() else byte]) for byte in name)
    if chance.random() < 0.2:
        name = name[: chance.randrange(len(name) + 1)] + chance.choice([b"", b"l", b"-", b"7"])
    before = WAS * chance.choice([0, 0, 0, 1, 1, 2, 3])
    if chance.random() < 0.1:
        before = before[: chance.randrange(len(before) + 1)] or b"x-was-"
    after = chance.choice([b":", b": RO", b" : 7", b" ", b"\t1", b"\0: RO", b"\v", b"\f1", *OTHER_ENDS])
    end = chance.choice([*8 * [b"\r\n"], b"\n", b"\r", b"\r\r\n", b"\r\n\r\n", b"\n\n", b"\r\n\r\r\n", b""])
    return chance.choice([*9 * [b""], b" ", b">", b"From "]) + before + bytes(name) + after + end


@case
def random_heads(_):
    """random heads are stored as the reading in Python says, and undone there they are the messages again"""
    renamed = 0
    for first in range(0, MESSAGES, AT_ONCE):
        chance = random.Random(f"{SEED} {first}")
        messages = [made(chance) for _ in range(min(AT_ONCE, MESSAGES - first))]
        texts = [unix(message) for message in messages]
        kept = [marked(text) for text in texts]
        renamed += sum(one != other for one, other in zip(kept, texts))
        found = stored(messages)
        if found != records(kept):
            alone = [message for message, text in zip(messages, kept) if stored([message]) != records([text])]
            raise AssertionError(f"messages {first} on: {alone!r:.3000}")
        undone(found, texts)
    equal(renamed > MESSAGES // 4, True)


def undone(mailbox, texts):
    """Each letter of the mailbox, its quoting taken away and then its renaming, is the message."""
    for number, text in enumerate(texts, 1):
        mailbox = mailbox.removeprefix(head(SENDER, number))
        following = head(SENDER, number + 1)
        body, found, rest = mailbox.partition(b"\n" + following)
        equal(bool(found), number < len(texts))
        body = body if found else body.removesuffix(b"\n")
        equal(unmarked(unquoted(body)), text if not text or text.endswith(b"\n") else text + b"\n")
        mailbox = following + rest


random_heads.seconds = 600
sys.exit(run_all([]))

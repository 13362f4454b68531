#!/usr/bin/env bash
# Mailboxes that the program writes, as others read them: it rehearses messages whose lines look like From lines, and
# one from a sender in UTF-8, and `git mailsplit --mboxrd` and Python's `mailbox` must find the same letters, in their
# order. The other way, the mailbox that a test of `read_mailbox` takes as Python's must be what Python writes here.
# It prints one line a case, and fails where a case does. LMTPD names a program that is built already.
set -euo pipefail
cd "$(dirname "$0")/.."
. tests/needs git python3
. tests/built_program
exec python3 -B - <<'PYTHON'
import mailbox
import os
import pathlib
import re
import subprocess
import sys
import tempfile
import time

from cases import compare, sum_up

TEST = pathlib.Path("crates/mbox_letters/src/reading/tests.rt.in")
DATE = b"Thu Jan  1 00:00:00 1970"
BOXES = ["anna", "ben"]
# the sender, the recipients, and the message in lines without their ends
MESSAGES = [
    (b"carl@a.example", ["anna"], [b"Subject: plain", b"", b"hello"]),
    (b"", ["anna", "ben"], [b"From x", b">From x", b">>From x", b" From x", b">", b"From", b">From"]),
    (b"dora@b.example", ["ben"], []),
    (b"carl@a.example", ["anna"], [b"", b"", b"From a " + DATE, b"", b""]),
    (b"dora@b.example", ["ben", "anna"], [b"From:", b"..", b"\xff\x00\t", b"a\rb", b"c\r", b">" * 3000 + b"From "]),
    (b"carl@a.example", ["ben"], [b"x" * 5000, b""] * 3),
    (b"j\xc3\xbcrgen@b\xc3\xbc.example", ["anna", "ben"], [b"Subject: Gr\xc3\xbc\xc3\x9fe", b"", b"From here"]),
    (b"carl@a.example", ["anna"], [b"Subject: after it"]),
]


def dialogue():
    yield b"LHLO relay.example"
    for sender, boxes, lines in MESSAGES:
        yield b"MAIL FROM:<" + sender + b">"
        for box in boxes:
            yield b"RCPT TO:<" + box.encode() + b">"
        yield b"DATA"
        for line in lines:
            yield b"." + line if line.startswith(b".") else line
        yield b"."
    yield b"QUIT"


def letters(box):
    """Head and body of each letter that the mailbox is to hold."""
    for number, (sender, boxes, lines) in enumerate(MESSAGES, 1):
        trace = [
            b"Return-Path: <" + sender + b">",
            b"Received: from relay.example",
            b"\tby mx.example with LMTP id 0-%d;" % number,
            b"\tThu, 1 Jan 1970 00:00:00 +0000",
        ]
        if box in boxes:
            head = (sender or b"MAILER-DAEMON") + b" " + DATE
            yield head, b"".join(line + b"\n" for line in trace + lines)


def rehearse():
    """The bytes of each mailbox that the program prints after the replies."""
    words = [os.environ["LMTPD"], "rehearse", "--host", "mx.example", "--time", "0", "--smtputf8", *BOXES]
    given = b"".join(line + b"\r\n" for line in dialogue())
    said = subprocess.run(words, input=given, stdout=subprocess.PIPE, check=True).stdout
    written, at = {}, 0
    for box in BOXES:
        found = re.compile(rb"^mailbox %s (\d+)\n" % box.encode(), re.MULTILINE).search(said, at)
        at = found.end() + int(found[1])
        written[box] = said[found.end() : at]
    return written


def by_git(path):
    with tempfile.TemporaryDirectory() as folder:
        subprocess.run(
            ["git", "mailsplit", "--mboxrd", "--keep-cr", f"-o{folder}", path], stdout=subprocess.DEVNULL, check=True
        )
        for name in sorted(os.listdir(folder)):
            first, rest = pathlib.Path(folder, name).read_bytes().split(b"\n", 1)
            # it leaves the empty line after the letter
            yield first.removeprefix(b"From "), rest.removesuffix(b"\n")


def by_python(path):
    box = mailbox.mbox(path, create=False)
    for key in box.iterkeys():
        first, rest = box.get_bytes(key, from_=True).split(b"\n", 1)
        # it leaves the quoting
        yield first.removeprefix(b"From "), re.sub(rb"^>(>*From )", rb"\1", rest, flags=re.MULTILINE)
    box.close()


def of_python(path):
    """The mailbox of the test, as Python writes it."""
    box = mailbox.mbox(path, create=True)
    for sender, text in [
        ("carl@a.example", b"Subject: one\n\nFrom here on\nend\n"),
        ("dora@b.example", b"Subject: two\n\nno line end"),
        ("MAILER-DAEMON", b"\n"),
    ]:
        message = mailbox.mboxMessage(text)
        message.set_from(sender, time.gmtime(0))
        box.add(message)
    box.close()
    return pathlib.Path(path).read_bytes()


def main():
    with tempfile.TemporaryDirectory() as folder:
        for box, written in rehearse().items():
            path = os.path.join(folder, box)
            pathlib.Path(path).write_bytes(written)
            sent = list(letters(box))
            for reader, read in [("git mailsplit --mboxrd", by_git), ("Python's mailbox", by_python)]:
                compare(f"{reader} finds the {len(sent)} letters of {box}", list(read(path)), sent)
        constant = TEST.read_bytes().split(b'const PYTHON: &[u8] = b"', 1)[1].split(b'";', 1)[0]
        written = of_python(os.path.join(folder, "python"))
        compare("the test of read_mailbox takes what Python's mailbox writes", constant, written)
    sys.exit(sum_up())


main()
PYTHON

"""The letters that `git mailsplit --mboxrd` and Python's `mailbox` find in a mailbox's file."""

import mailbox
import os
import pathlib
import re
import subprocess
import tempfile
from typing import NamedTuple

from cases import equal

HEAD = re.compile(
    rb"\S+ [A-Z][a-z]{2} [A-Z][a-z]{2} [ 0-9]\d \d\d:\d\d:\d\d \d{4}\n"
    rb"Return-Path: <(?P<sender>[^>]*)>\n"
    rb"Received: from (?P<client>\S+)\n"
    rb"\tby mx\.example with LMTP id \d+-\d+;\n"
    rb"\t[A-Z][a-z]{2}, \d+ [A-Z][a-z]{2} \d{4} \d\d:\d\d:\d\d \+0000\n"
)


class Letter(NamedTuple):
    sender: str
    client: str
    message: bytes  # with LF for CRLF


def read(path):
    """The letters of a mailbox, in which both readers agree."""
    letters = list(by_git(path))
    equal(list(by_python(path)), letters)
    return [letter_of(text) for text in letters]


def messages(path):
    return [letter.message for letter in read(path)]


def by_git(path):
    if os.path.getsize(path) == 0:
        return  # for it no mailbox at all
    with tempfile.TemporaryDirectory() as folder:
        words = ["git", "mailsplit", "--mboxrd", "--keep-cr", "-d8", f"-o{folder}", path]
        subprocess.run(words, stdout=subprocess.DEVNULL, check=True)
        for name in sorted(os.listdir(folder)):
            # it leaves the empty line after the letter
            yield pathlib.Path(folder, name).read_bytes().removeprefix(b"From ").removesuffix(b"\n")


def by_python(path):
    box = mailbox.mbox(path, create=False)
    for key in box.iterkeys():
        # it leaves the quoting
        yield unquoted(box.get_bytes(key, from_=True).removeprefix(b"From "))
    box.close()


def unquoted(text):
    return re.sub(rb"^>(>*From )", rb"\1", text, flags=re.MULTILINE)


def letter_of(text):
    head = HEAD.match(text)
    assert head, text[:300]
    return Letter(head["sender"].decode(), head["client"].decode(), text[head.end() :])

"""Whether mailboxes have the letters that clients were told of: each whole, once and in its client's order, as git,
Python and Dovecot's IMAP read them. Letters that nobody was told of, torn ones too, may stand between them. The one
that was told last before a power cut may have gained lines: it begins with all its own."""

import collections
import pathlib
import re
import shutil
import tempfile
from typing import NamedTuple

import letters
from cases import equal
from dovecot import Dovecot

# What the server puts before a letter of carl's from relay.example, in which both dates are of one moment. Dovecot
# doesn't show the first line, and shows CRLF for LF.
FROM_LINE = re.compile(rb"carl@a\.example \w{3} (?P<month>\w{3}) (?P<day>[ \d]\d) (?P<time>[\d:]{8}) (?P<year>\d{4})\n")
TRACE = re.compile(
    rb"Return-Path: <carl@a\.example>\n"
    rb"Received: from relay\.example\n"
    rb"\tby mx\.example with LMTP id \d+-\d+;\n"
    rb"\t\w{3}, (?P<day>\d+) (?P<month>\w{3}) (?P<year>\d{4}) (?P<time>[\d:]{8}) \+0000\n"
)


def judge(held, told, first_after=()):
    """Of each mailbox the bytes that it holds, once a server has stored a last letter there, and the messages that were
    told 250, of each client in its order; then those of them that were the first ones told after a power cut. Says of
    each mailbox which messages gained lines, as git has them: each was the last one told before a cut."""
    gained = {}
    with tempfile.TemporaryDirectory() as place:
        folder = pathlib.Path(place)
        with Dovecot(folder, folder / "inbox") as dovecot, dovecot.login() as client:
            for name, bytes_held in held.items():
                path = dovecot.folder / "home" / name
                path.write_bytes(bytes_held)
                shutil.chown(path, "mail", "mail")
                found = {"git": with_from_line(letters.by_git(path)), "Python": with_from_line(letters.by_python(path))}
                found["Dovecot"] = filter(None, map(message_of, by_dovecot(client, name)))
                whole = {reader: whole_ones(messages, told[name]) for reader, messages in found.items()}
                for reader, ones in whole.items():
                    equal((name, reader, faults_of(ones, told[name], first_after)), (name, reader, {}))
                gained[name] = [one.message for one in whole["git"] if one.more]
    return gained


class Whole(NamedTuple):
    """A letter in which a message that was told stands whole."""

    message: bytes
    more: bytes  # the lines behind it, which it gained


def whole_ones(found, told):
    """Those of the letters found. Each message has a first line of its own."""
    by_first_line = {first_line(message): message for message in told}
    wanted = [(text, by_first_line.get(first_line(text))) for text in found]
    return [Whole(one, text[len(one) :]) for text, one in wanted if one and (text + b"\n").startswith(one + b"\n")]


def faults_of(whole, told, first_after):
    """What is wrong with the whole letters that a reader found, by the first line of each."""
    messages = [one.message for one in whole]
    times = collections.Counter(messages)
    faults = {"lost": [one for one in told if not times[one]], "doubled": [one for one in told if times[one] > 1]}
    if not any(faults.values()) and by_client(messages) != by_client(told):
        faults["out of order"] = told
    after = [*messages[1:], None]
    faults["changed"] = [one.message for one, then in zip(whole, after) if one.more and then not in first_after]
    return {fault: [first_line(one) for one in ones] for fault, ones in faults.items() if ones}


def first_line(text):
    return text.partition(b"\n")[0]


def by_client(messages):
    """Those of each client, whose name stands before the last dot of the first word."""
    found = collections.defaultdict(list)
    for message in messages:
        found[message.split()[0].rpartition(b".")[0]].append(message)
    return found


def with_from_line(texts):
    """The messages of whole letters."""
    for text in texts:
        head = FROM_LINE.match(text)
        message = head and message_of(text[head.end() :], head.groupdict())
        if message is not None:
            yield message


def message_of(text, moment=None):
    """What a letter has after the lines that the server put there, which say that moment; None where it lacks one."""
    trace = TRACE.match(text)
    if trace is None or moment and any(moment[part].strip() != trace[part] for part in moment):
        return None
    return text[trace.end() :]


def by_dovecot(client, name):
    """The letters of the mailbox of that name, with the quoting undone; none where it takes it for no mailbox."""
    answer, [count] = client.select(name, readonly=True)
    if answer != "OK" or count == b"0":
        return
    _, parts = client.fetch("1:*", "(BODY.PEEK[])")
    for part in parts:
        if isinstance(part, tuple):
            yield letters.unquoted(part[1].replace(b"\r\n", b"\n"))

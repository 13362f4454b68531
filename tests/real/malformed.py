"""What a sender can do to a mailbox by NUL bytes and by long lines, by hand and through relays. With
`--refuse-malformed` such a message is told 554, nothing of it is stored, and the others are as they were.

With DAMAGE=yes the server is run without that word, and each case needs the harm to be done: Dovecot 2.3.19.1 and mutt
2.2.12 take a name that ends in a NUL for a mark, and mutt reads by 8,191 bytes, so that what follows them begins a line
for it.
"""

import imaplib
import os
import re
import shutil
import smtplib

from cases import case, equal
from clients import Client
from marks_of_senders import DIGITS, count_by_dovecot, flags_by_dovecot, is_in_mutt, letter, opened
from mutt import Mutt
from opensmtpd_delivers import opensmtpd, sending, tried
from postfix import Postfix
from replies import malformed, stored
from server import Server

DAMAGE = os.environ.get("DAMAGE") == "yes"
WORDS = ["--rename-marks", *([] if DAMAGE else ["--refuse-malformed"])]
MANY = 1_000
LONG = "x" * 8_191
# What a long line ends with, and what comes after it: for mutt a letter of its own.
FORGED = [
    f"{LONG}From e@vil.example Thu Jan  1 00:00:00 1970",
    "From: <boss@mx.example>",
    "Subject: you won",
    "Content-Length: {length}",
    "",
    "boo",
]
OTHERS = ["two", "three"]
WON = "~s won"


def deliver(server, lines):
    """The reply to a letter of these lines."""
    with Client(server.address).greet() as client:
        for line in ["MAIL FROM:<carl@a.example>", "RCPT TO:<anna@mx.example>", "DATA"]:
            equal(client.ask(line)[:3] in ["250", "354"], True)
        # one text, since a bare CR or a NUL stands in some
        client.socket.sendall("\r\n".join([*lines, ".", ""]).encode())
        told = client.hear()
        client.quit()
    return told


def served(folder):
    folder.mkdir()
    return Server(folder, ["anna"], MANY, "--lanes", 1, *WORDS)


def mailbox_after(folder, lines):
    """The file of a mailbox to which a letter of these lines came, and then two others."""
    with served(folder) as server:
        equal(deliver(server, lines), stored("anna") if DAMAGE else malformed("anna"))
        deliver_others(server)
    return server.mailbox("anna")


def deliver_others(server):
    for name in OTHERS:
        equal(deliver(server, letter(name)[1]), stored("anna"))


def subjects(path):
    return [found.decode() for found in re.findall(rb"(?m)^Subject: (.*)$", path.read_bytes())]


@case
def a_mark_that_ends_in_a_nul(folder):
    """Status, NUL, ": RO": told 554; without the word Dovecot takes the letter for read"""
    path = mailbox_after(folder / "mail", letter("one", "Status\0: RO")[1])
    equal([b"\\Seen" in flags for flags in flags_by_dovecot(folder, path)][:1], [DAMAGE])


@case
def a_mark_over_two_lines(folder):
    """X-S, NUL, and on the next line "tatus: D": told 554; without the word mutt takes the letter for deleted"""
    path = mailbox_after(folder / "mail", letter("one", "X-S\0", "tatus: D")[1])
    equal(is_in_mutt(folder, path, "~D"), DAMAGE)


@case
def numbers_that_end_in_a_nul(folder):
    """X-IMAPbase, NUL, ": 7 4294967295": told 554; without the word Dovecot can't open the mailbox"""
    path = mailbox_after(folder / "mail", letter("one", "X-IMAPbase\0: 7 4294967295")[1])
    try:
        found = count_by_dovecot(folder, path)
    except (imaplib.IMAP4.error, OSError):
        found = "broken"
    equal(found, "broken" if DAMAGE else len(OTHERS))


@case
def a_length_that_ends_in_a_nul(folder):
    """Content-Length, NUL, exact by guess: told 554; without the word who deletes that letter by Dovecot deletes the
    next one too"""

    def lines_of(length):
        return letter("one", f"Content-Length\0: {length}")[1]

    guess = mailbox_after(folder / "guess", lines_of(DIGITS)).read_bytes()
    length = length_to_the_third(guess, guess.find(b"\n\n") + 2)
    path = mailbox_after(folder / "mail", lines_of(length))
    equal(subjects(path), ["one"] * DAMAGE + OTHERS)
    equal(left_by_dovecot(folder, path, "one"), OTHERS[DAMAGE:])


def length_to_the_third(text, at):
    """The bytes from that place to the empty line before the third letter; where the first one was refused, any."""
    third = [found.start() for found in re.finditer(rb"(?m)^From ", text)][2:]
    return f"{third[0] - 1 - at:0{len(DIGITS)}}" if third else DIGITS


def left_by_dovecot(folder, path, subject):
    """The subjects that the inbox has once the user deleted the letters of that one."""
    with opened(folder, path) as dovecot:
        with dovecot.login() as client:
            equal(client.select("INBOX")[0], "OK")
            for number in client.search(None, "SUBJECT", subject)[1][0].split():
                client.store(number, "+FLAGS", "\\Deleted")
            client.expunge()
            client.close()
        return subjects(folder / f"dovecot-{path.parent.name}" / "inbox")


@case
def a_long_line_that_forges_a_letter(folder):
    """a line of 8,191 bytes that goes on with a From line: told 554; without the word mutt shows a letter that nobody
    sent, and who deletes it deletes the next one too"""
    path = mailbox_after(folder / "mail", forged(length_of_two(folder)))
    equal(subjects(path), ["one", "you won"] * DAMAGE + OTHERS)
    equal(left_by_mutt(folder, path), ["one"] * DAMAGE + OTHERS[DAMAGE:])


def forged(length):
    lines = [line.format(length=length) for line in FORGED]
    return [*letter("one", body=lines[0])[1], *lines[1:]]


def length_of_two(folder):
    """What the forged letter says, so that it has the letter after it too, by whatever way it comes itself."""
    guess = mailbox_after(folder / "guess", forged(DIGITS)).read_bytes()
    head = f"Content-Length: {DIGITS}\n\n".encode()
    return length_to_the_third(guess, guess.find(head) + len(head))


def left_by_mutt(folder, path):
    """The subjects that a mailbox has once its user deleted in mutt what he never won."""
    home = folder / "home"
    home.mkdir()
    other = shutil.copy(path, home / "mailbox")
    Mutt(home, {}).delete(other, WON, 20)
    return subjects(other)


@case
def a_long_line_through_postfix(folder):
    """a line of 8,191 bytes that goes on with a From line, through Postfix with lmtp_line_length_limit = 0: told 554,
    and sent back; without the word who deletes the forged letter in mutt deletes the next one too"""
    length = length_of_two(folder)
    with served(folder / "mail") as server:
        more = [f"virtual_transport = lmtp:inet:{server.text}", "lmtp_line_length_limit = 0"]
        with Postfix(folder, *more) as postfix:
            postfix.send(["anna@mx.example"], as_sent(forged(length)))
            word, text = postfix.fate("anna@mx.example")
        expected = ("sent", stored("anna")) if DAMAGE else ("bounced", malformed("anna"))
        equal((word, expected[1] in text), (expected[0], True))
        deliver_others(server)
    equal(left_by_mutt(folder, server.mailbox("anna")), ["one"] * DAMAGE + OTHERS[DAMAGE:])


@case
def a_long_line_through_postfix_as_it_is(folder):
    """a line of 8,191 bytes that goes on with a From line, through Postfix as it is, which breaks it: it is stored, and
    mutt shows no other letter"""
    with served(folder / "mail") as server:
        with Postfix(folder, f"virtual_transport = lmtp:inet:{server.text}") as postfix:
            postfix.send(["anna@mx.example"], as_sent(forged(DIGITS)))
            equal(postfix.fate("anna@mx.example"), ("sent", stored("anna")))
    equal(is_in_mutt(folder, server.mailbox("anna"), WON), False)


@case
def a_mark_with_a_nul_through_postfix(folder):
    """Status, NUL, ": RO", through Postfix as it is, for which the head ends before that: told 554, and sent back;
    without the word it is stored, and new to Dovecot"""
    with served(folder / "mail") as server:
        with Postfix(folder, f"virtual_transport = lmtp:inet:{server.text}") as postfix:
            postfix.send(["anna@mx.example"], as_sent(letter("one", "Status\0: RO")[1]))
            word, text = postfix.fate("anna@mx.example")
        expected = ("sent", stored("anna")) if DAMAGE else ("bounced", malformed("anna"))
        equal((word, expected[1] in text), (expected[0], True))
        deliver_others(server)
    equal([b"\\Seen" in flags for flags in flags_by_dovecot(folder, server.mailbox("anna"))][:1], [False])


@case
def a_mark_with_a_nul_through_opensmtpd(folder):
    """Status, NUL, ": RO", through OpenSMTPD: it refuses the letter itself, with 550"""
    with opensmtpd(folder) as files, served(folder / "mail") as server:
        try:
            with sending(folder, files, server.text, ["anna@mx.example"], as_sent(letter("one", "Status\0: RO")[1])):
                raise AssertionError("it took the letter")
        except smtplib.SMTPDataError as refused:
            equal(refused.smtp_code, 550)


@case
def a_long_line_through_opensmtpd(folder):
    """a line of 8,191 bytes that goes on with a From line, through OpenSMTPD, which keeps it: told 554, which it tries
    again; without the word who deletes the forged letter in mutt deletes the next one too"""
    length = length_of_two(folder)
    with opensmtpd(folder) as files, served(folder / "mail") as server:
        with sending(folder, files, server.text, ["anna@mx.example"], as_sent(forged(length))) as log:
            line = tried(log, "anna")
        equal((" result=Ok " in line, DAMAGE or malformed("anna") in line), (DAMAGE, True))
        deliver_others(server)
    equal(left_by_mutt(folder, server.mailbox("anna")), ["one"] * DAMAGE + OTHERS[DAMAGE:])


def as_sent(lines):
    return "\r\n".join([*lines, ""]).encode()


for one in [a_long_line_through_postfix, a_long_line_through_opensmtpd, a_length_that_ends_in_a_nul]:
    one.seconds = 120

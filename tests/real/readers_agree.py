"""Other programs read the mailboxes that `lmtpd serve` wrote."""

import os
import re
import subprocess

import letters
from cases import Absent, case, equal
from clients import deliver_one
from dovecot import Dovecot
from packages import install, program
from replies import stored
from server import Server

# What a reader may take for the start of a letter, or for its end.
BODIES = [
    "hello",
    "From me to you",
    ">From before",
    "",
    "Content-Length: 1\r\n\r\nFrom x Mon Jan  1 00:00:00 2026",
    "end",
]
COUNT = len(BODIES)


def filled(folder):
    """A mailbox with a letter for each body."""
    with Server(folder, ["anna"], COUNT, "--lanes", 1) as server:
        for number, body in enumerate(BODIES):
            text = f"Subject: letter {number}\r\nFrom: <carl@a.example>\r\n\r\n{body}"
            equal(deliver_one(server.address, ["anna"], text), [stored("anna")])
        equal(server.end().status, 0)
    equal(len(letters.read(server.mailbox("anna"))), COUNT)
    return server.mailbox("anna")


def said_by(*words, **more):
    said = subprocess.run(words, capture_output=True, timeout=30, **more)
    equal((said.returncode, said.stderr), (0, b""))
    return said.stdout


@case
def formail_reads(folder):
    """formail splits the mailbox into as many letters, each with its subject"""
    path = filled(folder)
    formail = program("formail", "procmail")
    found = said_by(formail, "-s", formail, "-X", "Subject:", stdin=path.open("rb")).decode().splitlines()
    equal(found, [f"Subject: letter {number}" for number in range(COUNT)])


@case
def perl_reads(folder):
    """Perl's Email::Folder reads as many letters, each with its subject"""
    path = filled(folder)
    program("perl", "perl")
    install("libemail-folder-perl")
    code = "use Email::Folder; print $_->header('Subject'), qq(\\n) for Email::Folder->new($ARGV[0])->messages;"
    said = subprocess.run(["perl", "-e", code, path], capture_output=True, timeout=30, text=True)
    if "Can't locate Email/Folder.pm" in said.stderr:
        raise Absent("libemail-folder-perl isn't installed")
    equal(said.stdout.splitlines(), [f"letter {number}" for number in range(COUNT)])


@case
def mutt_reads(folder):
    """mutt lists as many letters, each with its subject"""
    path = filled(folder)
    mutt = program("mutt", "mutt")
    program("script", "bsdutils")
    # it asks for this folder first, where it isn't there
    (folder / "Mail").mkdir()
    commands = "set index_format='<%C %s>'; set status_format='<%m in all>'; set move=no; push <exit>"
    given = ["-n", "-F", "/dev/null", "-R", "-e", commands]
    environment = dict(os.environ, TERM="xterm", HOME=str(folder), COLUMNS="80", LINES="24")
    words = ["script", "-qec", " ".join(["timeout", "20", mutt, *map(quote, given), "-f", str(path)]), "/dev/null"]
    said = subprocess.run(words, env=environment, stdin=subprocess.DEVNULL, capture_output=True, timeout=40, text=True)
    found = re.findall(r"<(\d+ letter \d+|\d+ in all)>", said.stdout)
    expected = [f"{number + 1} letter {number}" for number in range(COUNT)] + [f"{COUNT} in all"]
    equal(sorted(set(found)), sorted(expected))


def quote(text):
    return "'" + text.replace("'", "'\\''") + "'"


@case
def dovecot_reads(folder):
    """Dovecot's IMAP over the same file finds as many letters, with the same subjects and bodies"""
    path = filled(folder)
    with Dovecot(folder, path) as dovecot, dovecot.login() as client:
        _, [count] = client.select("INBOX", readonly=True)
        equal(int(count), COUNT)
        for number, body in enumerate(BODIES):
            _, [(_, found), _] = client.fetch(str(number + 1), "(BODY.PEEK[TEXT])")
            # it shows the quoting that it doesn't undo
            shown = re.sub(r"(?m)^(>*From )", r">\1", body)
            equal((number, found.decode().rstrip("\r\n")), (number, shown))
            _, [(_, head), _] = client.fetch(str(number + 1), "(BODY.PEEK[HEADER.FIELDS (SUBJECT)])")
            equal(head.decode().strip(), f"Subject: letter {number}")

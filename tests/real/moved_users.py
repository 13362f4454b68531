"""Users who move to the service as it is installed, away from it, or to another name, by the lines of
docs/operating/MOVING.md as they stand."""

import mailbox
import os
import pathlib
import re
import threading

import letters
from cases import case, equal
from clients import deliver_one
from dovecot import NEEDS
from in_a_machine import in_a_machine
from pages import PAGES, lines_of, type_lines
from replies import stored
from server import run
from service import Service
from with_postfix import SITE, send, subjects

HOME = pathlib.Path("/home/anna")
MOVING = (PAGES / "MOVING.md").read_text()
READ = "Subject: read\n\nhello\nFrom x\n>From y\n\nFrom carl@a.example Mon Nov 23 10:00:00 2026\nend\n"
UNREAD = "Subject: unread\n\nlast\n"
DAY = 1_795_428_000  # 23 November 2026
MARKS = re.compile(rb"^(?:X-IMAPbase|X-UID|Status|X-Status|X-Keywords|Content-Length):.*\n", re.MULTILINE)


@case
@in_a_machine(NEEDS[0])
def maildir_and_back(_folder):
    """a Maildir by the typed lines of docs/operating/MOVING.md: each letter is the service's mailbox's, byte for byte,
    one more is delivered after them, and the lines back make a Maildir of all, with dates and marks"""
    type_lines("useradd --create-home anna")
    there = mailbox.Maildir(HOME / "Maildir")
    for text, flags in [(READ, "S"), (UNREAD, "")]:
        letter = mailbox.MaildirMessage(text)
        letter.set_flags(flags)
        letter.set_subdir("cur" if flags else "new")
        letter.set_date(DAY)
        there.add(letter)
    type_lines(f"chown -R anna: {HOME}")
    type_lines(lines_of("MOVING.md", "## From Maildir, and back"))
    type_lines(next(text for text in MOVING.split("```\n")[1::2] if "awk" in text))
    with Service(["anna"]) as service:
        equal(run(["check", service.mailbox("anna")]).said, [f"{service.mailbox('anna')} letters 2"])
        found = [text.partition(b"\n")[2] for text in letters.by_git(service.mailbox("anna"))]
        found = [MARKS.sub(b"", text).decode() for text in found]
        equal(found, [READ, UNREAD])
        equal(deliver_one(service.address, ["anna"], "Subject: new", "", "hello"), [stored("anna")])
    type_lines(MOVING.split("\n## From Maildir, and back\n")[1].split("```\n")[3])
    back = sorted(mailbox.Maildir(HOME / "Back"), key=lambda letter: letter["Subject"])
    equal([(it["Subject"], it.get_flags()) for it in back], [("new", ""), ("read", "S"), ("unread", "")])
    equal([int(it.get_date()) for it in back[1:]], [DAY, DAY])
    equal(back[1].get_payload(), re.sub("(?m)^(>*From )", r">\1", READ.partition("\n\n")[2]))


@case
@in_a_machine()
def another_name(_folder):
    """a user gets another name by the typed lines of docs/operating/MOVING.md, with Postfix: her letters, one that came
    meanwhile, and those for the old name"""
    with Service(["anna", "ben"]) as service:
        service.set("BOXES", "/etc/lmtpd.boxes")
        service.restart()
        type_lines(SITE)
        send("anna@mx.example", subject="before")
        equal(subjects(service, "anna", 1), ["before"])
        first, rest = lines_of("MOVING.md", "## Renaming a user").split("mv ", 1)
        type_lines(first)
        send("anna@mx.example", subject="meanwhile")
        type_lines(f"mv {rest}")
        equal(subjects(service, "anne", 2), ["before", "meanwhile"])
        send("anna@mx.example", subject="after")
        equal(subjects(service, "anne", 3), ["after", "before", "meanwhile"])
        equal(os.path.exists(service.mailbox("anna")), False)


@case
@in_a_machine()
def a_backup_while_letters_come(_folder):
    """a backup by the typed lines of docs/operating/MOVING.md while a client delivers to the service: the letters that
    were told 250 before are in it, whole and in order, and no lock is left"""
    backup = pathlib.Path("/var/backups/lmtpd/anna.mbox")
    with Service(["anna"]) as service:
        sent = [deliver_one(service.address, ["anna"], f"letter {number}") for number in range(20)]
        over = threading.Event()
        client = threading.Thread(target=deliver_on, args=(service.address, over))
        client.start()
        type_lines(lines_of("MOVING.md", "## Backup"))
        over.set()
        client.join()
        equal(sent, [[stored("anna")]] * 20)
        owner = backup.stat()
        equal((backup.owner(), oct(owner.st_mode & 0o777)), ("lmtpd", "0o600"))
        equal(letters.messages(backup)[:20], [b"letter %d\n" % number for number in range(20)])
        equal(service.mailbox("anna").read_bytes().startswith(backup.read_bytes()), True)
        equal(service.lock_file("anna").exists(), False)


def deliver_on(address, over):
    """Until that is set; a copy that misses its turn meanwhile may be told 451."""
    while not over.is_set():
        deliver_one(address, ["anna"], "more")


for one in [maildir_and_back, another_name, a_backup_while_letters_come]:
    one.seconds = 180

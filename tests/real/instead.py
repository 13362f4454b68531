"""What docs/operating/INSTEAD.md has in the place of what the server doesn't do, typed as it stands: the letters go by
Postfix, to the service as it is installed or beside it."""

import pathlib
import smtplib
import subprocess
import time

from all_through_dovecot import CERTIFICATE
from cases import case, equal
from clients import deliver_one
from dovecot import NEEDS
from in_a_machine import in_a_machine
from pages import lines_of, type_lines
from replies import not_stored, stored
from service import FOLDER, Service
from with_postfix import log, send, subjects, wait, wait_for

PAGE = "INSTEAD.md"
NAMES = ["anna", "ben"]
BOXES = pathlib.Path("/etc/lmtpd.boxes")
SIEVE = 'require ["fileinto", "mailbox"]; if header :contains "subject" "list" { fileinto :create "lists"; }\n'


def site():
    """Postfix by SETUP's lines."""
    type_lines("systemctl start postfix\n" + lines_of("SETUP.md", "## Postfix"))


@case
@in_a_machine(*NEEDS, ("sievec", "dovecot-sieve"))
def some_users_by_dovecot(_folder):
    """the typed lines of 'Some users by Dovecot': one user's letters go through Dovecot's LMTP, into the folder that
    his Sieve says, the others' into their mailboxes"""
    with Service(NAMES) as service:
        site()
        type_lines(f"useradd --create-home ben\n{CERTIFICATE}")
        script = pathlib.Path("/home/ben/.dovecot.sieve")
        script.write_text(SIEVE)
        lines = lines_of(PAGE, "## Some users by Dovecot").splitlines()
        # there is no network here: the packages are installed
        type_lines("\n".join([line for line in lines if "apt-get" not in line] + [""]))
        send("anna@mx.example", "ben@mx.example", subject="one")
        send("ben@mx.example", subject="a list")
        equal(subjects(service, "anna", 1), ["one"])
        for folder, subject in [("", "one"), (".lists", "a list")]:
            wait(lambda: subject in letters_in(pathlib.Path("/home/ben/Maildir", folder)), log)
        equal(service.mailbox("ben").exists() and service.mailbox("ben").stat().st_size, 0)


@case
@in_a_machine()
def forwarding(_folder):
    """the typed lines of 'Forwarding': a letter is in the mailbox and goes to another address, another's goes there
    alone"""
    with Service(NAMES) as service:
        site()
        # the other site, which keeps what comes for it
        type_lines("postconf -e relay_domains=else.example 'transport_maps=inline:{else.example=retry:elsewhere}'")
        type_lines(lines_of(PAGE, "## Forwarding"))
        send("anna@mx.example", "ben@mx.example", subject="one")
        equal(subjects(service, "anna", 1), ["one"])
        for name in NAMES:
            wait_for(rf"to=<{name}@else\.example>, orig_to=<{name}@mx\.example>.*elsewhere")
        equal(service.mailbox("ben").exists() and service.mailbox("ben").stat().st_size, 0)


@case
@in_a_machine()
def users_of_the_system(_folder):
    """the typed lines of 'Users of the system's list' and 'One list of users': a new user of the system has mail, a
    name that can't be used changes nothing, and a quota stays; Postfix refuses at its door whom the server doesn't
    know, and a new one until it asked again"""
    with Service(NAMES) as service:
        service.set("BOXES", BOXES)
        service.set("OPTIONS")
        site()
        type_lines("for name in anna ben; do useradd --create-home $name; done")
        type_lines(lines_of(PAGE, "## Users of the system's list"))
        equal({"anna", "ben"} <= set(BOXES.read_text().split()), True)
        type_lines(lines_of("MAILBOXES.md", "## Quota", 2))
        type_lines(lines_of(PAGE, "## One list of users"))
        equal(asked("ben@mx.example"), 250)
        equal(asked("carla@mx.example"), 550)
        letter_to("ben@mx.example", "one")
        equal(subjects(service, "ben", 1), ["one"])
        before = BOXES.read_text()
        type_lines("useradd --badname --create-home Dora")
        equal(subprocess.run(["lmtpd-users"], capture_output=True).returncode, 1)
        equal((BOXES.read_text(), service.told("ActiveState")), (before, "active"))
        type_lines("userdel Dora; useradd --create-home carla; lmtpd-users")
        equal({"anna 5G", "ben", "carla"} <= set(BOXES.read_text().splitlines()), True)
        until = time.monotonic() + 100
        while asked("carla@mx.example") != 250:
            assert time.monotonic() < until, log()[-1500:]
            time.sleep(5)
        letter_to("carla@mx.example", "two")
        equal(subjects(service, "carla", 1), ["two"])


@case
@in_a_machine()
def snapshots_by_hard_links(_folder):
    """a snapshot of the installed service's mailboxes by cp -al: each letter is told 451 until it is gone, and none is
    in it that came later"""
    with Service(NAMES) as service:
        equal(deliver_one(service.address, NAMES, "before"), [stored(name) for name in NAMES])
        type_lines(f"cp -al {FOLDER} {FOLDER}.snapshot")
        equal(deliver_one(service.address, NAMES, "meanwhile"), [not_stored(name) for name in NAMES])
        wait(lambda: any("mailbox in use mailbox=anna reason=not plain" in line for line in service.lines("err")), log)
        type_lines(f"rm -r {FOLDER}.snapshot")
        equal(deliver_one(service.address, NAMES, "after"), [stored(name) for name in NAMES])
        equal("\nmeanwhile\n" in service.mailbox("anna").read_text(), False)


for one in [some_users_by_dovecot, forwarding, users_of_the_system, snapshots_by_hard_links]:
    one.seconds = 240


def letters_in(maildir):
    """The subjects of a Maildir."""
    found = [line for path in maildir.glob("new/*") for line in path.read_text().splitlines()]
    return [line.removeprefix("Subject: ") for line in found if line.startswith("Subject: ")]


def asked(address):
    """What Postfix's door answers for that recipient, once it isn't for now."""
    for _ in range(10):
        with smtplib.SMTP("127.0.0.1", 25, local_hostname="client.example", timeout=30) as client:
            client.ehlo()
            client.mail("carl@a.example")
            code, _ = client.rcpt(address)
        if code != 450:
            break
        time.sleep(1)
    return code


def letter_to(address, subject):
    with smtplib.SMTP("127.0.0.1", 25, local_hostname="client.example", timeout=30) as client:
        client.sendmail("carl@a.example", [address], f"Subject: {subject}\r\n\r\nhello\r\n".encode())

"""Dovecot as docs/operating/MAILBOXES.md sets it up beside the service as it is installed, for two users."""

import datetime
import imaplib
import re
import time

from cases import case, equal
from clients import deliver_one
from dovecot import NEEDS
from in_a_machine import in_a_machine
from pages import lines_of, type_lines
from replies import stored
from service import Service

PASSWORDS = {"anna": "secret", "ben": "secret2"}
# What Debian's package makes as it is installed, and an image of a machine may not have.
CERTIFICATE = """
cd /etc/dovecot/private
[ -e dovecot.pem ] || make-ssl-cert generate-default-snakeoil
[ -e dovecot.pem ] || ln -s /etc/ssl/certs/ssl-cert-snakeoil.pem dovecot.pem
[ -e dovecot.key ] || ln -s /etc/ssl/private/ssl-cert-snakeoil.key dovecot.key
"""
# How a user may name what another has.
OF_ANOTHER = ["{0}", "{0}.mbox", "../{0}", "../{0}/Kept", "/var/mail/lmtpd/{0}.mbox", "~{0}/Kept", "~/../{0}/Kept"]


@case
@in_a_machine(*NEEDS)
def users_see_nothing_of_each_other(_folder):
    """all through Dovecot, as docs/operating/MAILBOXES.md has it, typed as it stands: each of two users reads their own
    letter and keeps it in a folder of their own, and neither sees or opens anything of the other's"""
    with Service(list(PASSWORDS)) as service:
        type_lines(CERTIFICATE)
        type_lines(lines_of("MAILBOXES.md", "### All through Dovecot"))
        for name in PASSWORDS:
            equal(deliver_one(service.address, [name], f"Subject: for {name}", "", "hello"), [stored(name)])
        for name in PASSWORDS:
            with login(name) as client:
                equal((name, listed(client)), (name, ["INBOX"]))
                equal((name, subjects(client, "INBOX")), (name, [f"for {name}"]))
                equal([client.create("Kept")[0], client.copy("1", "Kept")[0]], ["OK", "OK"])
        for name, other in [("anna", "ben"), ("ben", "anna")]:
            with login(name) as client:
                equal((name, listed(client)), (name, ["INBOX", "Kept"]))
                equal((name, subjects(client, "Kept")), (name, [f"for {name}"]))
                for place in [form.format(other) for form in OF_ANOTHER]:
                    equal((name, place, client.select(f'"{place}"')[0]), (name, place, "NO"))


@case
@in_a_machine(*NEEDS)
def dates_are_utc(_folder):
    """Dovecot in another time zone: a letter's moment is hours off, and right by the typed lines of
    docs/operating/MAILBOXES.md"""
    with Service(["anna"]) as service:
        type_lines(f"ln -sf /usr/share/zoneinfo/Asia/Kolkata /etc/localtime\n{CERTIFICATE}")
        type_lines(lines_of("MAILBOXES.md", "### All through Dovecot"))
        for lines, hours in [("true", -5.5), (lines_of("MAILBOXES.md", "### Dates in Dovecot"), 0)]:
            type_lines(lines)
            # the server makes it with its first letter
            if service.mailbox("anna").exists():
                service.mailbox("anna").write_bytes(b"")
            since = time.time()
            equal(deliver_one(service.address, ["anna"], "Subject: now", "", "hello"), [stored("anna")])
            with login("anna") as client:
                equal(client.select("INBOX")[0], "OK")
                text = re.search(r'"(.*)"', client.fetch("1", "INTERNALDATE")[1][0].decode())[1]
                off = datetime.datetime.strptime(text.strip(), "%d-%b-%Y %H:%M:%S %z").timestamp() - since
                equal((abs(off - hours * 3600) < 60, text, off), (True, text, off))


for one in [users_see_nothing_of_each_other, dates_are_utc]:
    one.seconds = 180


def login(name):
    """Once it listens."""
    until = time.monotonic() + 20
    while True:
        try:
            client = imaplib.IMAP4("127.0.0.1", 143)
            break
        except OSError:
            assert time.monotonic() < until, "Dovecot doesn't listen"
            time.sleep(0.1)
    client.login(name, PASSWORDS[name])
    return client


def listed(client):
    """The folders that the user sees."""
    return sorted(re.search(rb'(\S+)$', line)[1].decode().strip('"') for line in client.list()[1])


def subjects(client, folder):
    equal(client.select(folder)[0], "OK")
    _, found = client.fetch("1:*", "(BODY.PEEK[HEADER.FIELDS (SUBJECT)])")
    return [part[1].decode().strip().removeprefix("Subject: ") for part in found if len(part) == 2]

"""Debian's Postfix beside the service as it is installed, by the lines of docs/operating/SETUP.md as they stand."""

import re
import smtplib
import socket
import subprocess
import time

from cases import case, equal
from in_a_machine import in_a_machine
from packages import program
from pages import lines_of, type_lines
from server import run
from service import Service

NAMES = ["anna", "ben"]
UMLAUT = "c\u00e4rl@a.example"
SITE = """
postconf -e virtual_mailbox_domains=mx.example 'virtual_mailbox_maps=inline:{anna@mx.example=x,ben@mx.example=x}'
postconf -e virtual_transport=lmtp:unix:private/lmtpd lmtp_destination_concurrency_limit=4
systemctl restart postfix
"""


@case
@in_a_machine()
def the_service_behind_postfix(_folder):
    """Postfix by the typed lines of 'Postfix' and then of 'A second domain', as it runs: letters to both domains, and
    one for a name that there isn't; Postfix's limit is large, and below the server's"""
    with Service(NAMES) as service:
        type_lines("systemctl start postfix")
        type_lines(lines_of("SETUP.md", "## Postfix"))
        send("anna@mx.example")
        equal(subjects(service, "anna", 1), ["anna@mx.example"])
        type_lines(lines_of("SETUP.md", "### A second domain") + "systemctl start lmtpd\n")
        send("anna@two.example", "ben@two.example", subject="two")
        equal(subjects(service, "anna", 2), ["anna@mx.example", "two"])
        equal(subjects(service, "ben", 1), ["two"])
        # what Postfix lets in the server takes, with the lines that Postfix adds
        with smtplib.SMTP("127.0.0.1", 25, local_hostname="client.example", timeout=20) as client:
            client.ehlo()
            limits = [int(client.esmtp_features["size"]), largest(service)]
            client.mail("carl@a.example")
            known = [client.rcpt(f"{name}@two.example")[0] for name in ["anna", "carla"]]
        equal((limits[0] > 20_000_000, limits[1] - limits[0] > 1_000_000, limits), (True, True, limits))
        equal(known, [250, 550])
        equal("status=deferred" in log(), False)


@case
@in_a_machine()
def a_domain_that_is_not_served(_folder):
    """Postfix hands on a domain that the installed service doesn't serve, and a name that there isn't: the letters go
    back by the same reply, and the journal tells them apart, the domain at err too"""
    with Service(NAMES) as service:
        type_lines(SITE)
        type_lines("postconf -e 'virtual_mailbox_domains=mx.example real.tld' virtual_mailbox_maps=static:x")
        type_lines("postfix reload")
        for address in ["anna@real.tld", "nobody@mx.example", "ben@real.tld"]:
            send(address, sender="ben@mx.example")
            wait_for(rf"to=<{re.escape(address)}>.* status=bounced .*550 5\.1\.1 No such mailbox")
        refused = [line for line in service.lines() if " command refused " in line and " verb=RCPT " in line]
        equal([line.partition(" reason=")[2] for line in refused], ["domain", "mailbox", "domain"])
        # each lane says it once an hour
        equal(set(service.lines("err")), {"[ERROR lmtpd] domain not served domain=real.tld"})
        equal(subjects(service, "ben", 3).count("Undelivered Mail Returned to Sender"), 3)


@case
@in_a_machine()
def aliases(_folder):
    """Postfix by the typed lines of 'Aliases': two domains in which info isn't the same user's, a catch-all and
    postmaster"""
    with Service(NAMES) as service:
        type_lines(SITE + lines_of("SETUP.md", "### Aliases"))
        for address in ["postmaster@mx", "info@mx", "info@two", "anna@two", "anyone@two"]:
            send(f"{address}.example")
        equal(subjects(service, "anna", 3), ["anna@two.example", "info@mx.example", "postmaster@mx.example"])
        equal(subjects(service, "ben", 2), ["anyone@two.example", "info@two.example"])


@case
@in_a_machine()
def users_of_the_system(_folder):
    """Postfix by the typed lines of 'Users of the system': those of mydestination, an alias, a user's .forward; one
    without a mailbox goes back"""
    with Service(NAMES) as service:
        type_lines(SITE)
        type_lines("for name in anna ben carla; do useradd --create-home $name; done")
        type_lines("echo anna@mx.example > /home/ben/.forward")
        type_lines(lines_of("SETUP.md", "### Users of the system"))
        for address in ["anna@mx.example", "anna@localhost", "root@localhost", "ben@mx.example", "carla@mx.example"]:
            send(address)
        expected = ["anna@localhost", "anna@mx.example", "ben@mx.example", "root@localhost"]
        equal(subjects(service, "anna", 4), expected)
        wait_for(r"to=<carla@mx\.example>.* status=bounced .*550 5\.1\.1 No such mailbox")


@case
@in_a_machine()
def recipients_of_letters(_folder):
    """Postfix by the typed lines of 'The recipient in each letter': Delivered-To and X-Original-To, a letter handed
    over once for each recipient, and one for several put off without the limit of one"""
    with Service(NAMES) as service:
        type_lines(SITE + lines_of("SETUP.md", "### Aliases"))
        send("anna@mx.example", "ben@mx.example", subject="before")
        equal([subjects(service, name, 1) for name in NAMES], [["before"], ["before"]])
        equal(len(messages_of(service)), 1)
        type_lines(lines_of("SETUP.md", "### The recipient in each letter"))
        send("info@mx.example", "ben@mx.example", subject="after")
        equal([subjects(service, name, 2) for name in NAMES], [["after", "before"]] * 2)
        for name, original in [("anna", "info"), ("ben", "ben")]:
            for line in [f"Delivered-To: {name}@mx.example", f"X-Original-To: {original}@mx.example"]:
                equal((line, lines_in(service, name).count(line)), (line, 1))
        equal(len(messages_of(service)), 3)
        type_lines("postconf -X lmtp_destination_recipient_limit; postfix reload")
        send("anna@mx.example", "ben@mx.example")
        wait_for("flag `D' requires lmtp_destination_recipient_limit = 1")
        wait_for(r"to=<anna@mx\.example>.* status=deferred")


@case
@in_a_machine()
def letters_as_written(_folder):
    """Postfix by the typed lines of 'Letters as their senders wrote them', beside a service without the marks' word by
    those of 'Marks': a head in UTF-8, a long line, and no lines by which programs mark letters"""
    long = "x" * 5000
    marks = [f"{name}: 1" for name in ["Status", "X-Status", "X-Keywords", "X-UID", "X-IMAP", "X-IMAPbase"]]
    with Service(NAMES) as service:
        type_lines(lines_of("SETUP.md", "### Marks"))
        type_lines(SITE)
        send("anna@mx.example", subject="gr\u00fc\u00dfe")
        wait_for(r"to=<anna@mx\.example>.* status=bounced .*SMTPUTF8 is required")
        send("anna@mx.example", subject="before", text=f"{long}\n", more=marks)
        equal(subjects(service, "anna", 1), ["before"])
        found = lines_in(service, "anna")
        equal((long in found, set(marks) <= set(found)), (False, True))
        type_lines(lines_of("SETUP.md", "### Letters as their senders wrote them"))
        send("ben@mx.example", subject="gr\u00fc\u00dfe", text=f"{long}\n", more=marks)
        equal(subjects(service, "ben", 1), ["gr\u00fc\u00dfe"])
        found = lines_in(service, "ben")
        equal((long in found, set(marks) & set(found)), (True, set()))


@case
@in_a_machine()
def utf8_through_postfix(_folder):
    """Postfix as Debian has it, beside the installed service by the typed line of 'Addresses in UTF-8': a subject in
    UTF-8 by sendmail, a sender in UTF-8 and a recipient whose detail is, and the same sender by swaks; each is stored
    with its address, by UTF8LMTP where Postfix asked for it"""
    swaks = program("swaks", "swaks")
    with Service(NAMES) as service:
        type_lines(lines_of("SETUP.md", "### Addresses in UTF-8"))
        type_lines(SITE)
        send("anna@mx.example", subject="gr\u00fc\u00dfe")
        equal(subjects(service, "anna", 1), ["gr\u00fc\u00dfe"])
        with smtplib.SMTP("127.0.0.1", 25, local_hostname="client.example", timeout=20) as client:
            options = ["SMTPUTF8", "BODY=8BITMIME"]
            letter = b"Subject: two\r\n\r\nhello\r\n"
            client.sendmail(UMLAUT, ["anna+gr\u00fc\u00dfe@mx.example"], letter, mail_options=options)
        equal(subjects(service, "anna", 2), ["gr\u00fc\u00dfe", "two"])
        words = [swaks, "--protocol", "LMTP", "--socket", service.address, "--from", UMLAUT, "--to", "anna@mx.example"]
        subprocess.run([*words, "--header", "Subject: three", "--suppress-data"], check=True, capture_output=True)
        equal(subjects(service, "anna", 3), ["gr\u00fc\u00dfe", "three", "two"])
        found = lines_in(service, "anna")
        equal((found.count(f"Return-Path: <{UMLAUT}>"), sum("with UTF8LMTP id" in line for line in found)), (2, 2))
        equal("bounced" in log(), False)


for one in [
    the_service_behind_postfix,
    a_domain_that_is_not_served,
    aliases,
    users_of_the_system,
    recipients_of_letters,
    letters_as_written,
    utf8_through_postfix,
]:
    one.seconds = 240


def largest(service):
    """The bytes that a message may have, as the server offers it."""
    with socket.socket(socket.AF_UNIX) as stream:
        stream.connect(service.address)
        stream.sendall(b"LHLO relay.example\r\nQUIT\r\n")
        said = stream.makefile("r").read()
    return int(re.search(r"^250[ -]SIZE (\d+)", said, re.MULTILINE)[1])


def send(*addresses, subject=None, text="hello\n", more=(), sender="carl@mx.example"):
    """A letter to all of these, whose subject is the first one's address where none is given."""
    letter = "\n".join([f"Subject: {subject or addresses[0]}", *more, "", text])
    subprocess.run(["sendmail", "-f", sender, *addresses], input=letter.encode(), check=True)


def subjects(service, name, count):
    """Those of a mailbox, once it has that many letters."""
    path = service.mailbox(name)
    wait(lambda: run(["check", path]).said == [f"{path} letters {count}"], log)
    return sorted(line.removeprefix("Subject: ") for line in lines_in(service, name) if line.startswith("Subject: "))


def lines_in(service, name):
    return service.mailbox(name).read_text().splitlines()


def messages_of(service):
    """The messages of which the log has copies."""
    return set(re.findall(r" copy answered id=(\S+) ", "\n".join(service.lines())))


def log():
    """What Postfix logged."""
    words = ["journalctl", "--facility", "mail", "-o", "cat", "--no-pager"]
    return subprocess.run(words, check=True, capture_output=True, text=True).stdout


def wait_for(pattern):
    """Until Postfix's log has it."""
    wait(lambda: re.search(pattern, log()), log)


def wait(is_so, why):
    until = time.monotonic() + 40
    while not is_so():
        assert time.monotonic() < until, why()[-1500:]
        time.sleep(0.2)

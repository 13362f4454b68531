"""The words of the service as it is installed: those of /etc/lmtpd.conf, of an instance, and those that recipes set."""

import pathlib
import time

from cases import case, equal
from clients import deliver_one
from in_a_machine import in_a_machine
from pages import lines_of, type_lines
from replies import not_stored, stored
from service import CONF, Service, systemctl

FIXED = ["--stop-file", "/run/lmtpd/stop", "--start-anyway", "--log", "info", "--refuse-malformed"]
OF_THE_UNIT = ["--rename-marks"]
# The file of the package before it had DOMAINS, DELIMITER, FOLDER and OPTIONS, as an upgrade leaves it.
OF_BEFORE = "HOST=mx.example\nMESSAGE_LIMIT=26214400\nBOXES=--boxes /etc/lmtpd.boxes\n"
OLD = ["--host", "mx.example", "--listen", "inherited", "--dir", "/var/mail/lmtpd", "--message-limit", "26214400"]
ALL = """
HOST="one.example"
DOMAINS=two.example,three.example
MESSAGE_LIMIT=70000
DELIMITER='#'
BOXES=anna ben
FOLDER=/var/mail/lmtpd
OPTIONS=--lanes 8   --quota 1000000
"""
MANY = ["--host", "one.example", "--listen", "inherited", "--dir", "/var/mail/lmtpd"]
MANY += ["--domains", "two.example,three.example", "--message-limit", "70000", "--recipient-delimiter", "#"]
# What ends the server with status 2, and what the journal has then.
REFUSED = [
    ("HOST=", "error: the following required arguments were not provided:"),
    ("HOST=mx.example\nDOMAINS=a_b", "lmtpd: bad domain"),
    ("HOST=mx.example\nBOXES=", "lmtpd: no box"),
    ("HOST=mx.example\nOPTIONS=--no-such-word", "error: unexpected argument '--no-such-word' found"),
    ("HOST=mx.example\nMESSAGE_LIMIT=10", "error: invalid value '10' for '--message-limit <BYTES>':"),
    ("HOST=mx.example\nDOMAIN=b.example", "unknown word key=DOMAIN file=/etc/lmtpd.conf line=3"),
    ("QUOTA=1000\nHOST=mx.example", "unknown word key=QUOTA file=/etc/lmtpd.conf line=2"),
    ("HOST=mx.example\nOPTIONS=quota 1000", "a word that nothing takes key=OPTIONS word=quota"),
    ("HOST=mx.example\nOPTIONS=--log-addresses anna", "a word that nothing takes key=OPTIONS word=anna"),
    ("HOST=mx.example\nOPTIONS --lanes 8", "a line without = key=OPTIONS%20--lanes%208 file=/etc/lmtpd.conf line=3"),
]


@case
@in_a_machine()
def words_of_the_service(_folder):
    """the installed service has each word of /etc/lmtpd.conf where it belongs, and those of a file from before these
    words; where one is wrong or HOST isn't there it ends with status 2, and the journal says which"""
    with Service(["anna"]) as service:
        equal(words_with(service, ALL), ["serve", *OF_THE_UNIT, *MANY, *FIXED, "anna", "ben", "--lanes", "8", "--quota", "1000000"])
        equal(words_with(service, OF_BEFORE), ["serve", *OF_THE_UNIT, *OLD, *FIXED, "--boxes", "/etc/lmtpd.boxes"])
        crlf = "\ufeff# a comment\r\nHOST=one.example\r\nHOST=mx.example\r\nBOXES=anna\r\nOPTIONS=\"--lanes 8\"\r\n"
        equal(words_with(service, crlf)[2:4], ["--host", "mx.example"])
        equal(words_of(service)[-3:], ["anna", "--lanes", "8"])
        said = "a word stands twice, and the last one counts key=HOST file=/etc/lmtpd.conf line=3"
        equal([line for line in service.lines("warning") if line == said], [said])
        for text, line in REFUSED:
            CONF.write_text(f"BOXES=anna\n{text}\n")
            service.restart(may_fail=True)
            service.wait(lambda: service.told("ActiveState") == "failed")
            equal((text, service.told("ExecMainStatus")), (text, "2"))
            assert any(said.startswith(line) for said in service.lines()[-20:]), (line, service.lines()[-20:])


@case
@in_a_machine()
def words_of_instances(_folder):
    """an installed instance has the words of /etc/lmtpd.conf but its mailboxes, then those of a file of its own"""
    places = pathlib.Path("/etc/lmtpd")
    systemctl("disable", "--now", "lmtpd.socket", "lmtpd")
    one, two, three = Service(["anna"], name="a"), Service(["ben"], name="b"), Service(["carla"], name="c")
    (places / "b.conf").write_text("HOST=b.example\nOPTIONS=--lanes 8\n")
    (places / "c.conf").write_text("BOXES=carla dora\nDELIMITER=\n")
    of = {
        one: ["mx.example", "--recipient-delimiter", "+", "--boxes", "/etc/lmtpd/a.boxes"],
        two: ["b.example", "--recipient-delimiter", "+", "--boxes", "/etc/lmtpd/b.boxes", "--lanes", "8"],
        three: ["mx.example", "carla", "dora"],
    }
    for service, (host, *expected) in of.items():
        with service:
            stop_file = f"/run/{service.unit.replace('@', '-')}/stop"
            words = [stop_file if word == "/run/lmtpd/stop" else word for word in FIXED]
            own = [word for word in words_of(service) if word not in words]
            equal(own, ["serve", *OF_THE_UNIT, "--host", host, *OLD[2:], *expected])


@case
@in_a_machine()
def another_folder(_folder):
    """another folder for the installed service by the typed lines of docs/operating/SETUP.md; without systemd's part of
    them each copy is told 451"""
    with Service(["anna"]) as service:
        type_lines(lines_of("SETUP.md", "### Another folder"))
        equal(deliver_one(service.address, ["anna"], "hello"), [stored("anna")])
        equal([path.name for path in pathlib.Path("/srv/mail").glob("*.mbox")], ["anna.mbox"])
        type_lines("rm /etc/systemd/system/lmtpd.service.d/folder.conf; systemctl daemon-reload")
        service.restart()
        equal(deliver_one(service.address, ["anna"], "hello"), [not_stored("anna")])


# Of each page that says a word of the service by lines to type: the heading below which these stand, and the words.
RECIPES = [
    ("SETUP.md", "### Another folder", ["--dir", "/srv/mail"]),
    ("SETUP.md", "### A second domain", ["--domains", "two.example"]),
    ("SETUP.md", "### Addresses in UTF-8", ["--smtputf8"]),
    ("MAILBOXES.md", "## Quota", ["--quota", "1000000000"]),
    ("LOG.md", "### Addresses", ["--log-addresses"]),
    ("MAILBOXES.md", "### Users' own programs on their own files", ["--mailbox-mode", "0660"]),
]


@case
@in_a_machine()
def no_recipe_drops_a_word(_folder):
    """all lines of the pages that say a word of the service, typed on one machine: the server has all their words"""
    with Service(["anna"]) as service:
        type_lines("useradd --create-home --shell /bin/bash anna; systemctl start postfix")
        for page, heading, _ in RECIPES:
            type_lines(lines_of(page, heading))
        found = " ".join(words_of(service))
        for _, heading, words in RECIPES:
            equal((heading, f" {' '.join(words)} " in f" {found} "), (heading, True))
        equal(deliver_one(service.address, ["anna"], "hello"), [stored("anna")])
        assert "\nhello\n" in pathlib.Path("/srv/mail/anna.mbox").read_text()


for one in [words_of_the_service, words_of_instances, another_folder, no_recipe_drops_a_word]:
    one.seconds = 180


def words_with(service, text):
    CONF.write_text(text)
    service.restart()
    return words_of(service)


def words_of(service):
    """Those of the process that systemd watches, after the program's path."""
    path = pathlib.Path("/proc", service.told("MainPID"), "cmdline")
    until = time.monotonic() + 10
    while (found := path.read_text().split("\0"))[0] != "/usr/sbin/lmtpd":
        assert time.monotonic() < until, found
    return found[1:-1]

"""New users of the service as it is installed, without a restart: `systemctl reload` reads the names before it ends
anything."""

import pathlib
import subprocess
import threading

from cases import case, equal
from clients import Client
from in_a_machine import in_a_machine
from replies import NO_SUCH_BOX, stored
from service import CONF, Service, systemctl

BOXES = pathlib.Path("/etc/lmtpd.boxes")
WORDS = "HOST=mx.example\nBOXES=/etc/lmtpd.boxes\n"
# What can't be used: the words, the file of mailboxes, and how a line begins that the journal has at `err` then.
REFUSED = [
    (WORDS, b"anna\nFrieda\n", "lmtpd: bad box"),
    (WORDS, b"anna\nben\r\n\0\n", "lmtpd: bad box"),
    (WORDS, b"anna\n" + b"x" * 10_000 + b"\n", "lmtpd: bad box"),
    (WORDS, b"anna\nben # one\nanna\n", "lmtpd: box named twice"),
    (WORDS, b"".join(b"box%d\n" % number for number in range(65_537)), "lmtpd: too many boxes"),
    (WORDS, b"anna\n\xff\n", "lmtpd: bad box"),
    (WORDS, b"# one\nanna\nFrieda\n", "[ERROR lmtpd] bad box name=Frieda file=/etc/lmtpd.boxes line=3"),
    (WORDS, b"anna\nben\nanna\n", "[ERROR lmtpd] box named twice name=anna file=/etc/lmtpd.boxes line=3"),
    (WORDS, None, "lmtpd: cannot read /etc/lmtpd.boxes"),
    (WORDS, b"# nobody\n", "lmtpd: no box"),
    (WORDS.replace("mx.example", ""), b"anna\n", "error: the following required arguments were not provided:"),
    (WORDS.replace("mx.example", "a_b"), b"anna\n", "lmtpd: bad host"),
    (WORDS + "DOMAINS=a_b\n", b"anna\n", "lmtpd: bad domain"),
    (WORDS + "DOMAIN=b.example\n", b"anna\n", "unknown word key=DOMAIN file=/etc/lmtpd.conf line=3"),
    (WORDS + "OPTIONS=quota 1000\n", b"anna\n", "a word that nothing takes key=OPTIONS word=quota"),
    (WORDS + "OPTIONS=--lanes none\n", b"anna\n", "error: invalid value 'none' for '--lanes <LANES>'"),
]


@case
@in_a_machine()
def new_names(_folder):
    """systemctl reload of the installed service, and of an instance: a new name takes mail, nobody is refused
    meanwhile, and a script that adds one after the other has them all"""
    one, two = Service([]), Service(["anna"], name="a")
    CONF.write_text(WORDS)
    for service, boxes in [(one, BOXES), (two, pathlib.Path("/etc/lmtpd/a.boxes"))]:
        boxes.write_text("anna\n")
        with service:
            knocking = Knocking(service.address)
            add(boxes, "ben")
            equal(to(service, "ben"), NO_SUCH_BOX)
            systemctl("reload", service.unit)
            equal(to(service, "ben"), stored("ben"))
            for number in range(3):
                add(boxes, f"new{number}")
                for verb in ["reload", "start"]:
                    systemctl(verb, service.unit)
            equal([to(service, f"new{number}") for number in range(3)], [stored(f"new{number}") for number in range(3)])
            knocking.end()


@case
@in_a_machine()
def names_that_cant_be_used(_folder):
    """systemctl reload of the installed service with a name, a file or a word that can't be used: it fails, the journal
    says why, nothing is stopped, and the old names go on"""
    with Service(["anna"]) as service:
        CONF.write_text(WORDS)
        BOXES.write_text("anna\nben\n")
        service.restart()
        process = service.told("MainPID")
        for words, boxes, line in REFUSED:
            CONF.write_text(words)
            BOXES.unlink() if boxes is None else BOXES.write_bytes(boxes)
            before = len(service.lines("err"))
            said = subprocess.run(["systemctl", "reload", service.unit], capture_output=True, text=True)
            equal((line, said.returncode), (line, 1))
            equal((line, service.told("ActiveState"), service.told("MainPID")), (line, "active", process))
            found = service.lines("err")[before:]
            assert any(one.strip().startswith(line) for one in found), (line, found)
            equal([to(service, name) for name in ["anna", "ben"]], [stored("anna"), stored("ben")])
            BOXES.write_text("")


for one in [new_names, names_that_cant_be_used]:
    one.seconds = 240


def add(boxes, name):
    with boxes.open("a") as file:
        file.write(f"{name}\n")


def to(service, name):
    """What a letter for that name is answered, or its RCPT where that is refused."""
    with Client(service.address).greet() as client:
        client.ask("MAIL FROM:<carl@a.example>")
        asked = client.ask(f"RCPT TO:<{name}@mx.example>")
        if not asked.startswith("250 "):
            return asked
        client.ask("DATA")
        client.send("hello", ".")
        return client.hear()


class Knocking:
    """A client that comes again and again, each time until it is greeted."""

    def __init__(self, address):
        self.address = address
        self.over, self.faults, self.greeted = threading.Event(), [], 0
        self.thread = threading.Thread(target=self.knock)
        self.thread.start()

    def knock(self):
        while not self.over.is_set():
            try:
                with Client(self.address) as client:
                    self.greeted += client.hear_or_end().startswith("220 ")
            except OSError as fault:
                self.faults.append(fault)

    def end(self):
        self.over.set()
        self.thread.join()
        equal((self.faults, self.greeted > 0), ([], True))

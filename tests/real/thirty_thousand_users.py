"""Postfix and the service as it is installed with 30,000 users of one server: a name comes and one goes, each by a
reload, while letters flow; and a reload that goes back to the names of before."""

import os
import pathlib
import random
import re
import smtplib
import subprocess
import threading
import time

from cases import case, equal
from clients import Client
from in_a_machine import in_a_machine
from pages import lines_of, type_lines
from reload_names import BOXES, add, to
from replies import NO_SUCH_BOX, stored
from service import FOLDER, Service, systemctl

USERS = 30_000
NAMES = [f"user{number}" for number in range(1, USERS + 1)]
FEWER = 10_000  # whose server begins within the second that a reload waits for, on a busy machine too
NEW, GOES = f"user{USERS + 1}", "user777"
LANES = 8  # more than Postfix's connections, so that whoever looks at the greeting waits for a reload alone
SENDERS = 4
LEAST = 1_500  # letters of a sender
OF_A_SESSION = int(os.environ.get("LETTERS_OF_A_SESSION", "10"))
MAP = pathlib.Path("/etc/postfix/mailboxes")
SUBJECT = re.compile(rb"^Subject: letter-(\d+-\d+)$", re.MULTILINE)
# What no check can look at: how much the service may have of address space. More blocks take 256 MiB more.
ROOM = 100 * 2**20
MORE = "--lanes 64 --blocks 65536"
GOES_BACK = "the server can't begin with the new words, and goes on with those before status=1"


@case
@in_a_machine()
def thirty_thousand_users(_folder):
    """Postfix and the installed service with 30,000 users: 6,000 letters and more to the first, the last and users by
    chance, while a name is added and one is taken away, each by a reload; none is put off, each is there once and
    nowhere else"""
    keep_all_lines()
    with site() as service:
        type_lines("systemctl start postfix")
        make_map(NAMES)
        type_lines(lines_of("SETUP.md", "## Postfix").split("END\n")[-1])
        # its own way to the mailbox, without other places of mail
        letter("first", [NAMES[0], NAMES[-1]])
        flow = Flow()
        greeted = Greeted(service.address)
        time.sleep(3)
        resident = kilobytes(service)
        times = [add_name(service)]
        letter("new", [NEW])
        time.sleep(2)
        letter("old", [GOES])
        wait_until_both_are_there()
        times.append(take_name_away(service))
        flow.end()
        told = wait_until_sent(flow)
        greeted.end()
        look_at_mailboxes(flow, told)
        equal(to(service, GOES), NO_SUCH_BOX)
        equal(to(service, NEW), stored(NEW))
        with smtplib.SMTP("127.0.0.1", 25, local_hostname="client.example", timeout=20) as client:
            client.ehlo()
            client.mail("carl@a.example")
            asked = [client.rcpt(f"{name}@mx.example")[0] for name in [NEW, GOES, f"user{USERS + 2}"]]
        equal(asked, [250, 550, 550])
        equal(service.restarts(), 0)
        print(f"{told} letters in {flow.took:.0f} s, reloads of {times[0]:.2f} and {times[1]:.2f} s,", end=" ")
        print(f"{greeted.said()}, {resident} KiB resident", end="; ")
        if os.environ.get("SHOW_TIMES"):
            print("\n".join(["", *lines_with_times(service)]))


@case
@in_a_machine()
def a_reload_goes_back_to_all_of_them(_folder):
    """the installed service with 10,000 users, and a reload whose words no check refuses and whose server gets too
    little memory: the words and all 10,000 names of before go on, the last one's letter is stored"""
    names = NAMES[:FEWER]
    with site(names) as service:
        size = int(re.search(r"VmSize:\s+(\d+)", status_of(service))[1]) * 1024
        limit(size + ROOM)
        service.restart()
        equal(to(service, names[-1]), stored(names[-1]))
        before = len(service.lines("err"))
        service.set("OPTIONS", MORE)
        systemctl("reload", service.unit)
        found = service.lines("err")[before:]
        assert GOES_BACK in found, (size, found, lines_with_times(service))
        some = [names[0], names[FEWER // 2], names[-1]]
        equal({name: to(service, name) for name in some}, {name: stored(name) for name in some})


for one in [thirty_thousand_users, a_reload_goes_back_to_all_of_them]:
    one.seconds = 240


def keep_all_lines():
    """Of Postfix's too, which has several for each letter."""
    pathlib.Path("/run/systemd/journald.conf.d/rate.conf").write_text("[Journal]\nRateLimitBurst=0\n")
    systemctl("restart", "systemd-journald")


def site(names=NAMES):
    BOXES.write_text("\n".join([*names, ""]))
    return Service([str(BOXES)], "--lanes", LANES)


def limit(size):
    place = pathlib.Path("/etc/systemd/system/lmtpd.service.d")
    place.mkdir(parents=True)
    (place / "room.conf").write_text(f"[Service]\nLimitAS={size}\n")
    systemctl("daemon-reload")


def make_map(names):
    """The lines of the page's map, for all of these. Its file is made beside the one that Postfix reads, and takes its
    place in one step: in place `postmap` changes a file under sessions that go on, which then refuse users that exist
    (PLACE=in tries it)."""
    lines = "".join(f"{name}@mx.example  x\n" for name in names)
    if os.environ.get("PLACE") == "in":
        MAP.write_text(lines)
        type_lines(f"postmap {MAP}\npostfix reload\n")
        return
    MAP.with_name("mailboxes.new").write_text(lines)
    type_lines(f"cd {MAP.parent}\npostmap mailboxes.new\nmv mailboxes.new.db mailboxes.db\n")
    type_lines(f"cd {MAP.parent}\nmv mailboxes.new mailboxes\npostfix reload\n")


def add_name(service):
    """The server has it before Postfix does: how long its reload took."""
    add(BOXES, NEW)
    began = time.monotonic()
    systemctl("reload", service.unit)
    took = time.monotonic() - began
    make_map([*NAMES, NEW])
    return took


def take_name_away(service):
    """Postfix has it no more before the server does."""
    left = [name for name in [*NAMES, NEW] if name != GOES]
    make_map(left)
    BOXES.write_text("\n".join([*left, ""]))
    began = time.monotonic()
    systemctl("reload", service.unit)
    return time.monotonic() - began


class Flow:
    """Senders that hand letters to Postfix, one after the other, each for a user by chance; `sent` has whose it is."""

    def __init__(self):
        self.sent, self.faults, self.is_over = {}, [], threading.Event()
        self.began = time.monotonic()
        self.threads = [threading.Thread(target=self.send, args=(number,), daemon=True) for number in range(SENDERS)]
        for thread in self.threads:
            thread.start()

    def send(self, sender):
        chance = random.Random(sender)
        others = [name for name in NAMES if name != GOES]
        try:
            first = 0
            while first < LEAST or not self.is_over.is_set():
                with smtplib.SMTP("127.0.0.1", 25, local_hostname="client.example", timeout=60) as client:
                    for number in range(first, first + OF_A_SESSION):
                        name = [NAMES[0], NAMES[-1]][number] if number < 2 else chance.choice(others)
                        text = f"Subject: letter-{sender}-{number}\r\n\r\nhello\r\n"
                        client.sendmail("carl@a.example", [f"{name}@mx.example"], text)
                        self.sent[f"{sender}-{number}"] = name
                first += OF_A_SESSION
        except (OSError, smtplib.SMTPException) as fault:
            self.faults.append(fault)

    def end(self):
        self.is_over.set()
        for thread in self.threads:
            thread.join()
        self.took = time.monotonic() - self.began
        equal(self.faults, [])


def letter(subject, names):
    """One of Postfix's own, besides the flow."""
    addresses = [f"{name}@mx.example" for name in names]
    subprocess.run(["sendmail", *addresses], input=f"Subject: {subject}\n\nhello\n".encode(), check=True)


def wait_until_both_are_there():
    """The letters to the name that came and the one that goes."""
    until = time.monotonic() + 60
    while not all(any(f"to=<{name}@mx.example>" in line for line in fates()) for name in [NEW, GOES]):
        assert time.monotonic() < until, fates()[-3:]
        time.sleep(0.5)


def wait_until_sent(flow):
    """Until Postfix has handed all on, none put off; how many letters of the flow it was told 250 for."""
    until = time.monotonic() + 60
    besides = 4  # to the first and the last user, to the name that came and the one that goes
    while True:
        said = fates()
        equal([line for line in said if " status=sent " not in line], [])
        if len(said) == len(flow.sent) + besides:
            return len(flow.sent)
        assert time.monotonic() < until, (len(said), len(flow.sent), said[-3:])
        time.sleep(0.5)


def fates():
    """What Postfix's client of the server has logged of each recipient."""
    subprocess.run(["journalctl", "--sync"], check=True)
    words = ["journalctl", "--facility", "mail", "-o", "cat", "--no-pager", "-g", "relay=.* status="]
    said = subprocess.run(words, capture_output=True, text=True)
    return [line for line in said.stdout.splitlines() if " status=" in line]


def look_at_mailboxes(flow, told):
    """Each letter stands in its user's mailbox, once, and in none else."""
    found = {}
    for path in FOLDER.glob("*.mbox"):
        for subject in SUBJECT.findall(path.read_bytes()):
            found.setdefault(subject.decode(), []).append(path.name.removesuffix(".mbox"))
    equal(found == {number: [name] for number, name in flow.sent.items()}, True)
    equal(len(found), told)


class Greeted:
    """A client that comes again and again: how long each waited for its greeting, and from one to the next."""

    def __init__(self, address):
        self.address, self.is_over = address, threading.Event()
        self.waits, self.at, self.faults = [], [], []
        self.thread = threading.Thread(target=self.knock, daemon=True)
        self.thread.start()

    def knock(self):
        while not self.is_over.is_set():
            began = time.monotonic()
            try:
                with Client(self.address) as client:
                    heard = client.hear_or_end()
                    if not heard.startswith("220 "):
                        self.faults.append(heard)
                    self.at.append(time.monotonic())
                    self.waits.append(self.at[-1] - began)
                    client.ask_or_end("QUIT")
            except OSError as fault:
                self.faults.append(repr(fault))
            time.sleep(0.02)

    def end(self):
        self.is_over.set()
        self.thread.join()

    def said(self):
        gaps = [after - before for before, after in zip(self.at, self.at[1:])]
        longest = ", ".join(f"{one:.2f}" for one in sorted(gaps)[-3:])
        return (
            f"{len(self.at)} greetings, the three longest gaps between two {longest} s, "
            f"one waited {max(self.waits):.2f} s at most, without one {self.faults[:3]} ({len(self.faults)})"
        )


def lines_with_times(service):
    """The journal of the service and of systemd on it, but for letters and conversations."""
    words = ["journalctl", "-o", "short-precise", "--no-pager", "_PID=1", "+", f"SYSLOG_IDENTIFIER={service.unit}"]
    said = subprocess.run(words, check=True, capture_output=True, text=True, errors="replace").stdout.splitlines()
    return [line[7:] for line in said if not re.search("copy answered|conversation ended|stored [0-9]", line)][-25:]


def status_of(service):
    return pathlib.Path("/proc", service.told("MainPID"), "status").read_text()


def kilobytes(service):
    return int(re.search(r"VmRSS:\s+(\d+)", status_of(service))[1])

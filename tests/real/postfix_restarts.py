"""Postfix, which keeps its connections, and orderly restarts of the service: no letter is put off."""

import os
import re
import threading
import time

from cases import case, equal
from in_a_machine import in_a_machine
from postfix import Postfix
from service import Service

RESTARTS = int(os.environ.get("POSTFIX_RESTARTS", "30"))
SERVES = 0.7  # seconds; systemd gives up a service that is started thirty times in twenty
# Its own bound is eight seconds (tests/serve/stopping.py); what systemd does comes to that.
RESTARTED_WITHIN = 10
SENT_WITHIN = 60
LIMIT = 26_214_400  # bytes of a letter, here and in the service's /etc/lmtpd.conf
LINE = "x" * 70 + "\r\n"
# How many bytes a letter has, and how many letters come beside each restart at most: large ones lie in memory.
SMALL, LARGE = 2_000, 19_000_000
LETTERS = {SMALL: 1_000, LARGE: 8}
PAUSE = 0.005  # seconds between two


def settings(address, connections):
    """Postfix's, with each connection kept for the next letter."""
    return [
        f"virtual_transport = lmtp:unix:{address}",
        f"lmtp_destination_concurrency_limit = {connections}",
        "lmtp_connection_cache_destinations = static:all",
        # so that it is the server who ends one
        "lmtp_connection_cache_time_limit = 30s",
        f"message_size_limit = {LIMIT}",
        "mailbox_size_limit = 0",
    ]


def letter(name, size):
    return (f"Subject: {name}\r\n\r\n" + LINE * (size // len(LINE)) + f"end of {name}\r\n").encode()


def restarts_beside(folder, size, connections):
    with Service(["anna"]) as service, Postfix(folder, *settings(service.address, connections)) as postfix:
        told, longest = 0, 0
        for number in range(RESTARTS):
            with Sender(postfix, number, size) as sender:
                time.sleep(SERVES)
                longest = max(longest, restarted(service))
            equal(sender.faults, [])
            told += len(sender.names)
            wait_until_sent(postfix, told)
            take_out(service.mailbox("anna"), sender.names)
        look_at(postfix.log(), service, told, longest)


class Sender:
    """Hands letters to Postfix, one after the other, in a thread, until the end of a `with`; `names` are theirs."""

    def __init__(self, postfix, number, size):
        self.postfix, self.number, self.size = postfix, number, size
        self.names, self.faults, self.is_over = [], [], threading.Event()
        self.thread = threading.Thread(target=self.send)

    def __enter__(self):
        self.thread.start()
        return self

    def __exit__(self, *_):
        self.is_over.set()
        self.thread.join()

    def send(self):
        try:
            while len(self.names) < LETTERS[self.size] and not self.is_over.wait(PAUSE):
                name = f"letter-{self.number}-{len(self.names)}"
                self.postfix.send(["anna@mx.example"], letter(name, self.size))
                self.names.append(name)
        except OSError as fault:
            self.faults.append(fault)


def restarted(service):
    """How long that took."""
    since = time.monotonic()
    service.restart()
    return time.monotonic() - since


def wait_until_sent(postfix, count):
    until = time.monotonic() + SENT_WITHIN
    while time.monotonic() < until:
        fates = re.findall(r" status=(\w+) \((.*)\)", postfix.log())
        equal([fate for fate in fates if fate[0] != "sent"], [])
        if len(fates) == count:
            return
        time.sleep(0.1)
    raise AssertionError(f"{len(fates)} of {count} letters were sent: {postfix.log()[-800:]}")


def take_out(path, names):
    """The mailbox has these letters, each once and whole; nothing is under way, and it is emptied."""
    text = path.read_bytes()
    found = re.findall(rb"\nend of (\S+)\n", text)
    equal((sorted(name.decode() for name in found), text.count(b"\nSubject: letter-")), (sorted(names), len(names)))
    path.write_bytes(b"")


def look_at(log, service, told, longest):
    """Connections were kept, and some of them were ended by the stop."""
    kept = len(re.findall(r"conn_use=\d+, .* status=sent", log))
    stopped = sum(" cause=stopped " in line for line in service.lines())
    print(f"{told} letters, {kept} over a kept connection, {RESTARTS} restarts of at most {longest:.2f} s,", end=" ")
    print(f"{stopped} conversations ended by them, none put off", end=", ")
    equal(service.restarts(), 0)
    equal((kept > RESTARTS, stopped > 0), (True, True))
    assert longest < RESTARTED_WITHIN, longest


@case
@in_a_machine()
def small_letters_at_4(folder):
    """thirty times `systemctl restart lmtpd` beside Postfix, letters of 2 KB, 4 connections that it keeps: its log has
    no `status=deferred`, and each letter is there once"""
    restarts_beside(folder, SMALL, 4)


@case
@in_a_machine()
def small_letters_at_20(folder):
    """thirty times `systemctl restart lmtpd` beside Postfix, letters of 2 KB, 20 connections that it keeps: its log has
    no `status=deferred`, and each letter is there once"""
    restarts_beside(folder, SMALL, 20)


@case
@in_a_machine()
def large_letters_at_4(folder):
    """thirty times `systemctl restart lmtpd` beside Postfix, letters of 19 MB, 4 connections that it keeps: its log has
    no `status=deferred`, and each letter is there once"""
    restarts_beside(folder, LARGE, 4)


@case
@in_a_machine()
def large_letters_at_20(folder):
    """thirty times `systemctl restart lmtpd` beside Postfix, letters of 19 MB, 20 connections that it keeps: its log
    has no `status=deferred`, and each letter is there once"""
    restarts_beside(folder, LARGE, 20)


for one in [small_letters_at_4, small_letters_at_20, large_letters_at_4, large_letters_at_20]:
    one.seconds = 120 + 25 * RESTARTS

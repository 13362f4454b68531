"""A user holds a lease on a file of his own: whoever opens it waits, up to `fs.lease-break-time` (45 seconds)."""

import contextlib
import fcntl
import os
import pathlib
import signal
import time

from cases import case, equal
from clients import Client, deliver_one
from neighbours import ANNA, Senders, Site, done_by, need_undisturbed, seconds_of_letters
from replies import stored
from restarts import SECONDS_TO_END, asked_to_stop, ended_in_time

WITHIN = 5  # seconds, in which a server listens beside leases
TOLD_AFTER = 8  # seconds, after which a stop says what it waits for
NAMES = ["anna.mbox", "anna.mbox.lock", "anna.mbox.source.lock"]


def hold_leases(*paths):
    """Keeps a lease on each of these files, takes one again that was broken, and touches the file, so that it is never
    old."""
    signal.signal(signal.SIGIO, signal.SIG_IGN)
    held = [os.open(path, os.O_RDONLY) for path in paths]
    for one in held:
        fcntl.fcntl(one, fcntl.F_SETLEASE, fcntl.F_WRLCK)
    yield
    while True:
        for one in held:
            try:
                if fcntl.fcntl(one, fcntl.F_GETLEASE) == fcntl.F_UNLCK:
                    fcntl.fcntl(one, fcntl.F_SETLEASE, fcntl.F_WRLCK)
            except BlockingIOError:
                pass  # somebody has the file open
            os.utime(one)
        time.sleep(0.0005)


def put_a_lease_in_place(folder):
    """Puts another file in the place of anna's mailbox, with a lease on it."""
    os.umask(0)
    other = folder / "other"
    os.close(os.open(other, os.O_CREAT | os.O_WRONLY, 0o660))
    for _ in hold_leases(other):
        other.rename(folder / "anna.mbox")
        yield


def lease_break_seconds():
    """For how long the system waits for the holder of a lease."""
    return int(pathlib.Path("/proc/sys/fs/lease-break-time").read_text())


def letters_beside_a_lease(folder, *words):
    """What another user's letters take while four clients send letters to one with a lease on his lock file, once a
    letter of his was put off."""
    site = Site(folder)
    with site.serve(*words) as server:
        lock = site.put("anna.mbox.lock", ANNA, b"1", 0o666)
        with done_by(ANNA, hold_leases, lock), Senders(server.address, ["anna"]) as senders:
            senders.wait_until_put_off()
            return seconds_of_letters(server.address, "ben")


@case
def lease_on_a_lock_file(folder):
    """a user holds a lease on his lock file, four clients send him letters, and a turn waits for a second: another
    user's letters go on, 0.1 s in the middle and 1 s at most, once a letter of his was put off"""
    need_undisturbed(letters_beside_a_lease(folder, "--lock-wait", 1))


@case
def leases_at_the_start(folder):
    """a user holds leases on his mailbox, its lock file and what that is linked from: the server listens within five
    seconds, and another user's letter is stored"""
    site = Site(folder)
    for name in NAMES:
        site.put(name, ANNA, b"1", 0o666)
    began = time.monotonic()
    with done_by(ANNA, hold_leases, *(site.mail / name for name in NAMES)), site.serve() as server:
        took = time.monotonic() - began
        assert server.first.startswith("listening on ") and took < WITHIN, f"it listened after {took:.1f} s"
        equal(deliver_one(server.address, ["ben"], "hello"), [stored("ben")])


@case
def stop_beside_a_lease(folder):
    """a user holds a lease on his lock file while a letter for him waits: an orderly stop ends the server in eight
    seconds"""
    site = Site(folder)
    with site.serve("--stop-file", folder / "stop") as server:
        lock = site.put("anna.mbox.lock", ANNA, b"1", 0o666)
        with done_by(ANNA, hold_leases, lock), Client(server.address).greet() as client:
            client.start_message("anna", "hello")
            client.send(".")
            time.sleep(1)
            equal(ended_in_time(server, asked_to_stop(folder), SECONDS_TO_END + 1).status, 0)


@case
def stop_says_which_mailbox_it_waits_for(folder):
    """a user puts a file with a lease in the place of his mailbox, and a letter for him and one for another wait: eight
    seconds after the stop, and not before, the log names his mailbox, and no other"""
    site = Site(folder)
    with site.serve("--log", "error", "--stop-file", folder / "stop") as server, contextlib.ExitStack() as held:
        held.enter_context(done_by(ANNA, put_a_lease_in_place, site.mail))
        clients = [held.enter_context(Client(server.address).greet()) for _ in range(2)]
        for client, name in zip(clients, ["anna", "ben"]):
            client.start_message(name, "hello")
            client.send(".")
        equal(clients[1].hear(), stored("ben"))
        since = asked_to_stop(folder)
        said = server.process.stderr.readline()
        took = time.monotonic() - since
        equal(said, "[ERROR lmtpd] the stop waits for a call of the system mailbox=anna\n")
        assert TOLD_AFTER <= took < TOLD_AFTER + 2, took

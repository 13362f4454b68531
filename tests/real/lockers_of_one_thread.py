"""Users of the machine who hold up their mailboxes, which all are one thread's of the installed service, and a seventh
of that thread beside them."""

import collections
import contextlib
import os
import pwd
import signal
import subprocess
import time

from cases import case, equal
from clients import Client
from in_a_machine import in_a_machine
from leases import hold_leases
from neighbours import Senders, done_by, need_undisturbed, seconds_of_letters
from pages import lines_of, type_lines
from readers import bytes_held, name_held
from reload_names import BOXES
from service import Service

THREADS = 256  # of a server with more mailboxes
NAMES = [f"u{number}" for number in range(8 * THREADS)]
LOCKERS = NAMES[: 6 * THREADS : THREADS]
SEVENTH = NAMES[6 * THREADS]  # of their thread
OTHER = "u1"  # of another one
WAIT_FOR_ALL = 40  # seconds, in which each of the six has missed a turn


@contextlib.contextmanager
def site():
    """The service with 2,048 mailboxes, of which seven are users' of the machine, by the page's lines."""
    BOXES.write_text("\n".join([*NAMES, ""]))
    type_lines("useradd --create-home anna")
    with Service([str(BOXES)]) as service:
        type_lines(lines_of("MAILBOXES.md", "### Users' own programs on their own files"))
        for name in [*LOCKERS, SEVENTH]:
            type_lines(f"useradd --create-home {name}")
            type_lines(f"install -o {name} -g mail -m 660 /dev/null /var/mail/lmtpd/{name}.mbox")
        yield service


def hold(held, path):
    """That user's process has the lock until it is told to end, and gives it back."""
    signal.signal(signal.SIGTERM, lambda *_: exit(0))
    with held(path):
        yield
        while True:
            time.sleep(1)


@contextlib.contextmanager
def held_by(name, held, path):
    """That user's process has it meanwhile, and gives it back in the end."""
    user = pwd.getpwnam(name).pw_uid
    with done_by(user, hold, held, path) as process:
        yield
        subprocess.run(["kill", str(process)], check=True)
        time.sleep(0.2)


def letters_go_on(held):
    """The six hold that lock each; the seventh's letters go on beside them, and another thread's; theirs come once they
    let go."""
    with site() as service, contextlib.ExitStack() as locks:
        for name in LOCKERS:
            locks.enter_context(held_by(name, held, service.mailbox(name)))
        with Senders(service.address, LOCKERS) as senders:
            since = time.monotonic()
            senders.wait_until_put_off(WAIT_FOR_ALL)
            print(f"each was put off after {time.monotonic() - since:.0f} s;", end=" ")
            assert all(senders.put_off(name) for name in LOCKERS), {name: senders.put_off(name) for name in LOCKERS}
            for name in [SEVENTH, OTHER]:
                need_undisturbed(seconds_of_letters(service.address, name))
            assert not any(senders.stored(name) for name in LOCKERS)
            locks.close()
            senders.wait_until_stored()
        equal(service.restarts(), 0)
        counted = {name: len(senders.replies[name]) for name in LOCKERS}
        print(f"letters to the six {counted}", end="; ")


@case
@in_a_machine()
def six_by_the_range_lock(_folder):
    """systemd, 2,048 mailboxes: six users of the machine hold the range locks of their mailboxes, all of one thread,
    and four clients send them letters on four lanes: letters of a seventh of that thread, and of another, go on, 0.1 s
    in the middle and 1 s at most, once each of the six had one put off; theirs come once they let go"""
    letters_go_on(bytes_held)


@case
@in_a_machine()
def six_by_the_lock_file(_folder):
    """systemd, 2,048 mailboxes: six users of the machine hold the lock files of their mailboxes, all of one thread, and
    four clients send them letters on four lanes: letters of a seventh of that thread, and of another, go on, 0.1 s in
    the middle and 1 s at most, once each of the six had one put off; theirs come once they let go"""
    letters_go_on(name_held)


@case
@in_a_machine()
def a_lease_on_a_lock_file(_folder):
    """systemd, 2,048 mailboxes: a user of the machine holds a lease on his lock file, and four clients send him
    letters: letters of another of his thread, and of another thread, go on, 0.1 s in the middle and 1 s at most, once
    he had one put off"""
    name = LOCKERS[1]
    with site() as service:
        lock = service.lock_file(name)
        type_lines(f"su {name} -c 'printf 1 > {lock}; chmod 666 {lock}'")
        with done_by(pwd.getpwnam(name).pw_uid, hold_leases, lock), Senders(service.address, [name]) as senders:
            senders.wait_until_put_off(WAIT_FOR_ALL)
            assert senders.put_off(name), senders.replies
            for one in [SEVENTH, OTHER]:
                need_undisturbed(seconds_of_letters(service.address, one))


def beside_a_lease_on_a_mailbox(names, measured):
    """A user puts a file with a lease in the place of his mailbox, a letter for him waits for a second, and four
    clients send letters to these; then what letters of another mailbox take."""
    leased = LOCKERS[0]
    with site() as service, contextlib.ExitStack() as held:
        user = pwd.getpwnam(leased).pw_uid
        held.enter_context(done_by(user, put_a_lease_in_its_place, service.mailbox(leased)))
        client = held.enter_context(Client(service.address).greet())
        client.start_message(leased, "hello")
        client.send(".")
        time.sleep(1)
        with Senders(service.address, names) as senders:
            senders.wait_until_put_off()
            try:
                need_undisturbed(seconds_of_letters(service.address, measured))
            finally:
                print(f"told meanwhile: {told(senders)}", end="; ")


def told(senders):
    codes = {name: [reply[:3] for reply in replies] for name, replies in senders.replies.items()}
    return {name: dict(collections.Counter(found)) for name, found in codes.items()}


@case
@in_a_machine()
def a_lease_on_a_mailbox(_folder):
    """systemd, 2,048 mailboxes: a user of the machine puts a file with a lease in the place of his mailbox, a letter
    for him waits for a second, and then four clients send him more: letters of another thread go on, 0.1 s in the
    middle and 1 s at most"""
    beside_a_lease_on_a_mailbox(LOCKERS[:1], OTHER)


@case
@in_a_machine()
def a_lease_and_letters_for_others_of_its_thread(_folder):
    """systemd, 2,048 mailboxes: a user of the machine puts a file with a lease in the place of his mailbox, a letter
    for him waits for a second, and then four clients send letters to five others of his thread: letters of another
    thread go on, 0.1 s in the middle and 1 s at most"""
    beside_a_lease_on_a_mailbox(LOCKERS[1:], OTHER)


def put_a_lease_in_its_place(path):
    """Puts another file in the place of that mailbox, with a lease on it."""
    os.umask(0)
    other = path.with_name(f"{path.name}.other")
    os.close(os.open(other, os.O_CREAT | os.O_WRONLY, 0o660))
    for _ in hold_leases(other):
        other.rename(path)
        yield


for one in [
    six_by_the_range_lock,
    six_by_the_lock_file,
    a_lease_on_a_lock_file,
    a_lease_on_a_mailbox,
    a_lease_and_letters_for_others_of_its_thread,
]:
    one.seconds = 300

"""Neighbours who hold up their own mailboxes, and who send letters there: another user's letters go on beside them."""

import contextlib
import fcntl
import os
import signal
import time

from cases import case, equal
from clients import Client
from leases import hold_leases, lease_break_seconds, letters_beside_a_lease, put_a_lease_in_place
from neighbours import ANNA, MANY, Senders, Site, done_by, need_undisturbed, seconds_of_letters
from putting_off import THREADS, served, waiting
from readers import bytes_held
from replies import BUSY, GO_AHEAD, RECIPIENT_OK, RESET_OK, stored
from server import Server

LOCKERS = 6


@case
def six_lockers(folder):
    """six users hold the locks of their mailboxes, four lanes, and four clients send them letters: another user's
    letters go on, 0.1 s in the middle and 1 s at most, once each of the six had a letter put off; theirs come once
    they let go"""
    names = [f"locker{number}" for number in range(LOCKERS)]
    with Server(folder, [*names, "ben"], MANY, "--lanes", 4) as server, contextlib.ExitStack() as held:
        for name in names:
            held.enter_context(bytes_held(server.mailbox(name)))
        with Senders(server.address, names) as senders:
            senders.wait_until_put_off()
            need_undisturbed(seconds_of_letters(server.address, "ben"))
            assert not any(senders.stored(name) for name in names)
            held.close()
            senders.wait_until_stored()


six_lockers.seconds = 120


def hold_leases_on_others(folder):
    """Puts a new file in the place of anna's mailbox, with a lease on it, each time somebody waits for the last one."""
    signal.signal(signal.SIGIO, signal.SIG_IGN)
    os.umask(0)
    path = folder / "anna.mbox"
    held = []
    while True:
        if not held or fcntl.fcntl(held[-1], fcntl.F_GETLEASE) != fcntl.F_WRLCK:
            other = folder / f"other{len(held)}"
            held.append(os.open(other, os.O_CREAT | os.O_RDONLY, 0o660))
            fcntl.fcntl(held[-1], fcntl.F_SETLEASE, fcntl.F_WRLCK)
            other.rename(path)
            yield
        time.sleep(0.0005)


def letters_beside_a_leased_mailbox(folder, count):
    """What another user's letters take beside a mailbox with a lease on it, once that many letters for it wait for a
    second, and one of those was put off that four clients send besides."""
    site = Site(folder)
    with site.serve("--lanes", 4) as server, contextlib.ExitStack() as held:
        held.enter_context(done_by(ANNA, put_a_lease_in_place, site.mail))
        waiting = [held.enter_context(Client(server.address).greet()) for _ in range(count)]
        for client in waiting:
            client.start_message("anna", "hello")
            client.send(".")
        time.sleep(1)
        with Senders(server.address, ["anna"]) as senders:
            senders.wait_until_put_off()
            return seconds_of_letters(server.address, "ben")


@case
def lease_on_a_mailbox(folder):
    """a user puts a file with a lease in the place of his mailbox, a letter for him waits for a second, and then four
    clients send him more: another user's letters go on, 0.1 s in the middle and 1 s at most, once one of these was put
    off"""
    need_undisturbed(letters_beside_a_leased_mailbox(folder, 1))


@case
def lease_on_a_mailbox_with_three_letters(folder):
    """a user puts a file with a lease in the place of his mailbox, three letters for him wait for a second on four
    lanes, and then four clients send him more: another user's letters go on, 0.1 s in the middle and 1 s at most, once
    one of these was put off"""
    need_undisturbed(letters_beside_a_leased_mailbox(folder, 3))


@case
def leases_on_new_mailboxes_for_all_lanes(folder):
    """four clients at once send letters to a user who puts a file with a lease in the place of his mailbox, each time
    a new one, on four lanes: after one wait of the system's another user's letters go on, 0.1 s in the middle and 1 s
    at most"""
    site = Site(folder)
    with site.serve("--lanes", 4) as server:
        with done_by(ANNA, hold_leases_on_others, site.mail), Senders(server.address, ["anna"]) as senders:
            senders.wait_until_put_off(lease_break_seconds() + 10)
            need_undisturbed(seconds_of_letters(server.address, "ben"))


leases_on_new_mailboxes_for_all_lanes.seconds = 180


@case
def lease_on_a_mailbox_of_a_thread(folder):
    """a lease is on one of a thread's mailboxes, and a letter for it waits: of three clients that then send letters to
    others of that thread, on four lanes, two do and the third is told 450, and another thread's letters go on, 0.1 s in
    the middle and 1 s at most; the three letters come once the system's wait is over"""
    names = [f"u{place * THREADS}" for place in range(4)]
    leased = folder / f"{names[0]}.mbox"
    leased.touch()
    with served(folder, len(names)) as server, contextlib.ExitStack() as held:
        held.enter_context(done_by(os.geteuid(), hold_leases, leased))
        clients = [held.enter_context(waiting(server, names[0], "hello"))]
        time.sleep(1)
        for name in names[1:3]:
            clients.append(held.enter_context(waiting(server, name, "hello")))
        with Client(server.address).greet() as last:
            last.ask("MAIL FROM:<carl@a.example>")
            equal(last.ask(f"RCPT TO:<{names[3]}@mx.example>"), BUSY)
            last.quit()
        need_undisturbed(seconds_of_letters(server.address, "u1", 40))
        time.sleep(lease_break_seconds())
        equal([client.hear() for client in clients], [stored(name) for name in names[:3]])


lease_on_a_mailbox_of_a_thread.seconds = lease_break_seconds() + 60


@case
def lease_on_a_lock_file_for_ten_seconds(folder):
    """a user holds a lease on his lock file, four clients send him letters, and a turn waits for ten seconds: another
    user's letters go on, 0.1 s in the middle and 1 s at most, once a letter of his was put off"""
    need_undisturbed(letters_beside_a_lease(folder))


@case
def busy_for_half_the_lanes(folder):
    """a mailbox whose last turn was missed takes recipients of two of four lanes, and is busy for the others until one
    of the two has ended its transaction, or a turn was had; another mailbox takes each"""
    with Server(folder, ["anna", "ben"], MANY, "--lanes", 4, "--lock-wait", 0) as server, contextlib.ExitStack() as left:
        clients = [left.enter_context(Client(server.address).greet()) for _ in range(4)]
        first, second, third, fourth = clients
        with bytes_held(server.mailbox("anna")):
            assert first.deliver(["anna"], "hello")[1][0].startswith("451 ")
            for client in clients:
                client.ask("MAIL FROM:<carl@a.example>")
            for_anna, for_ben = "RCPT TO:<anna@mx.example>", "RCPT TO:<ben@mx.example>"
            equal([client.ask(for_anna) for client in clients], [RECIPIENT_OK, RECIPIENT_OK, BUSY, BUSY])
            equal([client.ask(for_anna) for client in clients], [RECIPIENT_OK, RECIPIENT_OK, BUSY, BUSY])
            equal([client.ask(for_ben) for client in clients], [RECIPIENT_OK] * 4)
            equal(second.ask("RSET"), RESET_OK)
            equal([third.ask(for_anna), fourth.ask(for_anna)], [RECIPIENT_OK, BUSY])
        equal(third.ask("DATA"), GO_AHEAD)
        third.send("Subject: x", "", "x", ".")
        equal([third.hear(), third.hear()], [stored("ben"), stored("anna")])
        equal(fourth.ask(for_anna), RECIPIENT_OK)

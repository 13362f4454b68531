"""Several mailboxes of one thread: what holds up one of them holds up none of the others."""

import contextlib
import os
import threading
import time

import letters
from cases import Absent, case, equal
from clients import Client
from neighbours import BEN, MANY, MIDDLE, Senders, need_undisturbed, seconds_of_letters
from readers import bytes_held, name_held
from replies import BUSY as TOLD_BUSY, not_stored, stored
from restarts import asked_to_stop, ended_in_time
from server import Server

THREADS = 256  # of a server with more mailboxes
LANES = 4
ROOM = 64 + LANES  # of the list beside a thread's channel
RESTS = 20  # seconds after which a mailbox rests that letters come to without a pause
BUSY, OTHER = "u0", f"u{THREADS}"  # two of one thread


def served(folder, per_thread, *more, connections=MANY):
    """A server in which each thread has that many mailboxes."""
    boxes = folder / "boxes"
    boxes.write_text("".join(f"u{number}\n" for number in range(per_thread * THREADS)))
    return Server(folder, [], connections, "--lanes", LANES, "--boxes", boxes, *more)


@contextlib.contextmanager
def waiting(server, name, *lines):
    """A client whose letter for that mailbox has been sent, to its dot."""
    with Client(server.address).greet() as client:
        client.start_message(name, *lines)
        client.send(".")
        yield client


@case
def a_locked_mailbox_of_a_thread(folder):
    """a reader has one of a thread's mailboxes, by either lock, and a letter for it waits: the letters for another one of
    the thread come, 0.1 s in the middle and 1 s at most, and the one that waits is stored once he lets go"""
    for place, held in enumerate([bytes_held, name_held]):
        mail = folder / str(place)
        mail.mkdir()
        with served(mail, 2, "--lock-wait", 60) as server, contextlib.ExitStack() as clients:
            with held(server.mailbox(BUSY)):
                client = clients.enter_context(waiting(server, BUSY, "hello"))
                time.sleep(0.2)
                need_undisturbed(seconds_of_letters(server.address, OTHER, 40))
            equal(client.hear(), stored(BUSY))


@case
def letters_that_wait_stay_in_order(folder):
    """eight letters for a mailbox that a reader has, sent one after the other, each told 250 once he lets go, stand in
    their order"""
    texts = [f"letter {number}" for number in range(2 * LANES)]
    with served(folder, 2, "--lock-wait", 60) as server, contextlib.ExitStack() as clients:
        for texts_sent in texts[:LANES], texts[LANES:]:
            with bytes_held(server.mailbox(BUSY)):
                sent = []
                for text in texts_sent:
                    sent.append(clients.enter_context(waiting(server, BUSY, text)))
                    time.sleep(0.1)
            equal([client.hear() for client in sent], [stored(BUSY)] * LANES)
            for client in sent:
                client.quit()
        equal(letters.messages(server.mailbox(BUSY)), [f"{text}\n".encode() for text in texts])


@case
def a_message_with_a_thousand_copies_for_a_locked_mailbox(folder):
    """a message with 1,000 copies for a mailbox that a reader has: while it waits the letters for another one of the
    thread come, 0.1 s in the middle and 1 s at most; more copies than there is room for are told 451 meanwhile, and what
    was told 250 is stored, no more and no less"""
    with served(folder, 2, "--recipient-delimiter", "+") as server, Client(server.address).greet() as client:
        with bytes_held(server.mailbox(BUSY)):
            sending = threading.Thread(target=send_copies, args=(client, 1_000))
            sending.start()
            need_undisturbed(seconds_of_letters(server.address, OTHER, 40))
        sending.join()
        told = [client.hear() for _ in range(1_000)]
        equal(set(told) <= {stored(BUSY), not_stored(BUSY)}, True)
        missed = told.count(not_stored(BUSY))
        assert missed >= 1_000 - ROOM, missed
        equal(letters.messages(server.mailbox(BUSY)), [b"hello\n"] * (1_000 - missed))
        return f"{missed} were told 451"


def send_copies(client, count):
    client.ask("MAIL FROM:<carl@a.example>")
    client.send(*[f"RCPT TO:<{BUSY}+{number}@mx.example>" for number in range(count)])
    for _ in range(count):
        assert client.hear().startswith("250 ")
    assert client.ask("DATA").startswith("354 ")
    client.send("hello", ".")


@case
def six_lockers_of_one_thread(folder):
    """six users hold the locks of mailboxes of one thread, four lanes, and four clients send them letters: the letters
    of a seventh of that thread go on, 0.1 s in the middle and 1 s at most, once each of the six had a letter put off;
    theirs come once they let go"""
    names = [f"u{place * THREADS}" for place in range(7)]
    with served(folder, len(names)) as server, contextlib.ExitStack() as held:
        for name in names[:-1]:
            held.enter_context(bytes_held(server.mailbox(name)))
        with Senders(server.address, names[:-1]) as senders:
            senders.wait_until_put_off(40)
            need_undisturbed(seconds_of_letters(server.address, names[-1]))
            assert not any(senders.stored(name) for name in names[:-1])
            held.close()
            senders.wait_until_stored()


six_lockers_of_one_thread.seconds = 150


@case
def a_mailbox_that_rests(folder):
    """letters come to one of a thread's mailboxes without a pause, so that it rests for 1.1 seconds after 20: the letters
    for another one of the thread come within 1 s, and no letter is told 451"""
    with served(folder, 2) as server:
        is_over = threading.Event()
        told = []
        sending = threading.Thread(target=send_until, args=(server.address, BUSY, is_over, told))
        sending.start()
        try:
            # the other one has a pause first, so that it needs no rest
            time.sleep(RESTS - 5)
            need_undisturbed(seconds_of_letters(server.address, OTHER, 1_000, 10))
        finally:
            is_over.set()
            sending.join()
        equal(set(told), {stored(BUSY)})
        equal(len(letters.messages(server.mailbox(BUSY))), len(told))


def send_until(address, name, is_over, told):
    with Client(address).greet() as client:
        while not is_over.is_set():
            told += client.deliver([name], "Subject: x", "", "x")[1]
        client.quit()


@case
def a_stop_ends_what_was_put_off(folder):
    """a stop while a letter waits for a mailbox that a reader has, with several in the thread: it is told 451 after the
    five seconds that all have, and the server ends"""
    with served(folder, 2, "--lock-wait", 60, "--stop-file", folder / "stop") as server:
        with bytes_held(server.mailbox(BUSY)), waiting(server, BUSY, "hello") as client:
            time.sleep(0.2)
            since = asked_to_stop(folder)
            equal(client.hear(), not_stored(BUSY))
            took = time.monotonic() - since
            assert 5 <= took < 8, took
            client.leave()
            ended = ended_in_time(server, since)
    equal((ended.status, [line.split()[0] for line in ended.said]), (0, [BUSY]))


@case
def mailboxes_that_are_none(folder):
    """of a thread's mailboxes a folder, a FIFO, a file with a second link and a symbolic link: each has its line at the
    start and its letters are told 451, and those for another one of the thread come, 0.1 s in the middle and 1 s at
    most"""
    names = [f"u{place * THREADS}" for place in range(5)]
    a_folder, a_pipe, linked, link = (folder / f"{name}.mbox" for name in names[:4])
    a_folder.mkdir()
    os.mkfifo(a_pipe)
    linked.touch()
    (folder / "other").hardlink_to(linked)
    link.symlink_to("other")
    with served(folder, 5, "--start-anyway", "--log", "error") as server:
        with Client(server.address).greet() as client:
            for name in names[:4]:
                equal(client.deliver([name], "hello")[1], [not_stored(name)])
            client.quit()
        need_undisturbed(seconds_of_letters(server.address, names[4], 20))
        server.process.terminate()
        errors = server.end().errors
    for name in names[:4]:
        assert sum(f"mailbox={name} " in f"{line} " for line in errors) >= 1, (name, errors)


@case
def senders_to_mailboxes_that_are_none(folder):
    """of a thread's mailboxes a folder, a FIFO, another's file (as root) and a file with a second link, to which four
    clients send letters meanwhile: each has its line at the start and every letter is told 451, or 450 at its RCPT, and
    none for another one of the thread takes longer than 0.1 s"""
    if os.geteuid() != 0:
        raise Absent("root")
    names = [f"u{place * THREADS}" for place in range(5)]
    a_folder, a_pipe, of_another, linked = (folder / f"{name}.mbox" for name in names[:4])
    a_folder.mkdir()
    os.mkfifo(a_pipe)
    of_another.touch()
    os.chown(of_another, BEN, BEN)
    linked.touch()
    (folder / "other").hardlink_to(linked)
    with served(folder, 5, "--start-anyway", "--log", "error") as server:
        with Senders(server.address, names[:4]) as senders:
            time.sleep(1)
            need_undisturbed(seconds_of_letters(server.address, names[4]), MIDDLE)
        server.process.terminate()
        errors = server.end().errors
    for name in names[:4]:
        replies = senders.replies[name]
        equal((name, {*replies, TOLD_BUSY}, len(replies) > 10), (name, {not_stored(name), TOLD_BUSY}, True))
        equal(errors.count(f"[ERROR lmtpd] cannot open mailbox={name} reason=not plain"), 1)
    equal(errors[:4], [f"[ERROR lmtpd] cannot open mailbox={name} reason=not plain" for name in names[:4]])
    equal(len(letters.messages(server.mailbox(names[4]))), 100)

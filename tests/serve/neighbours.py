"""A folder in which each user of the machine may make files, as docs/operating/MAILBOXES.md sets one up, the server of
a user of its own, what a neighbour does there, and how long another user's letters take beside it."""

import contextlib
import os
import shutil
import signal
import socket
import statistics
import threading
import time

from cases import Absent
from clients import Client
from server import Server

# The users are none of the machine's; the group stands for `mail`.
OF_SERVER, ANNA, BEN, MAIL = 60_001, 60_002, 60_003, 60_008
MANY = 1_000_000  # conversations: more than any case holds
# What another user's letters may take beside an attack: in the middle, and the slowest of a hundred.
MIDDLE, SLOWEST = 0.1, 1.0


class Site:
    """A folder, of mode 3777 where nothing else is said, with the mailboxes of anna and ben, each its user's, and the
    servers there."""

    def __init__(self, folder, owner=OF_SERVER, group=MAIL, mode=0o3777):
        if os.geteuid() != 0:
            raise Absent("root")
        self.group = group
        self.program = folder / "lmtpd"
        shutil.copy(os.environ["LMTPD"], self.program)
        self.mail = folder / "mail"
        self.mail.mkdir()
        folder.chmod(0o755)
        os.chown(self.mail, owner, group)
        self.mail.chmod(mode)
        for name, user in [("anna", ANNA), ("ben", BEN)]:
            self.put(f"{name}.mbox", user, b"", 0o660)

    def put(self, name, user, text, mode):
        """A file of that user's."""
        path = self.mail / name
        path.write_bytes(text)
        os.chown(path, user, self.group)
        path.chmod(mode)
        return path

    def serve(self, *more, **how):
        how |= {"user": OF_SERVER, "group": OF_SERVER, "extra_groups": [self.group], "umask": 0o077}
        words = ["--start-anyway", "--mailbox-mode", "0660", *more]
        return Server(self.mail, ["anna", "ben", "carl"], MANY, *words, executable=self.program, **how)


@contextlib.contextmanager
def done_by(user, action, *given):
    """That user's process does this meanwhile. It begins once the action, a generator, has said that it has begun."""
    heard, said = os.pipe()
    process = os.fork()
    if process == 0:
        try:
            os.setgroups([])
            os.setgid(user)
            os.setuid(user)
            for _ in action(*given):
                os.write(said, b"x")
        finally:
            os._exit(1)
    os.close(said)
    try:
        if not os.read(heard, 1):
            raise Absent(f"leave to {action.__name__.replace('_', ' ')}")
        yield process
    finally:
        os.close(heard)
        # it may have ended by itself
        with contextlib.suppress(ProcessLookupError):
            os.kill(process, signal.SIGKILL)
        os.waitpid(process, 0)


class Senders:
    """Clients that send letters until the end, as a relay does: a connection for each, which is given up once nothing
    is heard for 20 seconds. All go to one of the mailboxes at a time, and so by turns to all."""

    def __init__(self, address, names, count=4):
        self.address, self.names, self.count = address, names, count
        self.replies = {name: [] for name in names}
        self.sent = 0
        self.clients = set()
        self.is_over = threading.Event()
        self.threads = [threading.Thread(target=self.send, daemon=True) for _ in range(count)]

    def __enter__(self):
        for thread in self.threads:
            thread.start()
        return self

    def __exit__(self, *_):
        self.is_over.set()
        for client in list(self.clients):
            with contextlib.suppress(OSError):
                client.socket.shutdown(socket.SHUT_RDWR)
        for thread in self.threads:
            thread.join(25)

    def send(self):
        while not self.is_over.is_set():
            name = self.names[self.sent // self.count % len(self.names)]
            self.sent += 1
            with contextlib.suppress(OSError, AssertionError):
                self.replies[name].append(self.sent_one(name))
            time.sleep(0.02)

    def sent_one(self, name):
        """The last reply to a letter, which may be that to RCPT."""
        client = Client(self.address)
        self.clients.add(client)
        try:
            with client.greet():
                client.ask("MAIL FROM:<carl@a.example>")
                told = client.ask(f"RCPT TO:<{name}@mx.example>")
                if told.startswith("250 ") and client.ask("DATA").startswith("354 "):
                    client.send("Subject: x", "", "x", ".")
                    told = client.hear()
                client.ask("QUIT")
            return told
        finally:
            self.clients.discard(client)

    def wait_until_put_off(self, within=8):
        """Until each of the mailboxes had a letter put off, which takes less than a second each, or for so many seconds,
        in which a server that waits for one of them has come no further."""
        until = time.monotonic() + within
        while time.monotonic() < until and not all(self.put_off(name) for name in self.names):
            time.sleep(0.1)

    def put_off(self, name):
        return sum(reply.startswith("45") for reply in self.replies[name])

    def wait_until_stored(self, within=20):
        """Until each of the mailboxes had a letter stored, which must come in so many seconds."""
        until = time.monotonic() + within
        while not all(self.stored(name) for name in self.names):
            without = [name for name in self.names if not self.stored(name)]
            assert time.monotonic() < until, f"no letter came for {without}"
            time.sleep(0.1)

    def stored(self, name):
        return any(reply.startswith("250 ") for reply in self.replies[name])


def seconds_of_letters(address, name, count=100, within=30):
    """What that many letters for a mailbox take, each with a connection of its own, a little after the one before; as
    many as there is time for."""
    found, until = [], time.monotonic() + within
    while len(found) < count and time.monotonic() < until:
        began = time.monotonic()
        try:
            with Client(address).greet() as client:
                assert client.deliver([name], "Subject: x", "", "x")[1][0].startswith("250 ")
                client.quit()
        except TimeoutError:
            raise AssertionError(f"after {len(found)} letters for {name} one wasn't served in 20 seconds") from None
        found.append(time.monotonic() - began)
        time.sleep(0.05)
    return found


def need_undisturbed(seconds, most=SLOWEST):
    """The letters took as long as they may beside an attack."""
    middle, slowest = statistics.median(seconds), max(seconds)
    said = f"{len(seconds)} letters, {middle:.3f} s in the middle, {slowest:.2f} s at most"
    assert middle < MIDDLE and slowest < most, said
    print(f"beside it: {said}", flush=True)

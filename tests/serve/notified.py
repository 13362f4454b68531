"""What the service manager is told that started the server (NOTIFY_SOCKET, as sd_notify(3) has it), and how the journal
has a line that tells good news."""

import os
import socket

from cases import case, equal
from clients import Client, deliver_one
from logs import environment
from reasons import HOLDS
from replies import not_stored, stored
from restarts import asked_to_stop, ended_in_time
from server import Server, run_as, taken_port, words

NAME = "NOTIFY_SOCKET"
QUIET = 0.7  # seconds after which nothing more is told
CANNOT = "[ERROR lmtpd] cannot tell the service manager reason="
REFUSED, MISSING = "Connection refused (os error 111)", "No such file or directory (os error 2)"


class Manager:
    """A socket of that name, and what it is told; with `@` before it a name that no file has."""

    def __init__(self, name):
        self.name = str(name)
        self.socket = socket.socket(socket.AF_UNIX, socket.SOCK_DGRAM)
        self.socket.bind(self.name.replace("@", "\0", 1))
        self.socket.settimeout(QUIET)

    def __enter__(self):
        return self

    def __exit__(self, *_):
        self.socket.close()

    def told(self):
        try:
            return self.socket.recv(100)
        except TimeoutError:
            return None


def own(name):
    """The environment where that is the manager's socket; none where it is None."""
    given = {word: value for word, value in os.environ.items() if word != NAME}
    return given | ({NAME: str(name)} if name is not None else {})


@case
def a_manager_is_told(folder):
    """NOTIFY_SOCKET, a path and a name that no file has: READY=1 once it listens and STOPPING=1 once it is to stop, each
    once, over four lanes"""
    for place, name in [(folder / "a", folder / "manager"), (folder / "b", f"@lmtpd-test-{os.getpid()}")]:
        place.mkdir()
        with Manager(name) as manager:
            stop = ["--stop-file", place / "stop", "--log", "error"]
            with Server(place, ["anna"], 1_000, *stop, env=own(name)) as server:
                equal((manager.told(), manager.told()), (b"READY=1", None))
                for _ in range(5):
                    equal(deliver_one(server.address, ["anna"], "hello"), [stored("anna")])
                equal(manager.told(), None)
                ended = ended_in_time(server, asked_to_stop(place))
            equal((manager.told(), manager.told()), (b"STOPPING=1", None))
            equal((ended.status, ended.errors), (0, []))


@case
def a_manager_that_is_busy(folder):
    """a manager whose socket is full at the start is told once it has room again, and mail is taken meanwhile"""
    with Manager(folder / "manager") as manager, socket.socket(socket.AF_UNIX, socket.SOCK_DGRAM) as filling:
        filling.setblocking(False)
        count = filled(filling, manager.name)
        with Server(folder, ["anna"], 2, "--lanes", 2, "--log", "error", env=own(manager.name)) as server:
            equal(deliver_one(server.address, ["anna"], "hello"), [stored("anna")])
            equal([manager.told() for _ in range(count)], [b"x"] * count)
            equal(manager.told(), b"READY=1")


def filled(filling, name):
    """How many datagrams the socket of that name takes."""
    for count in range(100_000):
        try:
            filling.sendto(b"x", name)
        except BlockingIOError:
            return count
    raise AssertionError("it is never full")


@case
def no_manager(folder):
    """NOTIFY_SOCKET isn't set, is empty, or names no socket that takes it: it serves on, and at error the log says why
    in a line, and says nothing where nobody asks"""
    (folder / "file").touch()
    with Manager(folder / "gone"):
        pass
    reasons = {None: None, "": None, folder / "none": MISSING, folder / "gone": REFUSED, folder / "file": REFUSED}
    reasons |= {"relative": "invalid", "@" + "x" * 300: "invalid", "/" + "x" * 107: "invalid"}
    for name, reason in reasons.items():
        for level in ["error", "off"]:
            with Server(folder, ["anna"], 1, "--lanes", 1, "--log", level, env=own(name)) as server:
                equal(deliver_one(server.address, ["anna"], "hello"), [stored("anna")])
                ended = server.end()
            expected = 1 if reason and level == "error" else 0
            equal((name, level, ended.status, len(ended.errors)), (name, level, 0, expected))
            assert not expected or ended.errors[0].startswith(CANNOT), ended.errors
            assert not expected or reason in ended.errors[0], ended.errors


@case
def a_start_that_fails_is_not_told(folder):
    """a start that comes to nothing, by the port, a size, the folder or the words, and a check of words: nothing is told"""
    listener, port = taken_port()
    with Manager(folder / "manager") as manager, listener:
        fails = [words(folder, ["anna"], 1, listen=f"127.0.0.1:{port}"), words(folder, ["anna"], 1, "--lanes", 65)]
        fails += [words(folder / "none", ["anna"], 1), words(folder, ["Anna"], 1)]
        for given in fails:
            assert run_as(given, env=own(manager.name)).status in [1, 2], given
        equal(run_as(words(folder, ["anna"], 1, "--check-words"), env=own(manager.name)).status, 0)
        equal(manager.told(), None)


@case
def good_news_is_a_notice(folder):
    """in the journal `free again` has <5> before it, where `in use` has <3>; elsewhere both are as they were"""
    ends = socket.socketpair()
    with ends[0] as reader, ends[1] as writer:
        seen = os.fstat(writer.fileno())
        for name, marks in [(f"{seen.st_dev}:{seen.st_ino}", ["<3>", "<5>"]), (None, ["", ""])]:
            hold = next(iter(HOLDS))
            more = ["--lanes", 1, "--lock-wait", 0, "--log", "error"]
            with Server(folder, ["anna"], 1, *more, errors=writer, env=environment(name)) as server:
                with Client(server.address).greet() as client:
                    server.mailbox("anna").touch()
                    with hold(server.mailbox("anna")):
                        equal(client.deliver(["anna"], "hello")[1], [not_stored("anna")])
                    equal(client.deliver(["anna"], "hello")[1], [stored("anna")])
                    client.quit()
                equal(server.end().status, 0)
            in_use, again = reader.recv(65_536).decode().splitlines()[:2]
            assert in_use.startswith(f"{marks[0]}[ERROR lmtpd] mailbox in use mailbox=anna "), in_use
            equal(again, f"{marks[1]}[ERROR lmtpd] mailbox free again mailbox=anna")

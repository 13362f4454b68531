"""Clients that send without an end, on all lanes but one, and ten thousand that say nothing."""

import contextlib
import resource
import select
import socket
import threading
import time

from cases import Absent, case
from clients import deliver_one
from limits import kilobytes
from neighbours import MANY, need_undisturbed, seconds_of_letters
from replies import stored
from server import Server

LANES = 4
SECONDS = 4  # of each flood
# What the slowest letter may take: here floods and letters are of one process, and the machine may be busy.
MOST = 5
START = b"LHLO flood\r\n"
DATA = START + b"MAIL FROM:<a@b>\r\nRCPT TO:<anna@mx.example>\r\nDATA\r\n"
# What comes first, and then again and again.
FLOODS = {
    "commands": (START, b"NOOP\r\n"),
    "empty lines": (START, b"\r\n"),
    "unknown recipients": (START + b"MAIL FROM:<a@b>\r\n", b"RCPT TO:<zoe@mx.example>\r\n"),
    "a line without an end": (START, b"x" * 65_536),
    "NULs": (START, b"\0" * 65_536),
    "carriage returns": (START, b"\r" * 65_536),
    "data without an end": (DATA, b"y" * 62 + b"\r\n"),
    "dots": (DATA, b"..\r\n"),
    "half an end": (DATA, b"\r\n.\r"),
}
IDLE = 10_000
MORE_MEMORY = 4_096  # KiB that they may take


class Flood:
    """A client that sends that until the end, takes what it is told, and comes again where it was sent away."""

    def __init__(self, address, start, more):
        self.address, self.start = address, start
        self.more = more * max(1, 65_536 // len(more))
        self.is_over = threading.Event()
        self.thread = threading.Thread(target=self.go_on, daemon=True)

    def __enter__(self):
        self.thread.start()
        return self

    def __exit__(self, *_):
        self.is_over.set()
        self.thread.join()

    def go_on(self):
        while not self.is_over.is_set():
            with contextlib.suppress(OSError), socket.create_connection(self.address, timeout=20) as made:
                made.sendall(self.start)
                made.setblocking(False)
                self.send_over(made)

    def send_over(self, made):
        at = 0
        while not self.is_over.is_set():
            readable, writable, _ = select.select([made], [made], [], 1)
            if readable and not made.recv(1 << 20):
                return
            if writable:
                at = (at + made.send(self.more[at:])) % len(self.more)


@case
def floods_on_all_lanes_but_one(folder):
    """three of four lanes have a client that sends commands, empty lines, unknown recipients, a line without an end,
    NULs, carriage returns, data without an end, dots or half an end of data: another user's letters go on, 0.1 s in the
    middle"""
    for name, (start, more) in FLOODS.items():
        place = folder / name.replace(" ", "_")
        place.mkdir()
        # each has a server of its own, since one reads what was sent for a while after its client has gone
        with Server(place, ["anna", "ben"], MANY, "--lanes", LANES, "--rename-marks") as server:
            with contextlib.ExitStack() as floods:
                for _ in range(LANES - 1):
                    floods.enter_context(Flood(server.address, start, more))
                time.sleep(0.2)
                print(f"{name}: ", end="")
                need_undisturbed(seconds_of_letters(server.address, "ben", 100, SECONDS), MOST)


floods_on_all_lanes_but_one.seconds = 120


@case
def ten_thousand_idle_clients(folder):
    """ten thousand clients that connect and say nothing: the server takes no memory for them, and once they are gone
    the next one is served"""
    may_open(IDLE + 1_000)
    with Server(folder, ["anna"], MANY, "--lanes", LANES) as server:
        assert deliver_one(server.address, ["anna"], "before") == [stored("anna")]
        before = kilobytes(server)
        with contextlib.ExitStack() as made:
            for _ in range(IDLE):
                one = made.enter_context(socket.socket())
                one.setblocking(False)
                one.connect_ex(server.address)
            time.sleep(5)
            more = kilobytes(server) - before
            assert more < MORE_MEMORY, f"{more} KiB more"
        assert deliver_one(server.address, ["anna"], "after") == [stored("anna")]
        assert server.process.poll() is None


ten_thousand_idle_clients.seconds = 120


def may_open(count):
    """This process may have that many files open, where the system lets it."""
    _, hard = resource.getrlimit(resource.RLIMIT_NOFILE)
    try:
        resource.setrlimit(resource.RLIMIT_NOFILE, (count, max(count, hard)))
    except (OSError, ValueError):
        raise Absent(f"{count} open files") from None

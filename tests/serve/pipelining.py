"""A server whose end is asked for while a client sends command after command, and reads the replies or doesn't."""

import contextlib
import threading
import time

from cases import case, equal
from clients import connected
from replies import GREETING, NOOP_OK, STOPPING
from restarts import MANY, asked_to_stop, ended_in_time
from server import Server

COMMAND, REPLY = b"NOOP\r\n", f"{NOOP_OK}\r\n".encode()
FIRST, LAST = f"{GREETING}\r\n".encode(), f"{STOPPING}\r\n".encode()
# Stops after that many seconds of sending, so that they meet the server at several places in what it has read.
STOPS = [0.3, 0.37, 0.43, 0.51, 0.59, 0.68]
TCP, UNIX = "127.0.0.1:0", "unix:{}/sock"


class Pipelining:
    """A client that sends commands for as long as the server takes them, in a thread, and reads in another one."""

    def __init__(self, address):
        self.socket = connected(address)
        self.heard, self.sent, self.fault = bytearray(), 0, None
        self.sender = threading.Thread(target=self.send)
        self.reader = threading.Thread(target=self.read)
        self.sender.start()

    def send(self):
        with contextlib.suppress(OSError):
            while True:
                self.socket.sendall(COMMAND * 1_000)
                self.sent += 1_000 * len(COMMAND)

    def read(self):
        try:
            while piece := self.socket.recv(65_536):
                self.heard += piece
        except OSError as fault:
            self.fault = fault

    def __enter__(self):
        return self

    def __exit__(self, *_):
        self.sender.join()
        if self.reader.ident is not None:
            self.reader.join()
        self.socket.close()

    def told(self):
        """What was heard: how many replies, and the bytes that follow the last of them."""
        heard = bytes(self.heard).removeprefix(FIRST)
        count = 0
        while heard.startswith(REPLY, count * len(REPLY)):
            count += 1
        return count, heard[count * len(REPLY) :]


def stopped_while_it_sends(folder, where, seconds, reads):
    """What the client hears last. It reads from its start (`always`), once the stop is asked for, or never."""
    more = ["--lanes", 1, "--log", "info", "--stop-file", folder / "stop"]
    with Server(folder, ["anna"], MANY, *more, listen=where.format(folder)) as server:
        with Pipelining(server.address) as client:
            if reads == "always":
                client.reader.start()
            time.sleep(seconds)
            sent, since = client.sent, asked_to_stop(folder)
            if reads == "from the stop on":
                client.reader.start()
            ended = ended_in_time(server, since)
            took = time.monotonic() - since
    (folder / "stop").unlink()
    count, rest = client.told()
    print(f"{where[:4]}, reads {reads}: sent {sent} bytes until the stop, ended {took:.2f} s after it;", end=" ")
    print(f"heard {len(client.heard)} bytes, {count} replies, then {rest!r}, {client.fault!r};", *ended.errors)
    equal((ended.status, ended.said), (0, ["anna stored 0"]))
    # one that takes nothing may be given up in a write
    assert reads == "never" or " cause=stopped " in ended.errors[0], ended.errors
    return rest


@case
def a_stop_while_a_client_pipelines_and_takes_nothing(folder):
    """a client sends commands on and takes no reply at a stop: the server ends in time, with status 0"""
    for where in [TCP, UNIX]:
        stopped_while_it_sends(folder, where, STOPS[0], "never")


@case
def a_stop_while_a_client_pipelines_and_reads(folder):
    """a client sends commands on and reads their replies at a stop: 421 is the last that it hears"""
    for where in [TCP, UNIX]:
        equal(last_heard(folder, where, "always"), [LAST] * len(STOPS))


@case
def a_stop_while_a_client_pipelines_and_reads_late(folder):
    """a client sends commands on and reads no reply until a stop, then all: 421 is the last that it hears"""
    for where in [TCP, UNIX]:
        equal(last_heard(folder, where, "from the stop on"), [LAST] * len(STOPS))


# a client that sends on may be served for the five seconds that a stop leaves it
for one in [a_stop_while_a_client_pipelines_and_reads, a_stop_while_a_client_pipelines_and_reads_late]:
    one.seconds = 240


def last_heard(folder, where, reads):
    return [stopped_while_it_sends(folder, where, seconds, reads) for seconds in STOPS]

"""A server whose process has no descriptor left for a while, so that its accepts fail."""

import contextlib
import os
import resource
import socket
import time

from cases import case, equal
from clients import Client, deliver_one
from inherited import Inheriting, passed
from replies import CLOSING, stored
from server import Server

NO_DESCRIPTOR = "[ERROR lmtpd] cannot accept reason=Too many open files (os error 24)"


@contextlib.contextmanager
def without_descriptors(process):
    """Meanwhile the process may open nothing."""
    taken = [int(number) for number in os.listdir(f"/proc/{process.pid}/fd")]
    soft, hard = resource.prlimit(process.pid, resource.RLIMIT_NOFILE)
    resource.prlimit(process.pid, resource.RLIMIT_NOFILE, (max(taken) + 1, hard))
    try:
        yield
    finally:
        with contextlib.suppress(ProcessLookupError):
            resource.prlimit(process.pid, resource.RLIMIT_NOFILE, (soft, hard))


@case
def a_while_without_descriptors(folder):
    """after two seconds in which no lane could accept each of four lanes serves a client, and the log says so once"""
    with Server(folder, ["anna"], 4, "--lanes", 4, "--log", "error") as server:
        with without_descriptors(server.process):
            time.sleep(2)
        with contextlib.ExitStack() as ends:
            # each lane has one conversation, and all four are held at once
            clients = [ends.enter_context(Client(server.address)).greet() for _ in range(4)]
            for client in clients:
                equal(client.deliver(["anna"], "hello")[1], [stored("anna")])
            equal([client.quit() for client in clients], [CLOSING] * 4)
        ended = server.end()
    equal((ended.status, ended.said, ended.errors), (0, ["anna stored 4"], [NO_DESCRIPTOR]))


@case
def a_stop_while_there_is_no_descriptor(folder):
    """a server that can't accept ends within two seconds of the stop, in order, whatever pause its lanes have"""
    stop = folder / "stop"
    with Server(folder, ["anna"], 4, "--lanes", 2, "--log", "error", "--stop-file", stop) as server:
        with without_descriptors(server.process):
            # the pauses that are under way last 1.6 and 3.2 seconds
            time.sleep(3)
            begun = time.monotonic()
            stop.touch()
            ended = server.end()
            passed = time.monotonic() - begun
    equal((ended.status, ended.said, ended.errors), (0, ["anna stored 0"], [NO_DESCRIPTOR]))
    equal(passed < 2, True)


@case
def a_socket_that_listens_no_more(folder):
    """somebody who has the server's socket too ends its listening: what was told 250 is stored, and the server ends with
    status 1 and `lmtpd: cannot listen`"""
    with passed() as shared, Inheriting(folder, shared, connections=5) as server:
        equal(deliver_one(shared.getsockname(), ["anna"], "hello"), [stored("anna")])
        shared.shutdown(socket.SHUT_RDWR)
        ended = server.end()
    equal((ended.status, ended.said, ended.errors), (1, ["anna stored 1"], ["lmtpd: cannot listen"]))

"""The program, run as `lmtpd serve` with words of its own."""

import os
import socket
import subprocess
from dataclasses import dataclass


@dataclass
class Ended:
    status: int
    said: list  # the lines on standard output after the one that says where it listens
    errors: list  # the lines on standard error


class Server:
    """A server that listens, from its start to the end of a `with`, which ends it where it still runs."""

    def __init__(self, folder, boxes, connections, *more, listen="127.0.0.1:0", errors=subprocess.PIPE, **how):
        """What is said of `how` it is started is said as to Popen."""
        self.folder = folder
        self.process = start(words(folder, boxes, connections, *more, listen=listen), errors, **how)
        try:
            self.first = self.process.stdout.readline()
        except BaseException:
            self.__exit__()
            raise

    @classmethod
    def with_words(cls, folder, given):
        """With just these words."""
        server = cls.__new__(cls)
        server.folder = folder
        server.process = start(given)
        server.first = server.process.stdout.readline()
        return server

    def __enter__(self):
        return self

    def __exit__(self, *_):
        self.process.kill()
        self.process.communicate()

    @property
    def address(self):
        """Host and port, or the path of a Unix socket, as its first line tells them."""
        assert self.first.startswith("listening on ") and self.first.endswith("\n"), self.first
        where = self.first.removeprefix("listening on ").removesuffix("\n")
        if where.startswith("unix:"):
            return where.removeprefix("unix:")
        front, end = where.rsplit(":", 1)
        return front.strip("[]"), int(end)

    @property
    def text(self):
        host, port = self.address
        return f"{host}:{port}"

    def end(self):
        """How it ends by itself, once it has had all its clients."""
        said, errors = self.process.communicate(timeout=20)
        return Ended(self.process.returncode, said.splitlines(), (errors or "").splitlines())

    def mailbox(self, name):
        return self.folder / f"{name}.mbox"

    def lock_file(self, name):
        return self.folder / f"{name}.mbox.lock"


def words(folder, boxes, connections, *more, listen="127.0.0.1:0", host="mx.example"):
    fixed = ["--host", host, "--listen", listen, "--dir", str(folder), "--connections", str(connections)]
    return ["serve", *fixed, *map(str, more), *boxes]


def start(given, errors=subprocess.PIPE, **how):
    ends = {"stdin": subprocess.DEVNULL, "stdout": subprocess.PIPE, "stderr": errors}
    return subprocess.Popen([os.environ["LMTPD"], *given], text=True, **ends, **how)


def run(given):
    """How the program ends with these words, where it ends at once."""
    return run_as(given)


def run_as(given, **how):
    """The same, started as that is said to Popen."""
    process = start(given, **how)
    try:
        said, errors = process.communicate(timeout=20)
    finally:
        process.kill()
    return Ended(process.returncode, said.splitlines(), errors.splitlines())


def taken_port():
    """A socket that listens on a port of loopback, which is taken then."""
    listener = socket.create_server(("127.0.0.1", 0))
    return listener, listener.getsockname()[1]

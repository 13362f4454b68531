"""A server that has its socket from whoever started it, as a service manager does."""

import contextlib
import os
import pathlib
import re
import socket
import subprocess

from server import Server, words


@contextlib.contextmanager
def passed(kind=socket.AF_INET, at=("127.0.0.1", 0), listens=True):
    """A socket that is bound, and listens or doesn't."""
    with socket.socket(kind) as made:
        made.bind(at)
        if listens:
            made.listen()
        yield made


def handed(given, descriptor, process="$$", count=1):
    """A command by which the program has this descriptor as its third, and is told so."""
    words_of_it = f"LISTEN_PID={process} LISTEN_FDS={count}"
    return ["sh", "-c", f'exec env {words_of_it} "$@" 3<&{descriptor}', "sh", os.environ["LMTPD"], *given]


class Inheriting(Server):
    """A server that has its socket from whoever started it."""

    def __init__(self, folder, handed_on, *more, connections=1):
        given = words(folder, ["anna"], connections, "--lanes", 1, *more, listen="inherited")
        self.folder = folder
        pipes = {"stdin": subprocess.DEVNULL, "stdout": subprocess.PIPE, "stderr": subprocess.PIPE}
        command = handed(given, handed_on.fileno())
        self.process = subprocess.Popen(command, text=True, pass_fds=[handed_on.fileno()], **pipes)
        self.first = self.process.stdout.readline()

    def descriptors(self):
        """Each descriptor that is a socket, with its flags."""
        place = pathlib.Path(f"/proc/{self.process.pid}")
        for one in (place / "fd").iterdir():
            if os.readlink(one).startswith("socket:"):
                told = (place / "fdinfo" / one.name).read_text()
                yield int(one.name), int(re.search(r"flags:\s*([0-7]+)", told).group(1), 8)

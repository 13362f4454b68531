"""The server where standard streams are closed as it starts."""

import os
import subprocess
import time

import letters
from cases import case, equal
from clients import deliver_one
from replies import stored
from server import taken_port, words

CLOSED = ["<&-", ">&-", "2>&-", ">&- 2>&-", "<&- >&- 2>&-"]


@case
def closed_streams(folder):
    """with standard input, output and error closed, alone and together, no line goes into a mailbox's file"""
    for number, closed in enumerate(CLOSED):
        place = folder / str(number)
        place.mkdir()
        listener, port = taken_port()
        listener.close()
        given = words(place, ["anna", "ben"], 1, "--lanes", 1, "--log", "info", listen=f"127.0.0.1:{port}")
        command = ["sh", "-c", f'exec "$@" {closed}', "sh", os.environ["LMTPD"], *given]
        process = subprocess.Popen(command, stdout=subprocess.DEVNULL, stderr=subprocess.DEVNULL)
        try:
            finals = deliver_soon(("127.0.0.1", port))
            process.wait(20)
        finally:
            process.kill()
            process.wait()
        equal((closed, finals), (closed, [stored("anna")]))
        equal((closed, letters.messages(place / "anna.mbox")), (closed, [b"hello\n"]))
        equal((closed, (place / "ben.mbox").exists()), (closed, False))


def deliver_soon(address):
    """Delivers once the server listens, which it can't say."""
    until = time.monotonic() + 20
    while True:
        try:
            return deliver_one(address, ["anna"], "hello")
        except ConnectionRefusedError:
            assert time.monotonic() < until
            time.sleep(0.05)

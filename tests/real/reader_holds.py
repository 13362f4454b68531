"""A reader that never lets go of the lock of a mailbox of the installed service."""

import concurrent.futures
import fcntl
import shutil
import time

import letters
from cases import case, equal
from clients import Client
from in_a_machine import in_a_machine
from replies import not_stored, stored
from service import Service

WAIT = 10  # seconds, without --lock-wait
NEXT = 6  # copies after the first
STORED, NOT_STORED = stored("anna"), not_stored("anna")


def timed(client, name):
    began = time.monotonic()
    [final] = client.deliver([name], "hello")[1]
    return final, time.monotonic() - began


@case
@in_a_machine()
def a_reader_holds_for_good(_folder):
    """a reader holds anna's range lock for good: her first letter is told 451 after ten seconds, the next ones at once,
    ben's are stored at once meanwhile; 250 once it lets go, a line with their count, and status 0"""
    with Service(["anna", "ben"]) as service, Client(service.address).greet() as client:
        # the server makes none before its first letter
        service.mailbox("anna").touch()
        shutil.chown(service.mailbox("anna"), "lmtpd", "lmtpd")
        with service.mailbox("anna").open("r+b") as held, concurrent.futures.ThreadPoolExecutor(1) as pool:
            fcntl.lockf(held, fcntl.LOCK_EX)
            beside = pool.submit(deliver_to_ben, service.address)
            final, took = timed(client, "anna")
            equal((final, WAIT - 0.5 < took < WAIT + 1), (NOT_STORED, True))
            for _ in range(NEXT):
                final, took = timed(client, "anna")
                equal((final, took < 0.5), (NOT_STORED, True))
            count, longest = beside.result()
        final, took = timed(client, "anna")
        equal((final, took < 0.5), (STORED, True))
        client.quit()
        print(f"ben's {count} letters took {longest:.3f} s at most")
        assert count > 100 and longest < 1, (count, longest)
        said, errors = ["anna stored 1", f"ben stored {count}"], [f"lmtpd: anna in use {NEXT + 1}"]
        equal(vars(service.end()), {"status": 0, "said": said, "errors": errors})
        equal(letters.messages(service.mailbox("anna")), [b"hello\n"])


def deliver_to_ben(address):
    """How many while anna's letter waits, and how long one took at most."""
    until, times = time.monotonic() + WAIT, []
    with Client(address).greet() as client:
        while time.monotonic() < until:
            final, took = timed(client, "ben")
            equal(final, stored("ben"))
            times.append(took)
        client.quit()
    return len(times), max(times)


a_reader_holds_for_good.seconds = 120

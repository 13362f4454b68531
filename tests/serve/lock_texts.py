"""What another user writes into a lock file: no text lets it stay for longer than docs/operating/MAILBOXES.md says, and
none has a younger one removed."""

import os
import time

from cases import Absent, case, equal
from clients import Client
from neighbours import ANNA, Site
from readers import HOST, uptime
from replies import not_stored, stored

STALE = 300  # seconds
# No process has this number, the highest of which the system gives on small machines, and so seldom on large ones.
GONE = 4_194_303
# These name a process that is there, with blanks around each part or none, and no other host.
ALIVE = [b" 1 \n", b"1:", f"1:{HOST}".encode(), str(os.getpid()).encode()]
# These name none.
NOBODY = [
    b"",
    b"\0" * 100,
    b"-1",
    b"2147483648",
    b"1 2",
    b"x" * 10_000_000,
    b"\xff\xfe",
    b"0x1",
    b"01",
    b"+1",
    b":h",
    b"1:other",
    str(GONE).encode(),
    f"{GONE}:{HOST}".encode(),
    b"0",
    b"1\n\0",
    b"1" * 319,
    b"1" + b" " * 400,
    "１".encode(),  # a digit that isn't ASCII
]


@case
def texts_of_lock_files(folder):
    """another user's lock file of 23 texts, each new, older than 300 seconds, and older than the machine's last boot:
    it stays where it is new, or names a process that is there and isn't older than the boot, and goes else"""
    if uptime() < STALE + 60:
        raise Absent("a machine that is up for six minutes")
    site = Site(folder)
    with site.serve("--lock-wait", 0) as server, Client(server.address).greet() as client:
        for text in [*ALIVE, *NOBODY]:
            found = [left_and_told(site, client, text, age) for age in [0, STALE + 1, uptime() + STALE + 100]]
            stays, goes = (True, not_stored("ben")), (False, stored("ben"))
            equal((text[:30], found), (text[:30], [stays, stays if text in ALIVE else goes, goes]))
    equal(len(ALIVE) + len(NOBODY), 23)


def left_and_told(site, client, text, age):
    """Whether a lock file of that text and age, anna's, at ben's mailbox, is there after two letters for ben, and what
    the second one was told."""
    lock = site.put("ben.mbox.lock", ANNA, text, 0o666)
    moment = time.time() - age
    os.utime(lock, (moment, moment))
    client.deliver(["ben"], "hello")  # it may be the turn that removes it
    told = client.deliver(["ben"], "hello")[1][0]
    is_left = lock.exists()
    lock.unlink(missing_ok=True)
    # that it is free again is found out with the next letter
    equal(client.deliver(["ben"], "hello")[1], [stored("ben")])
    return is_left, told


texts_of_lock_files.seconds = 90

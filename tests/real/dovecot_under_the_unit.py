"""Dovecot's IMAP beside the service as it is installed, whose sandbox hides other programs' processes from it: a lock
file that Dovecot has stays Dovecot's."""

import os
import pathlib

from beside import CLIENTS, Beside
from cases import case, equal
from clients import Client
from dovecot import NEEDS, Dovecot
from in_a_machine import in_a_machine
from readers_delete import ByDovecot

LETTERS = int(os.environ.get("LETTERS_UNDER_THE_UNIT", "3000"))
SECONDS = 120 + LETTERS // 5  # at most, on a machine that is busy
TAKEN_AWAY = "Our dotlock file"


@case
@in_a_machine(*NEEDS)
def the_lock_file_alone(folder):
    """the installed service, four clients, and Dovecot that takes the lock file alone: each numbered letter (3,000, or
    LETTERS_UNDER_THE_UNIT) is there once or was deleted once, and no lock file of Dovecot's was taken away"""
    beside_dovecot(folder, "mbox_read_locks = dotlock", "mbox_write_locks = dotlock")


@case
@in_a_machine(*NEEDS)
def both_locks(folder):
    """the installed service, four clients, and Dovecot that takes the lock file and then the range lock: each numbered
    letter is there once or was deleted once, and no lock file of Dovecot's was taken away"""
    beside_dovecot(folder, "mbox_read_locks = fcntl", "mbox_write_locks = dotlock fcntl")


for one in [the_lock_file_alone, both_locks]:
    one.seconds = SECONDS + 120


def beside_dovecot(folder, *locks):
    beside = Beside(folder)
    with beside.service(CLIENTS) as service, Client(service.address).greet() as client:
        equal(sandbox_of(service), (True, True))
        client.quit()
    with Dovecot(folder, beside.path, *locks, user="lmtpd") as dovecot:
        readers = {who: ByDovecot(beside, dovecot) for who in ["one", "two"]}
        ended = beside.run(readers, seconds=SECONDS, letters=LETTERS)
        taken = [line for line in dovecot.log().splitlines() if TAKEN_AWAY in line]
        print(f"{locks[1]}: {len(taken)} times its lock file was taken away; the first: {taken[:1]}")
        beside.judge(ended)
        equal(taken, [])
        assert len(beside.told) >= LETTERS, len(beside.told)


def sandbox_of(service):
    """Whether other users' processes are hidden from it, and whether it has users of its own."""
    place = pathlib.Path("/proc", service.told("MainPID"))
    return "hidepid=invisible" in (place / "mountinfo").read_text(), "4294967295" not in (place / "uid_map").read_text()

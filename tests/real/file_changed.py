"""A mailbox's file renamed, removed, emptied and torn, by the programs of a shell, while clients deliver to the
installed service."""

import shutil
import stat
import subprocess
import threading
import time

import letters
from beside import both_held
from cases import case, equal
from clients import Client
from in_a_machine import in_a_machine
from replies import stored
from server import run
from service import FOLDER, Service

CLIENTS = 4
ROUNDS = 5
STORED = stored("anna")
# What is done to the file, by a name that says which letters may go then: none, all that were in it, or its last.
CHANGES = {
    "renamed": 'mv "$1" "$1.$2"',
    "removed": 'rm "$1"',
    "emptied": ': > "$1"',
    "torn": 'truncate -s -1 "$1"',
    "torn in mid-letter": 'truncate -s -4 "$1"',
}


@case
@in_a_machine()
def mail_goes_on(folder):
    """a mailbox is renamed, removed, emptied and torn beside four clients: each letter that was told 250 is in the file
    that the path named then, the next ones follow in the one that it names now, and a new file has mode 0600"""
    for number, (name, line) in enumerate(CHANGES.items()):
        told = change_beside(line)
        place = folder / str(number)
        shutil.move(FOLDER, place)
        subprocess.run(["systemd-tmpfiles", "--create", "lmtpd.conf"], check=True)
        path = place / "anna.mbox"
        equal((name, stat.S_IMODE(path.stat().st_mode)), (name, 0o600))
        equal(run(["check", path]).status, 0)
        # the letters that stood there as it was changed, and those after the last change
        found = [letter for old in sorted(place.glob("anna.mbox.[0-9]")) for letter in letters.messages(old)]
        here = letters.messages(path)
        print(f"{name}: told {len(told)}, in the file {len(here)}, in renamed ones {len(found)}")
        whole = [letter for letter in [*found, *here] if letter in told]
        equal((name, len(whole)), (name, len(set(whole))))
        if name == "renamed":
            equal((len(found) + len(here), set(whole)), (len(told), told))
        if name == "torn":
            equal((len(here), set(whole)), (len(told), told))
        if name == "torn in mid-letter":
            equal((len(here), len(told - set(whole))), (len(told), ROUNDS))
        equal(b"the last\n" in here, True)


def change_beside(line):
    """The letters that were told 250 while the file is changed a few times, and one after the last change."""
    told, lock = set(), threading.Lock()
    with Service(["anna"]) as service:
        stop = threading.Event()
        given = [(service.address, who, told, lock, stop) for who in range(CLIENTS)]
        loads = [threading.Thread(target=deliver, args=each) for each in given]
        for load in loads:
            load.start()
        path = service.mailbox("anna")
        for number in range(ROUNDS):
            wait_for_letters(path, count_of(path) + 5)
            with both_held(path):
                subprocess.run(["sh", "-c", line, "sh", path, str(number)], check=True)
        stop.set()
        for load in loads:
            load.join()
        with Client(service.address).greet() as client:
            equal(client.deliver(["anna"], "the last")[1], [STORED])
            told.add(b"the last\n")
            client.quit()
        equal(vars(service.end()), {"status": 0, "said": [f"anna stored {len(told)}"], "errors": []})
        equal(service.lock_file("anna").exists(), False)
    return told


def count_of(path):
    return path.read_bytes().count(b"\nReturn-Path: ") if path.exists() else 0


def wait_for_letters(path, count):
    until = time.monotonic() + 10
    while count_of(path) < count:
        assert time.monotonic() < until, f"no {count} letters in the file after 10 seconds"
        time.sleep(0.01)


def deliver(address, who, told, lock, stop):
    with Client(address).greet() as client:
        number = 0
        while not stop.is_set():
            text = f"letter {who}-{number}, {'x' * 60}"
            equal(client.deliver(["anna"], text)[1], [STORED])
            with lock:
                told.add(text.encode() + b"\n")
            number += 1
        client.quit()


mail_goes_on.seconds = 180

"""The installed service is killed while it has a mailbox's lock file."""

import itertools
import os
import random
import threading
import time

import letters
from cases import case, equal
from clients import Client
from in_a_machine import in_a_machine
from replies import stored
from service import Service

LEFT = 10  # lock files that are to be left
MOST_KILLS = 200


@case
@in_a_machine()
def its_lock_file_is_gone(folder):
    """SIGKILL under load until ten lock files were left: each is gone with the next letter, which is told 250 at once,
    and what was told 250 is there once and whole"""
    chance, told, left, empty = random.Random(1), [], 0, 0
    with Service(["anna"]) as service:
        lock = service.lock_file("anna")
        for number in range(MOST_KILLS):
            with Client(service.address).greet() as client:
                began = time.monotonic()
                told.append(f"after {number}")
                equal(client.deliver(["anna"], told[-1])[1], [stored("anna")])
                equal((time.monotonic() - began < 1, lock.exists()), (True, False))
                client.quit()
            if left == LEFT:
                break
            is_left, is_empty = kill_under_load(service, number, told, chance.uniform(0.02, 0.1))
            left, empty = left + is_left, empty + is_empty
            service.begin_again()
        found = letters.messages(service.mailbox("anna"))
    times = {text: found.count(text.encode() + b"\n") for text in told}
    equal([text for text, count in times.items() if count != 1], [])
    print(f"{left} lock files left by {number} kills, {empty} of them empty, {len(told)} letters told")
    equal(left, LEFT)


its_lock_file_is_gone.seconds = 840


def kill_under_load(service, number, told, after):
    """Clients deliver until it is killed; one that came later waits at the socket for the next. Whether a lock file was
    left, and whether it was empty."""
    is_over = threading.Event()
    given = [(service.address, f"{number}-{client}", told, is_over) for client in range(4)]
    loads = [threading.Thread(target=deliver, args=each) for each in given]
    for load in loads:
        load.start()
    time.sleep(after)
    service.kill()
    left = look_at_lock(service.lock_file("anna"))
    is_over.set()
    for load in loads:
        load.join()
    return left


def look_at_lock(lock):
    is_left = lock.exists()
    is_empty = is_left and not lock.read_text()
    if is_empty:
        # it was killed before it wrote whose it is, which age alone can say then
        then = time.time() - 400
        os.utime(lock, (then, then))
    return is_left, is_empty


def deliver(address, who, told, is_over):
    """Delivers until the server is gone."""
    try:
        with Client(address).greet() as client:
            for number in itertools.takewhile(lambda _: not is_over.is_set(), itertools.count()):
                if client.deliver(["anna"], f"{who}-{number}")[1] == [stored("anna")]:
                    told.append(f"{who}-{number}")
    except (OSError, AssertionError):
        pass

"""The installed service is killed while several clients deliver."""

import contextlib
import itertools
import random
import threading
import time

from cases import case, equal
from clients import Client
from dovecot import NEEDS
from in_a_machine import in_a_machine
from replies import stored
from service import Service
from told_letters import judge

BOXES = ["anna", "ben", "carla", "dora"]
CLIENTS = 4
ROUNDS = 100


@case
@in_a_machine(*NEEDS)
def killed_a_hundred_times(_folder):
    """SIGKILL a hundred times under load: each letter that was told 250 is found once and whole by git, Python and
    Dovecot"""
    chance = random.Random(1)
    told = {name: [] for name in BOXES}
    with Service(BOXES) as service:
        for number in range(ROUNDS):
            with under_load(service, told, number):
                time.sleep(chance.uniform(0.05, 0.25))
                service.kill()
            service.begin_again()
        with Client(service.address).greet() as client:
            equal(client.deliver(BOXES, "last")[1], [stored(name) for name in BOXES])
    equal([name for name in BOXES if len(told[name]) <= ROUNDS], [])
    for name in BOXES:
        told[name].append(b"last\n")
    judge({name: service.mailbox(name).read_bytes() for name in BOXES}, told)


killed_a_hundred_times.seconds = 840


@contextlib.contextmanager
def under_load(service, told, load):
    """Clients deliver to the server, until it is killed; one that came later waits at the socket for the next."""
    is_over = threading.Event()
    given = [(service.address, told, f"{load}.{client}", is_over) for client in range(CLIENTS)]
    clients = [threading.Thread(target=deliver, args=each) for each in given]
    for client in clients:
        client.start()
    try:
        yield
    finally:
        is_over.set()
        for client in clients:
            client.join()


def deliver(address, told, load, is_over):
    """Delivers to two mailboxes at a time, until the server is gone."""
    try:
        with Client(address).greet() as client:
            for number in itertools.takewhile(lambda _: not is_over.is_set(), itertools.count()):
                names = [BOXES[number % len(BOXES)], BOXES[(number + 1) % len(BOXES)]]
                lines = [f"{load}.{number} {line}" for line in range(1 + 37 * number % 200)]
                client.send("MAIL FROM:<carl@a.example>", *(f"RCPT TO:<{name}@mx.example>" for name in names), "DATA")
                for _ in [*names, "MAIL", "DATA"]:
                    assert client.hear()
                client.send(*lines, ".")
                for name in names:
                    if client.hear() == stored(name):
                        told[name].append("\n".join([*lines, ""]).encode())
    except (OSError, AssertionError):
        pass

"""A server that is ended in order and begun again, time after time, while clients deliver numbered letters."""

import threading
import time

import letters
from cases import equal
from clients import Client
from replies import STOPPING, stored

STORED = stored("anna")
SENDERS = 3
# More conversations than any case holds.
MANY = 1_000_000
# How long each server serves.
SERVES = 0.3
# How long a server may go on once its end was asked for and no mailbox is in a turn, and how long where no client is
# left.
SECONDS_TO_END = 8
SECONDS_ALONE = 3


def asked_to_stop(folder):
    (folder / "stop").touch()
    return time.monotonic()


def ended_in_time(server, since, seconds=SECONDS_TO_END):
    ended = server.end()
    took = time.monotonic() - since
    assert took < seconds, took
    return ended


def restart_under_load(folder, begin, address, times):
    """That many servers, one after the other, each ending in time and with status 0: each numbered letter is there
    once. `begin` starts one that the file `stop` ends. It says how often a client was refused."""
    with Load(address) as load:
        for _ in range(times):
            (folder / "stop").unlink(missing_ok=True)
            server = begin()
            time.sleep(SERVES)
            equal(ended_in_time(server, asked_to_stop(folder)).status, 0)
        load.is_over.set()
        # the last letters are under way until somebody serves them
        (folder / "stop").unlink()
        last = begin()
        load.join()
        equal(ended_in_time(last, asked_to_stop(folder)).status, 0)
    return judge(load, folder / "anna.mbox", times)


def judge(load, path, times):
    """Each letter that was told is in the mailbox once; it says how often a client was refused."""
    equal(load.faults, [])
    found = [message.decode().strip() for message in letters.messages(path)]
    equal(sorted(found), sorted(load.told))
    assert len(found) > times, len(found)
    print(f"{times} restarts, {len(found)} letters of {SENDERS} clients, each once; refused {len(load.refused)} times")
    return len(load.refused)


class Load:
    """Clients that send numbered letters until it is over, each letter again until it is told 250."""

    def __init__(self, address):
        self.address = address
        self.is_over, self.is_left = threading.Event(), threading.Event()
        self.told, self.refused, self.faults = [], [], []
        self.threads = [threading.Thread(target=self.send, args=[number]) for number in range(SENDERS)]

    def __enter__(self):
        for thread in self.threads:
            thread.start()
        return self

    def __exit__(self, *_):
        self.is_over.set()
        self.is_left.set()
        self.join()

    def join(self):
        for thread in self.threads:
            thread.join()

    def send(self, sender):
        number = 0
        try:
            while not self.is_over.is_set():
                text = f"letter {sender} {number}"
                while not self.was_stored(text):
                    if self.is_left.is_set():
                        return
                self.told.append(text)
                number += 1
        except Exception as fault:
            self.faults.append(repr(fault))

    def was_stored(self, text):
        """Whether it was told so. A letter is sent again where nothing was told before its dot went out, or 421 after
        it; once the dot is there it is answered."""
        try:
            client = Client(self.address)
        except (ConnectionRefusedError, FileNotFoundError):
            self.refused.append(text)
            time.sleep(0.01)
            return False
        with client:
            if not self.comes_to_data(client):
                return False
            answer = client.ask_or_end(f"{text}\r\n.")
            assert answer in [STORED, STOPPING], answer
            return answer == STORED

    def comes_to_data(self, client):
        for line in [None, "LHLO relay.example", "MAIL FROM:<carl@a.example>", "RCPT TO:<anna@mx.example>", "DATA"]:
            answer = client.hear_or_end() if line is None else client.ask_or_end(line)
            if not answer or answer.startswith("421"):
                return False
            assert answer[:3] in ["220", "250", "354"], answer
        return True

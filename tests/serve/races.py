"""A user swaps his mailbox as fast as he can for something else, while clients send letters to him and to another user.

RACE_SECONDS is how long, 45 without it; the kinds are tried side by side.
"""

import collections
import contextlib
import ctypes
import os
import socket
import stat
import threading
import time

import letters
from cases import case, equal
from clients import Client
from neighbours import ANNA, Site, done_by
from replies import stored

SECONDS = int(os.environ.get("RACE_SECONDS", "45"))
HERE, EXCHANGE = -100, 2  # of renameat2(2)
OTHER = "other"


def link_to_another(folder):
    (folder / OTHER).symlink_to("ben.mbox")


def link_to_a_device(folder):
    # what is written there is gone
    (folder / OTHER).symlink_to("/dev/null")


def link_to_nothing(folder):
    (folder / OTHER).symlink_to("/var/lib/no-such-file")


def fifo(folder):
    os.mkfifo(folder / OTHER, 0o666)


def subfolder(folder):
    (folder / OTHER).mkdir(0o777)


def socket_file(folder):
    with socket.socket(socket.AF_UNIX) as made:
        made.bind(str(folder / OTHER))


def other_file(folder):
    os.close(os.open(folder / OTHER, os.O_CREAT | os.O_WRONLY, 0o660))


KINDS = [link_to_another, link_to_a_device, link_to_nothing, fifo, subfolder, socket_file, other_file]


def swap(folder, make):
    """Has something else in the mailbox's place, and the mailbox again, without an end."""
    os.umask(0)
    make(folder)
    exchange = ctypes.CDLL(None, use_errno=True).renameat2
    paths = [HERE, os.fsencode(folder / "anna.mbox"), HERE, os.fsencode(folder / OTHER), EXCHANGE]
    if exchange(*paths) != 0 or exchange(*paths) != 0:
        return
    yield
    number = 0
    while True:
        exchange(*paths)
        number += 1
        if number % 7 == 0:
            time.sleep(number % 50 / 1e6)


class Load:
    """A client that sends numbered letters to a mailbox until the end."""

    def __init__(self, server, name):
        self.address, self.name = server.address, name
        self.told, self.faults = {}, []
        self.is_over = threading.Event()
        self.thread = threading.Thread(target=self.send)

    def __enter__(self):
        self.thread.start()
        return self

    def __exit__(self, *_):
        self.is_over.set()
        self.thread.join()

    def send(self):
        try:
            with Client(self.address).greet() as client:
                while not self.is_over.is_set():
                    text = f"letter {len(self.told)}"
                    self.told[text] = client.deliver([self.name], text)[1][0]
                client.quit()
        except Exception as fault:
            self.faults.append(repr(fault))

    def stored(self):
        return sorted(text for text, reply in self.told.items() if reply == stored(self.name))


@case
def races_with_a_mailbox(folder):
    """45 seconds of races each between a user's mailbox and a link to another's, to a device and to nothing, a FIFO, a
    folder, a socket and another file of his, while letters come for both: none that was told 250 is lost or doubled,
    and none is in the other's file"""
    folder.chmod(0o755)
    with contextlib.ExitStack() as running:
        races = [begun(running, folder / make.__name__, make) for make in KINDS]
        loads = [[running.enter_context(Load(server, name)) for name in ["anna", "ben"]] for server in races]
        time.sleep(SECONDS)
        equal([server.process.poll() for server in races], [None] * len(KINDS))
    for server, (annas, bens) in zip(races, loads, strict=True):
        judge(server.folder, annas, bens)


def begun(running, place, make):
    """A server in a folder of that race."""
    place.mkdir()
    site = Site(place)
    server = running.enter_context(site.serve("--log", "off"))
    running.enter_context(done_by(ANNA, swap, site.mail, make))
    return server


def judge(folder, annas, bens):
    """Each letter that was told 250 is once in a file of its user's, and nothing else in ben's."""
    kind = folder.parent.name
    equal((kind, annas.faults, bens.faults), (kind, [], []))
    assert annas.told and bens.told, kind
    equal((kind, sorted(texts_in(folder / "ben.mbox"))), (kind, bens.stored()))
    hers = [path for path in folder.iterdir() if path.name in ["anna.mbox", OTHER]]
    hers = [text for path in hers if stat.S_ISREG(path.lstat().st_mode) for text in texts_in(path)]
    times = collections.Counter(hers)
    equal((kind, [text for text in annas.stored() if times[text] != 1][:5]), (kind, []))
    equal((kind, [text for text, count in times.items() if count != 1 or text not in annas.told][:5]), (kind, []))
    put_off = len(annas.told) - len(annas.stored())
    print(f"{kind}: {len(annas.stored())} stored and {put_off} put off, {len(bens.told)} beside them", flush=True)


def texts_in(path):
    return [message.decode().strip() for message in letters.messages(path)]


races_with_a_mailbox.seconds = SECONDS + 120

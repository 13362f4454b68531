"""What a user puts where another's mailbox, a file of the server's or its socket is to be."""

import fcntl
import os
import signal

import letters
from cases import case, equal
from clients import deliver_one
from neighbours import ANNA, MAIL, MANY, Site, done_by
from races import fifo, link_to_a_device, other_file, socket_file, subfolder
from replies import stored
from server import Server

SOURCE = "ben.mbox.source.lock"
KINDS = [fifo, link_to_a_device, other_file, socket_file, subfolder]


@case
def in_the_servers_place(folder):
    """a user makes what the server links another's lock files from, as a file, a FIFO, a link to a device, a socket or
    a folder, before it starts: the other's letters are stored, and what he made stays"""
    folder.chmod(0o755)
    for make in KINDS:
        place = folder / make.__name__
        place.mkdir()
        site = Site(place)
        make(site.mail)
        path = (site.mail / "other").rename(site.mail / SOURCE)
        os.chown(path, ANNA, MAIL, follow_symlinks=False)
        with site.serve() as server:
            told = [deliver_one(server.address, ["ben"], f"hello {number}") for number in range(3)]
            equal((make.__name__, told), (make.__name__, [[stored("ben")]] * 3))
            found = letters.messages(server.mailbox("ben"))
            equal((make.__name__, found), (make.__name__, [b"hello 0\n", b"hello 1\n", b"hello 2\n"]))
            equal((make.__name__, path.lstat().st_uid), (make.__name__, ANNA))


@case
def in_anothers_place(folder):
    """a user makes the file of a mailbox that isn't there yet: its letters go into that file, which he reads. Nothing
    stops him; the user's file comes first, as docs/operating/MAILBOXES.md has it"""
    site = Site(folder)
    path = site.put("carl.mbox", ANNA, b"", 0o660)
    with site.serve() as server:
        equal(deliver_one(server.address, ["carl"], "for carl"), [stored("carl")])
        equal((path.stat().st_uid, letters.messages(path)), (ANNA, [b"for carl\n"]))


def lock_folder(path):
    held = os.open(path, os.O_RDONLY)
    fcntl.flock(held, fcntl.LOCK_EX)
    yield
    signal.pause()


@case
def the_sockets_folder_is_locked(folder):
    """a user who may read the folder of a server's Unix socket holds its lock: the server starts there, and serves"""
    site = Site(folder)
    with done_by(ANNA, lock_folder, folder):
        with Server(site.mail, ["dora"], MANY, listen=f"unix:{folder}/sock") as server:
            equal(server.first, f"listening on unix:{folder}/sock\n")
            equal(deliver_one(server.address, ["dora"], "hello"), [stored("dora")])

"""Servers of 256 mailboxes that may have few descriptors (RLIMIT_NOFILE)."""

import os
import re
import resource

import letters
from cases import case, equal
from clients import Client
from replies import not_stored, stored
from server import Server

BOXES = [f"u{number}" for number in range(256)]
LANES = 4
NEEDED = 16 + LANES + 3 * len(BOXES)
TOO_MANY_OPEN = "Too many open files (os error 24)"


def start_within(folder, limit):
    """A server that may have so many descriptors."""
    limits = (limit, limit)
    how = {"preexec_fn": lambda: resource.setrlimit(resource.RLIMIT_NOFILE, limits)}
    return Server(folder, BOXES, 1, "--lanes", LANES, "--log", "error", **how)


def open_files(server):
    """The files that it has open now, without the standard streams' places and sockets."""
    descriptors = f"/proc/{server.process.pid}/fd"
    named = [os.readlink(f"{descriptors}/{number}") for number in os.listdir(descriptors)]
    return [name for name in named if name.startswith(str(server.folder))]


def texts(server):
    """The letters of each mailbox that has one."""
    read = {name: letters.messages(server.mailbox(name)) for name in BOXES if server.mailbox(name).exists()}
    return {name: found for name, found in read.items() if found}


@case
def sixty_four_descriptors(folder):
    """256 mailboxes and 64 descriptors: the log says at the start how many are needed; a letter for all is stored where
    250 was told, and the log has why 451 was; no mailbox keeps a file open, and each has a later letter of its own"""
    with start_within(folder, 64) as server:
        with Client(server.address).greet() as client:
            told = client.deliver(BOXES, "for all")[1]
            first = {name for name, answer in zip(BOXES, told) if answer == stored(name)}
            equal([answer for answer in told if answer not in map(stored, first)], [
                not_stored(name) for name in BOXES if name not in first
            ])
            equal(texts(server), {name: [b"for all\n"] for name in first})
            equal(open_files(server), [])
            for name in BOXES:
                equal(client.deliver([name], "for one")[1], [stored(name)])
            equal(open_files(server), [])
            client.quit()
        errors = server.end().errors
    equal(errors[0], f"[ERROR lmtpd] too few descriptors needed={NEEDED} limit=64")
    equal({name: [b"for all\n"] * (name in first) + [b"for one\n"] for name in BOXES}, texts(server))
    missed = [name for name in BOXES if name not in first]
    reason = re.compile(rf"\[ERROR lmtpd\] mailbox in use mailbox=(\w+) reason={re.escape(TOO_MANY_OPEN)}")
    equal(sorted(found[1] for found in map(reason.fullmatch, errors) if found), sorted(missed))
    return f"{len(missed)} of {len(BOXES)} were told 451"


@case
def a_thousand_and_twenty_four_descriptors(folder):
    """256 mailboxes and 1,024 descriptors: nothing is said at the start, each letter for all is stored, and each
    mailbox stays open, and what its lock file is linked from"""
    with start_within(folder, 1_024) as server:
        with Client(server.address).greet() as client:
            for text in "one", "two":
                equal(client.deliver(BOXES, text)[1], [stored(name) for name in BOXES])
                kept = [f"{server.mailbox(name)}{suffix}" for name in BOXES for suffix in ("", ".source.lock")]
                equal(sorted(open_files(server)), sorted(kept))
            client.quit()
        equal(vars(server.end()), {"status": 0, "said": [f"{name} stored 2" for name in BOXES], "errors": []})
    equal(texts(server), {name: [b"one\n", b"two\n"] for name in BOXES})

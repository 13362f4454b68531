"""What the server does where a mailbox's file fails, or was left torn."""

import contextlib
import os
import resource
import time

import letters
from cases import Absent, case, equal
from clients import Client, deliver_one
from replies import CLOSING, no_room, not_stored, over_quota, stored
from server import Server

# Almost 1 MiB.
LONG_LINES = ["x" * 900] * 1000


@case
def a_device_that_is_full(folder):
    """a mailbox's file that can't grow: 451 for it and nothing of a letter stays, 250 for the other, then device fault
    and status 1"""
    for room in [0, 100]:
        place = folder / str(room)
        place.mkdir()
        old = b"x" * (9998 - room) + b"\n\n"
        (place / "anna.mbox").write_bytes(old)
        with Server(place, ["anna", "ben"], 2, "--lanes", 1, **of_size(10_000)) as server:
            for number in [1, 2]:
                finals = deliver_one(server.address, ["anna", "ben"], f"letter {number}")
                equal(finals, [not_stored("anna"), stored("ben")])
            said = ["anna stored 0", "ben stored 2"]
            equal(vars(server.end()), {"status": 1, "said": said, "errors": ["lmtpd: device fault"]})
            equal(letters.messages(server.mailbox("ben")), [b"letter 1\n", b"letter 2\n"])
            equal((server.mailbox("anna").read_bytes() == old, server.lock_file("anna").exists()), (True, False))


def of_size(limit):
    """How a server is started whose files grow to that many bytes at most: a write beyond fails without a signal."""
    return {"restore_signals": False, "preexec_fn": lambda: give_room(0, limit)}


def give_room(process, size):
    """From now on the files of that process, of this one by 0, grow to that many bytes at most."""
    most = resource.prlimit(process, resource.RLIMIT_FSIZE)[1]
    resource.prlimit(process, resource.RLIMIT_FSIZE, (size, most))


@case
def the_longest_file(folder):
    """a mailbox's file without blocks that is as long as its file system lets one be: 451 for it alone, and it stays"""
    size = lengthen(folder / "anna.mbox")
    with Server(folder, ["anna", "ben"], 2, "--lanes", 1) as server:
        for number in [1, 2]:
            finals = deliver_one(server.address, ["anna", "ben"], f"letter {number}")
            equal(finals, [not_stored("anna"), stored("ben")])
        said = ["anna stored 0", "ben stored 2"]
        equal(vars(server.end()), {"status": 1, "said": said, "errors": ["lmtpd: device fault"]})
        equal((server.mailbox("anna").stat().st_size, server.lock_file("anna").exists()), (size, False))


def lengthen(path):
    """Makes a file of the length that no file may exceed there, which it says; no file system here has another one."""
    path.touch()
    for size in [2**63 - 1, 2**44 - 4096, 2**44 - 65536]:
        with contextlib.suppress(OSError):
            os.truncate(path, size)
            return size
    raise Absent("a file system whose longest file is known")


@case
def a_full_device_beside_a_quota(folder):
    """a mailbox's file that can't grow between two over their quota: their lines come before the fault, also where
    nothing can be told"""
    names = ["anna", "ben", "carla"]
    for name in ["anna", "carla"]:
        (folder / f"{name}.mbox").write_bytes(b"x" * 998 + b"\n\n")
    over = {name: over_quota(name) for name in names}
    finals = [over["anna"], not_stored("ben"), over["carla"]]
    said = [f"{name} stored 0" for name in names]
    errors = ["lmtpd: anna over quota 1", "lmtpd: carla over quota 1", "lmtpd: device fault"]
    with Server(folder, names, 1, "--lanes", 1, "--quota", 1000, **of_size(100)) as server:
        equal(deliver_one(server.address, names, "hello"), finals)
        equal(vars(server.end()), {"status": 1, "said": said, "errors": errors})
    for names, status in [(names, 1), (["anna", "carla"], 0)]:
        with open("/dev/full", "wb", buffering=0) as full:
            server = Server(folder, names, 1, "--lanes", 1, "--quota", 1000, errors=full, **of_size(100))
        with server:
            deliver_one(server.address, names, "hello")
            said = [f"{name} stored 0" for name in names]
            equal(vars(server.end()), {"status": status, "said": said, "errors": []})


@case
def a_torn_tail(folder):
    """a tail that is torn within a line, or after it, is mended by the fewest LFs before the next letter"""
    closed_as = {b"abc": b"abc\n\n", b"abc\n": b"abc\n\n", b"abc\n\n": b"abc\n\n", b"x": b"x\n\n"}
    for old, closed in closed_as.items():
        with Server(folder, ["anna"], 1, "--lanes", 1) as server:
            pass
        server.mailbox("anna").write_bytes(old)
        with Server(folder, ["anna"], 1, "--lanes", 1) as server:
            equal(deliver_one(server.address, ["anna"], "hello"), [stored("anna")])
            equal(vars(server.end()), {"status": 0, "said": ["anna stored 1"], "errors": []})
        found = server.mailbox("anna").read_bytes()
        equal(found[: len(closed) + 5], closed + b"From ")
        server.mailbox("anna").write_bytes(found.removeprefix(closed))
        equal(letters.messages(server.mailbox("anna")), [b"hello\n"])


@case
def killed_in_the_midst(folder):
    """killed ten times while it stores: what was told 250 is whole, and the next start goes on"""
    told, untold = [], []
    for number in range(10):
        with Server(folder, ["anna"], 1, "--lanes", 1) as server, Client(server.address).greet() as client:
            equal(client.deliver(["anna"], f"short {number}")[1], [stored("anna")])
            told.append(b"short %d\n" % number)
            lines = [f"long {number}", *LONG_LINES]
            client.start_message("anna", *lines)
            client.send(".")
            # about 64 KiB are written at a time
            kill_at(server, server.mailbox("anna").stat().st_size + 65_536 * number + 1)
            is_told = client.hear_or_end() == stored("anna")
            (told if is_told else untold).append("\n".join([*lines, ""]).encode())
    with Server(folder, ["anna"], 1, "--lanes", 1) as server:
        equal(deliver_one(server.address, ["anna"], "last"), [stored("anna")])
        equal(server.end().said, ["anna stored 1"])
    records = server.mailbox("anna").read_bytes().removesuffix(b"\n\n").split(b"\n\nFrom ")
    found = [record.partition(b" +0000\n")[2] + b"\n" for record in records]
    rest = [letter for letter in found if letter not in told]
    equal([letter[:20] for letter in told if letter not in found], [])
    # what wasn't told is a prefix of its letter, or all of it
    equal([letter[:20] for letter in rest[:-1] if not any(one.startswith(letter[:-1]) for one in untold)], [])
    equal((rest[-1], len(rest) - 1 <= len(untold)), (b"last\n", True))


def kill_at(server, size):
    """Kills the server once anna's mailbox has that size, or three seconds later."""
    until = time.monotonic() + 3
    while server.mailbox("anna").stat().st_size < size and time.monotonic() < until:
        pass
    server.process.kill()
    server.process.wait(20)


@case
def no_room_in_the_depot(folder):
    """a message for which the blocks don't do: 452, and the next one is stored"""
    with Server(folder, ["anna"], 1, "--lanes", 1, "--blocks", 2) as server:
        with Client(server.address).greet() as client:
            equal(client.deliver(["anna"], "x" * 9000)[1], [no_room("anna")])
            equal(client.deliver(["anna"], "hello")[1], [stored("anna")])
            equal(client.quit(), CLOSING)
        equal(vars(server.end()), {"status": 0, "said": ["anna stored 1"], "errors": []})

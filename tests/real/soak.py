"""A million deliveries, and what the server's memory and descriptors come to meanwhile and after them."""

import os
import pathlib
import re
import shutil
import subprocess
import time
from typing import NamedTuple

from cases import Absent, case, equal
from clients import Client
from server import Server

RECIPIENTS = 4  # of each message: the mailboxes of its connection, which are those of no other
SIZE = 512
LOAD = pathlib.Path(__file__).parents[2] / "bench/serve/load.rs"
EVERY = 0.5  # seconds between two looks
OPENED = 2  # files of a mailbox, from its first letter on: its own, and what its lock files are linked from
SETTLED = 10  # per cent of the looks after which nothing grows with what is delivered
ID = re.compile(rb"^Message-ID: <soak\.(\d+)\.(\d+)@load>$", re.MULTILINE)


class Work(NamedTuple):
    """Connections, one a lane, each of that many conversations of that many messages."""

    lanes: int
    conversations: int
    messages: int

    @property
    def boxes(self):
        return [f"u{number}" for number in range(self.lanes * RECIPIENTS)]

    @property
    def stored(self):
        """Of each mailbox."""
        return self.conversations * self.messages

    @property
    def deliveries(self):
        return self.lanes * RECIPIENTS * self.stored

    @property
    def leak(self):
        """KiB: half a byte for each delivery after the looks of the start."""
        return self.deliveries * (100 - SETTLED) // 100 // 2 // 1024


@case
def a_million_deliveries(folder):
    """a million deliveries over 16 lanes to 64 mailboxes: each letter once, in order, and nothing leaks"""
    soak(folder, Work(lanes=16, conversations=125, messages=125))


@case
def a_million_deliveries_over_all_lanes(folder):
    """a million deliveries over 64 lanes to 256 mailboxes: each letter once, in order, and nothing leaks"""
    soak(folder, Work(lanes=64, conversations=125, messages=32))


a_million_deliveries.seconds = 900
a_million_deliveries_over_all_lanes.seconds = 900


def soak(folder, work):
    load = compiled(folder)
    mailboxes = folder / "mailboxes"
    mailboxes.mkdir()
    # one more conversation for each lane, so that the server is still there after the load
    conversations = work.lanes * (work.conversations + 1)
    with Server(mailboxes, work.boxes, conversations, "--lanes", work.lanes) as server:
        time.sleep(EVERY)  # its threads start after the line that says that it listens
        begun, pid = time.monotonic(), server.process.pid
        before = Look(begun, pid)
        looks = watch(begun, pid, deliver(load, server.text, work))
        after = look_afterwards(begun, pid, before)
        say_goodbye(server.address, work.lanes)
        ended = server.end()
    equal((ended.status, ended.errors), (0, []))
    equal(ended.said, [f"{name} stored {work.stored}" for name in work.boxes])
    equal_ids(mailboxes, work)
    draw([*looks, after], work)
    judge(before, looks, after, work)


def equal_ids(mailboxes, work):
    """Each mailbox has the ids of its connection's messages, each once and in order."""
    for number, name in enumerate(work.boxes):
        found = ID.findall((mailboxes / f"{name}.mbox").read_bytes())
        connection = b"%d" % (number // RECIPIENTS)
        equal(found, [(connection, b"%d" % message) for message in range(work.stored)])


def judge(before, looks, after, work):
    """Neither memory nor descriptors grow with what is delivered, and no descriptor is left."""
    settled = [*looks[len(looks) * SETTLED // 100 :], after]
    first, most = settled[0].memory, max(look.memory for look in settled)
    print(f"{work.deliveries} deliveries in {after.seconds:.0f} s; resident {first} KiB after a tenth,", end=" ")
    print(f"{after.memory} at the end, {most} at most;", end=" ")
    print(f"descriptors {before.descriptors} before, {after.descriptors} after")
    assert most - first < work.leak, f"from {first} to {most} KiB"
    # one for each client, who comes and goes
    mailboxes = before.descriptors + OPENED * len(work.boxes)
    assert max(look.descriptors for look in looks) <= mailboxes + work.lanes, "more than the clients'"
    equal(after.descriptors, mailboxes)


def compiled(folder):
    if shutil.which("rustc") is None:
        raise Absent("rustc")
    load = folder / "load"
    subprocess.run(["rustc", "-O", "-o", load, LOAD], check=True)
    return load


def deliver(load, address, work):
    words = ["soak", work.lanes, work.conversations, work.messages, RECIPIENTS, SIZE, len(work.boxes)]
    return subprocess.Popen([load, address, *map(str, words)], stdout=subprocess.DEVNULL)


class Look:
    """What the process has now: resident memory in KiB, and open descriptors."""

    def __init__(self, begun, pid):
        status = pathlib.Path(f"/proc/{pid}/status").read_text()
        self.seconds = time.monotonic() - begun
        self.memory = int(re.search(r"^VmRSS:\s+(\d+) kB$", status, re.MULTILINE)[1])
        self.descriptors = len(os.listdir(f"/proc/{pid}/fd"))


def watch(begun, pid, load):
    """Looks at the server until the load has ended, all of whose replies were those that are due."""
    looks = []
    while load.poll() is None:
        looks.append(Look(begun, pid))
        time.sleep(EVERY)
    equal(load.wait(), 0)
    return looks


def look_afterwards(begun, pid, before):
    """The look after the last client, for whose connection to be closed it waits a while."""
    until = time.monotonic() + 5
    while True:
        look = Look(begun, pid)
        if look.descriptors == before.descriptors or time.monotonic() > until:
            return look
        time.sleep(0.1)


def say_goodbye(address, count):
    """That many conversations without a message."""
    for _ in range(count):
        with Client(address).greet() as client:
            client.quit()


def draw(looks, work):
    """Resident memory over time, as an SVG in the folder that SOAK_GRAPHS names."""
    graphs = os.environ.get("SOAK_GRAPHS")
    if graphs is None:
        return
    width, height, most = 640, 240, max(look.memory for look in looks)
    last = max(looks[-1].seconds, 1)
    points = " ".join(
        f"{40 + (width - 60) * look.seconds / last:.1f},{height - 30 - (height - 60) * look.memory / most:.1f}"
        for look in looks
    )
    pathlib.Path(graphs, f"soak-{work.lanes}.svg").write_text(
        f'<svg xmlns="http://www.w3.org/2000/svg" width="{width}" height="{height}" font-family="sans-serif"'
        f' font-size="12">\n'
        f"<title>Resident memory of lmtpd serve over {work.deliveries:,} deliveries, {work.lanes} lanes</title>\n"
        f'<rect width="100%" height="100%" fill="white"/>\n'
        f'<text x="40" y="20">{most:,} KiB at most</text>\n'
        f'<text x="{width - 90}" y="{height - 10}">{last:.0f} seconds</text>\n'
        f'<path d="M40 30V{height - 30}H{width - 20}" fill="none" stroke="gray"/>\n'
        f'<polyline points="{points}" fill="none" stroke="navy" stroke-width="2"/>\n'
        f"</svg>\n"
    )

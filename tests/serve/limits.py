"""A server whose messages may have other sizes than the usual ones, and one with more room for them."""

import pathlib
import re

from cases import case, equal
from clients import Client
from replies import GREETING, MESSAGE_TOO_LARGE, offered_size, stored, too_large
from server import Server

LINE = "x" * 62


@case
def a_limit_of_the_site(folder):
    """a limit of 65,536 bytes: what is offered, a size above it, a message of as many bytes, and one a byte longer"""
    limit = 65_536
    count = limit // (len(LINE) + 2)
    with Server(folder, ["anna"], 1, "--message-limit", limit) as server:
        with Client(server.address) as client:
            equal(client.hear(), GREETING)
            equal(client.ask("LHLO relay.example"), offered_size(limit))
            equal(client.ask(f"MAIL FROM:<a@b> SIZE={limit + 1}"), MESSAGE_TOO_LARGE)
            equal(client.deliver(["anna"], *[LINE] * count)[1], [stored("anna")])
            equal(client.deliver(["anna"], "x" + LINE, *[LINE] * (count - 1))[1], [too_large("anna")])
            client.quit()
        ended = server.end()
    equal((ended.status, ended.said, ended.errors), (0, ["anna stored 1"], []))
    equal(server.mailbox("anna").read_bytes().count(LINE.encode() + b"\n"), count)


@case
def a_letter_of_twenty_megabytes(folder):
    """a letter of 20 MB for two mailboxes, where one may have 25 MiB: each holds it, byte for byte"""
    with Server(folder, ["anna", "ben"], 1, "--message-limit", 26_214_400) as server:
        with Client(server.address) as client:
            client.greet()
            finals = client.deliver(["anna", "ben"], *[LINE] * 312_500)[1]
            equal(finals, [stored("anna"), stored("ben")])
            client.quit()
        ended = server.end()
    equal((ended.status, ended.errors), (0, []))
    for name in ["anna", "ben"]:
        body = server.mailbox(name).read_bytes().partition(b"+0000\n")[2]
        equal(body == (LINE.encode() + b"\n") * 312_500 + b"\n", True)


@case
def blocks_that_hold_no_largest_message(folder):
    """where all blocks together can't hold one largest message the log says so, and the server serves"""
    room = 65_536
    words = ["--message-limit", room + 1, "--blocks", room // 4_096, "--log", "error"]
    with Server(folder, ["anna"], 1, *words) as server:
        with Client(server.address) as client:
            client.greet()
            equal(client.deliver(["anna"], "hello")[1], [stored("anna")])
            client.quit()
        ended = server.end()
    line = f"[ERROR lmtpd] a largest message has no room room={room} limit={room + 1}"
    equal((ended.status, ended.errors), (0, [line]))


@case
def blocks_that_were_never_used_are_not_resident(folder):
    """with 65,536 blocks, 256 MiB of room, less than 4 MiB more are resident than with 256, before the first letter and
    after one of 1,000,000 bytes"""
    resident = {}
    for blocks in [256, 65_536]:
        place = folder / str(blocks)
        place.mkdir()
        words = ["--lanes", 1, "--blocks", blocks]
        with Server(place, ["anna"], 1, *words) as server, Client(server.address).greet() as client:
            resident[blocks] = [kilobytes(server)]
            equal(client.deliver(["anna"], *[LINE] * 15_625)[1], [stored("anna")])
            resident[blocks].append(kilobytes(server))
            client.quit()
            equal(server.end().status, 0)
    more = [many - few for few, many in zip(*resident.values(), strict=True)]
    assert all(one < 4_096 for one in more), resident


def kilobytes(server):
    """What is resident of it."""
    status = pathlib.Path(f"/proc/{server.process.pid}/status").read_text()
    return int(re.search(r"VmRSS:\s+(\d+) kB", status)[1])

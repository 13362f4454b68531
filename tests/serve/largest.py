"""A server of the largest size: 64 lanes and 256 mailboxes, with messages for ten and for 1,000 recipients."""

import contextlib

import letters
from cases import case, equal
from clients import Client
from replies import CLOSING, RECIPIENT_OK, TOO_MANY, stored
from server import Server

BOXES = [f"box{number}" for number in range(256)]
LANES = 64
COMMAND = "MAIL FROM:<carl@a.example>"


def all_stored(names):
    return [stored(name) for name in names]


@case
def all_lanes_at_once(folder):
    """64 clients at once on 64 lanes, each with a message for ten of 256 mailboxes: each reply and letter is its own"""
    taken = [[BOXES[(lane * 10 + place) % 256] for place in range(10)] for lane in range(LANES)]
    with Server(folder, BOXES, LANES, "--lanes", LANES) as server, contextlib.ExitStack() as clients:
        # each is greeted before one of them says QUIT, so all are served at the same time
        served = [clients.enter_context(Client(server.address)).greet() for _ in range(LANES)]
        for client, names in zip(served, taken):
            client.send(COMMAND, *[f"RCPT TO:<{name}>" for name in names], "DATA")
        for client in served:
            equal([client.hear()[:3] for _ in range(12)], ["250"] * 11 + ["354"])
        for number, client in enumerate(served):
            client.send(f"from client {number}", ".")
        for client, names in zip(served, taken):
            equal([client.hear() for _ in names], all_stored(names))
        for client in served:
            equal(client.quit(), CLOSING)
        ended = server.end()
    expected = {name: [] for name in BOXES}
    for number, names in enumerate(taken):
        for name in names:
            expected[name].append(b"from client %d\n" % number)
    equal((ended.status, ended.errors), (0, []))
    equal(ended.said, [f"{name} stored {len(expected[name])}" for name in BOXES])
    equal(sum(map(len, expected.values())), 640)
    for name in BOXES:
        equal(sorted(letters.messages(server.mailbox(name))), sorted(expected[name]))


@case
def a_thousand_recipients(folder):
    """one message for 1,000 recipients over 256 mailboxes: each reply in its place; one more recipient is told 452"""
    names = [BOXES[place * 7 % 256] for place in range(1000)]
    with Server(folder, BOXES, 1) as server:
        with Client(server.address) as client:
            client.greet()
            asked, finals = client.deliver_at_once([*names, "box0"], "hello")
            equal(asked, [RECIPIENT_OK] * 1000 + [TOO_MANY])
            equal(finals, all_stored(names))
            client.quit()
        ended = server.end()
    equal((ended.status, ended.errors), (0, []))
    equal(ended.said, [f"{name} stored {names.count(name)}" for name in BOXES])
    for name in BOXES:
        equal(letters.messages(server.mailbox(name)), [b"hello\n"] * names.count(name))

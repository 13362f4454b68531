"""Whose addresses the server logs, and where."""

import re

from cases import case, equal
from clients import Client
from logs import LETTER, answer, conversation
from replies import CLOSING, GO_AHEAD, RECIPIENT_OK, SENDER_OK, stored
from server import Server

# What a client says, and how the line of the log ends that it gets with --log-addresses, if it gets one.
NAMING = [
    ("RCPT TO:<anna@mx.example>", "verb=RCPT code=503 recipient=<anna@mx.example>"),
    ("MAIL FROM:<carl@a.example> SIZE=1048577", "verb=MAIL code=552 sender=<carl@a.example>"),
    ("MAIL FROM:<carl@a.example> SIZE=4294967296", "verb=MAIL code=552"),
    ("MAIL FROM:<erik@a.example>", None),
    ("RCPT TO:<ben@mx.example>", None),
    ("RSET", None),
    ("mail from:<@relay.example:carl@a.example> BODY=8BITMIME", None),
    ("MAIL FROM:<dora@a.example>", "verb=MAIL code=503 sender=<dora@a.example>"),
    ("RCPT TO:<nobody@mx.example>", "verb=RCPT code=550 reason=mailbox recipient=<nobody@mx.example>"),
    ('RCPT TO:<"x mailbox=anna"@[192.0.2.1]>', 'verb=RCPT code=550 reason=domain recipient=<"x%20mailbox=anna"@[192.0.2.1]>'),
    ("RCPT TO:<x%20y=z@mx.example>", "verb=RCPT code=550 reason=mailbox recipient=<x%2520y=z@mx.example>"),
    ("RCPT TO:<nobody@mx.example", "verb=RCPT code=501"),
    ("RCPT TO:<anna@mx.example> SIZE=1", "verb=RCPT code=555"),
    ("VRFY anna@mx.example", None),
    ("EXPN anna@mx.example", "verb=EXPN code=502"),
    ("anna@mx.example", "verb=other code=500"),
    ("RCPT TO:<anna@mx.example>" + "x" * 1_000, "verb=long code=500"),
    ("RCPT TO:<Anna+lists@MX.example>", None),
    ("RCPT TO:<ben@mx.example>", None),
    ("RCPT TO:<postmaster>", None),
]


def naming_server(folder, *more):
    """What is logged of a conversation that says NAMING, then a letter, and at once with its end another one."""
    given = ["--lanes", 1, "--log", "info", "--recipient-delimiter", "+", *more]
    with Server(folder, ["anna", "ben"], 1, *given) as server:
        with Client(server.address).greet() as client:
            for line, _ in NAMING:
                client.ask(line)
            equal(client.ask("DATA"), GO_AHEAD)
            client.send(*LETTER, ".", "MAIL FROM:<>", "RCPT TO:<ben+x@mx.example>", "DATA")
            heard = [client.hear() for _ in range(6)]
            equal(heard, [stored("anna"), stored("ben"), stored("anna"), SENDER_OK, RECIPIENT_OK, GO_AHEAD])
            equal(client.ask("."), stored("ben"))
            equal(client.quit(), CLOSING)
        ended = server.end()
    equal((ended.status, conversation(ended.errors[-1])[2]), (0, "quit"))
    return [line for line in ended.errors[:-1] if line != "[ERROR lmtpd] domain not served domain=[192.0.2.1]"]


@case
def addresses_are_logged_where_they_are_asked_for(folder):
    """with --log-addresses a copy's line ends with its own sender and recipient, and that of a refused MAIL or RCPT
    with the address that it named; no other line has one, and without the word none"""
    sent = "sender=<carl@a.example>"
    pairs = [f"{sent} recipient=<{name}>" for name in ["Anna+lists@MX.example", "ben@mx.example", "postmaster"]]
    pairs.append("sender=<> recipient=<ben+x@mx.example>")
    logged = naming_server(folder, "--log-addresses")
    refused, copies = [ends for _, ends in NAMING if ends], logged[-4:]
    equal(logged[:-4], [f"[INFO  lmtpd] command refused lane=0 {ends}" for ends in refused])
    equal([line.split(" client=relay.example ")[1] for line in copies], pairs)
    bare = [re.sub(r" (sender|recipient)=<\S*>", "", line) for line in logged]
    (folder / "bare").mkdir()
    without = naming_server(folder / "bare")
    equal([varies(line) for line in without], [varies(line) for line in bare])
    expected = [("0-1", "anna"), ("0-1", "ben"), ("0-1", "anna"), ("0-2", "ben")]
    equal([answer(line)[0][:2] for line in without[-4:]], expected)


@case
def addresses_in_utf8_are_escaped(folder):
    """with --smtputf8 an address in UTF-8 is logged with an escape for each byte that isn't ASCII; without the word
    one is refused, and its line has none"""
    given = ["--lanes", 1, "--log", "info", "--log-addresses", "--recipient-delimiter", "+"]
    with Server(folder, ["anna"], 1, *given, "--smtputf8") as server:
        with Client(server.address).greet() as client:
            equal(client.ask("MAIL FROM:<jürgen@bü.example> SMTPUTF8"), SENDER_OK)
            equal(client.ask("RCPT TO:<zoë>")[:3], "550")
            equal(client.ask("RCPT TO:<anna+ü>"), RECIPIENT_OK)
            equal(client.ask("DATA"), GO_AHEAD)
            client.send(*LETTER, ".")
            equal(client.hear(), stored("anna"))
            client.quit()
        refused, copy, _ = server.end().errors
    equal(refused, "[INFO  lmtpd] command refused lane=0 verb=RCPT code=550 reason=mailbox recipient=<zo%C3%AB>")
    equal(copy.split(" sender=")[1], "<j%C3%BCrgen@b%C3%BC.example> recipient=<anna+%C3%BC>")
    (folder / "without").mkdir()
    with Server(folder / "without", ["anna"], 1, *given) as server:
        with Client(server.address).greet() as client:
            equal(client.ask("MAIL FROM:<jürgen@a.example>")[:3], "501")
            client.quit()
        equal(server.end().errors[0], "[INFO  lmtpd] command refused lane=0 verb=MAIL code=501")


def varies(line):
    """A copy's line without what is another one each time."""
    return re.sub(r"id=\d{16}-|seconds=\S+", "", line)


@case
def addresses_alone_log_nothing(folder):
    """--log-addresses without --log, and with off and error, logs nothing of a letter"""
    for more in [], ["--log", "off"], ["--log", "error"]:
        with Server(folder, ["anna"], 1, "--log-addresses", *more) as server:
            with Client(server.address).greet() as client:
                client.ask("RCPT TO:<anna@mx.example>")
                client.deliver(["anna"], *LETTER)
                client.quit()
            equal(server.end().errors, [])


@case
def a_thousand_addresses_are_logged(folder):
    """a letter for a thousand recipients, each of 254 bytes, has a line for each, with its own address"""
    names = [f"anna+{number:04}{'x' * 234}@mx.example" for number in range(1_000)]
    assert {len(name) for name in names} == {254}
    log, given = folder / "log", ["--lanes", 1, "--log", "info", "--log-addresses", "--recipient-delimiter", "+"]
    with log.open("wb") as errors, Server(folder, ["anna"], 1, *given, errors=errors) as server:
        with Client(server.address).greet() as client:
            client.send("MAIL FROM:<carl@a.example>", *(f"RCPT TO:<{name}>" for name in [*names, "ben@mx.example"]))
            equal([client.hear()[:3] for _ in range(1_002)], ["250"] * 1_001 + ["550"])
            equal(client.ask("DATA"), GO_AHEAD)
            client.send("", ".")
            equal([client.hear() for _ in names], [stored("anna")] * 1_000)
            client.quit()
        equal(server.end().status, 0)
    logged = log.read_text().splitlines()
    equal(logged[0], "[INFO  lmtpd] command refused lane=0 verb=RCPT code=550 reason=mailbox recipient=<ben@mx.example>")
    expected = [f"<carl@a.example> recipient=<{name}>" for name in names]
    equal([line.split(" sender=")[1] for line in logged[1:-1]], expected)

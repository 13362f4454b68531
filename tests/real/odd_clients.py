"""Clients that are slow, deaf, silent or many, over TCP and over a Unix socket."""

import concurrent.futures
import time

import letters
from cases import case, equal
from clients import Client, deliver_one
from replies import STOPPING, offered_size, stored
from server import Server


def over_tcp_and_a_unix_socket(function):
    """Two cases of one function, which is told where its server is to listen."""

    def over_tcp(folder):
        function(folder, "127.0.0.1:0")

    def over_a_unix_socket(folder):
        function(folder, f"unix:{folder}/sock")

    over_tcp.__doc__ = f"over TCP, {function.__doc__}"
    over_a_unix_socket.__doc__ = f"over a Unix socket, {function.__doc__}"
    for one in [over_tcp, over_a_unix_socket]:
        case(one)
    return function


@over_tcp_and_a_unix_socket
def a_byte_a_second(folder, listen):
    """a client that sends a byte a second holds its own lane alone: another client is served meanwhile"""
    with Server(folder, ["anna"], 4, "--lanes", 2, "--timeout", 3, listen=listen) as server:
        with Client(server.address) as slow:
            for byte in b"LHLO relay":
                slow.socket.sendall(bytes([byte]))
                if byte in b"Oy":
                    equal(deliver_one(server.address, ["anna"], "hello"), [stored("anna")])
                time.sleep(1)
            slow.socket.sendall(b".example\r\n")
            equal(slow.hear()[:4], "220 ")
            equal(slow.hear(), offered_size())
        equal(letters.messages(server.mailbox("anna")), [b"hello\n"] * 2)


@over_tcp_and_a_unix_socket
def a_flood_of_slow_ones(folder, listen):
    """sixty-four clients that send a byte each quarter of a second hold sixteen lanes, each for its --session-time: a
    client that comes with them and one that comes after them are served"""
    with Server(folder, ["anna"], 1000, "--lanes", 16, "--session-time", 2, listen=listen) as server:
        slow = [Client(server.address) for _ in range(64)]
        with concurrent.futures.ThreadPoolExecutor(66) as pool:
            jobs = [pool.submit(hears_421, client) for client in slow]
            beside = pool.submit(deliver_one, server.address, ["anna"], "beside")
            equal([job.result() for job in jobs], [True] * 64)
            equal(beside.result(), [stored("anna")])
        equal(deliver_one(server.address, ["anna"], "after"), [stored("anna")])
        equal(letters.messages(server.mailbox("anna")), [b"beside\n", b"after\n"])


def hears_421(client):
    """Sends a byte now and then, until the server says that it stops."""
    with client:
        equal(client.hear()[:4], "220 ")
        client.socket.settimeout(0.25)
        heard = b""
        while not heard.endswith(b"\r\n"):
            client.socket.sendall(b"N")
            try:
                heard += client.socket.recv(1024)
            except TimeoutError:
                pass
        return heard == STOPPING.encode() + b"\r\n"


@over_tcp_and_a_unix_socket
def one_that_never_reads(folder, listen):
    """a client that never reads is left once its time is over, and the next one has the lane"""
    with Server(folder, ["anna"], 2, "--lanes", 1, "--timeout", 2, listen=listen) as server:
        with Client(server.address) as deaf:
            deaf.send_until_stuck(10, "HELP")
            equal(deliver_one(server.address, ["anna"], "hello"), [stored("anna")])
        equal(server.end().said, ["anna stored 1"])


@over_tcp_and_a_unix_socket
def a_client_that_says_nothing(folder, listen):
    """sixteen clients that say nothing hold the lanes for their time, hear 421, and then others are served"""
    with Server(folder, ["anna"], 32, "--lanes", 16, "--timeout", 2, listen=listen) as server:
        silent = [Client(server.address) for _ in range(16)]
        with concurrent.futures.ThreadPoolExecutor(16) as pool:
            jobs = [pool.submit(deliver_one, server.address, ["anna"], f"hello {n}") for n in range(16)]
            for client in silent:
                equal((client.hear()[:4], client.hear()), ("220 ", STOPPING))
                client.leave()
            equal([job.result() for job in jobs], [[stored("anna")]] * 16)
        equal(server.end().said, ["anna stored 16"])


@over_tcp_and_a_unix_socket
def a_thousand_at_once(folder, listen):
    """a thousand clients at once, each of which tries until it is served: each letter is stored once"""
    with Server(folder, ["anna", "ben"], 1000, "--lanes", 16, listen=listen) as server:
        with concurrent.futures.ThreadPoolExecutor(1000) as pool:
            told = list(pool.map(lambda number: try_on(server.address, number), range(1000)))
        equal(told, [[stored("anna"), stored("ben")]] * 1000)
        equal(vars(server.end()), {"status": 0, "said": ["anna stored 1000", "ben stored 1000"], "errors": []})
        for name in ["anna", "ben"]:
            found = sorted(letters.messages(server.mailbox(name)))
            equal(found, sorted(b"letter %d\n" % number for number in range(1000)))


def try_on(address, number):
    """Delivers once it gets a connection that is greeted."""
    for _ in range(60):
        try:
            client = Client(address)
        except OSError:
            time.sleep(0.2)
            continue
        with client:
            client.greet()
            finals = client.deliver(["anna", "ben"], f"letter {number}")[1]
            client.quit()
            return finals
    raise RuntimeError(f"client {number} got no connection")

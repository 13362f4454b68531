"""An orderly stop: what clients hear between the stop file and the server's end."""

import fcntl
import threading
import time

import letters
from cases import case, equal
from clients import Client, deliver_one
from ends import stoppable
from replies import RESET_OK, STOPPING, UNKNOWN_COMMAND, not_stored, stored
from restarts import MANY, asked_to_stop, ended_in_time
from server import Server

STORED, NOT_STORED = stored("anna"), not_stored("anna")
# How long a client at rest may be silent, how long all go on, and how much later a client may hear of it: the file is
# looked for four times a second, a wait lasts half a second, and the machine may be busy.
SILENCE, GRACE, LATE = 3, 5, 3
# After that long the server has seen the stop file.
SEEN = 0.6


def heard_at(client, since):
    """What the client hears next, and how many seconds after that moment."""
    answer = client.hear()
    return answer, time.monotonic() - since


@case
def a_stop_tells_each_client(folder):
    """a client at rest hears 421 after three seconds of silence, one whose data is under way after five, and what was
    told 250 is stored alone"""
    with stoppable(folder) as server, Client(server.address) as idle, Client(server.address) as sending:
        idle.greet()
        sending.greet().start_message("anna", "half a letter")
        equal(deliver_one(server.address, ["anna"], "hello"), [STORED])
        since = asked_to_stop(folder)
        for client, seconds in [(idle, SILENCE), (sending, GRACE)]:
            answer, took = heard_at(client, since)
            equal(answer, STOPPING)
            assert seconds <= took < seconds + LATE, took
        ended = ended_in_time(server, since)
    equal((ended.status, ended.said), (0, ["anna stored 1"]))
    equal(letters.messages(server.mailbox("anna")), [b"hello\n"])


@case
def silence_counts_from_the_last_byte(folder):
    """a client who began a line after the stop is waited for until five seconds after it, one who ended one for three
    seconds from then"""
    with stoppable(folder) as server, Client(server.address) as begun, Client(server.address) as ended_one:
        begun.greet()
        ended_one.greet()
        since = asked_to_stop(folder)
        time.sleep(1)
        begun.socket.sendall(b"RSE")
        equal(ended_one.ask("NOPE"), UNKNOWN_COMMAND)
        for client, seconds in [(ended_one, 1 + SILENCE), (begun, GRACE)]:
            answer, took = heard_at(client, since)
            equal(answer, STOPPING)
            assert seconds <= took < seconds + LATE, took
        equal(ended_in_time(server, since).status, 0)


@case
def a_kept_connection_hears_it_at_rset(folder):
    """a client at rest hears 421 in place of the reply to RSET, NOOP, VRFY, HELP and a further LHLO, in any case of
    letters"""
    commands = ["RSET", "noop", "VRFY anna", "Help", "LHLO relay.example"]
    with Server(folder, ["anna"], MANY, "--lanes", len(commands), "--stop-file", folder / "stop") as server:
        clients = [Client(server.address) for _ in commands]
        for client in clients:
            client.greet()
            equal(client.deliver(["anna"], "hello")[1], [STORED])
            equal(client.ask("RSET"), RESET_OK)
        since = asked_to_stop(folder)
        time.sleep(SEEN)
        for client, command in zip(clients, commands):
            equal((command, client.ask(command), client.hear()), (command, STOPPING, ""))
            client.leave()
        assert time.monotonic() - since < SILENCE
        ended = ended_in_time(server, since)
    equal((ended.status, ended.said), (0, [f"anna stored {len(commands)}"]))


@case
def rset_as_a_line_of_data_is_stored(folder):
    """after the stop a client writes RSET as a line of data, in one piece: it is data, and the letter is stored"""
    with stoppable(folder) as server, Client(server.address) as client:
        client.greet()
        since = asked_to_stop(folder)
        time.sleep(SEEN)
        client.start_message("anna", "hello")
        for line in ["RSET", "NOOP", "QUIT"]:
            time.sleep(0.1)
            client.send(line)
        client.send(".")
        equal(client.hear(), STORED)
        equal(client.ask("RSET"), STOPPING)
        ended = ended_in_time(server, since)
    equal((ended.status, ended.said), (0, ["anna stored 1"]))
    equal(letters.messages(server.mailbox("anna")), [b"hello\nRSET\nNOOP\nQUIT\n"])


@case
def a_transaction_ends_and_one_more_is_held(folder):
    """the transaction under way at the stop ends with 250, and so does the next; the MAIL after that hears 421"""
    with stoppable(folder) as server, Client(server.address) as client:
        client.greet().start_message("anna", "one")
        since = asked_to_stop(folder)
        time.sleep(SEEN)
        client.send(".")
        equal(client.hear(), STORED)
        equal(client.deliver(["anna"], "two")[1], [STORED])
        equal(client.ask("MAIL FROM:<carl@a.example>"), STOPPING)
        ended = ended_in_time(server, since)
    equal((ended.status, ended.said), (0, ["anna stored 2"]))


@case
def nobody_is_taken_after_it(folder):
    """who connects once the server has seen the stop file is not greeted, though conversations go on"""
    with stoppable(folder) as server, Client(server.address) as kept:
        kept.greet()
        since = asked_to_stop(folder)
        time.sleep(2)  # on a busy machine too no lane waits in an accept any more
        with Client(server.address) as late:
            equal(kept.deliver(["anna"], "hello")[1], [STORED])
            late.socket.settimeout(1)
            try:
                late.hear()
                raise AssertionError("it was greeted")
            except TimeoutError:
                pass
            equal(kept.ask("RSET"), STOPPING)
            equal(ended_in_time(server, since).status, 0)


@case
def a_wait_for_a_lock_goes_on(folder):
    """a copy that waits for a mailbox is stored where that is unlocked within five seconds of the stop"""
    with stoppable(folder, "--lock-wait", 60) as server, Client(server.address) as client:
        with open(server.mailbox("anna"), "ab") as held:
            fcntl.lockf(held, fcntl.LOCK_EX)
            client.greet().start_message("anna", "hello")
            client.send(".")
            since = asked_to_stop(folder)
            unlocking = threading.Timer(3, held.close)
            unlocking.start()
            answer, took = heard_at(client, since)
            unlocking.join()
            equal(answer, STORED)
            assert SILENCE <= took < SILENCE + LATE, took
        ended = ended_in_time(server, since)
    equal((ended.status, ended.said, ended.errors), (0, ["anna stored 1"], []))


@case
def a_wait_for_a_lock_has_its_end(folder):
    """a copy that waits for a mailbox which another program has locked is told 451 five seconds after the stop"""
    with stoppable(folder, "--lock-wait", 60) as server, Client(server.address) as client:
        with open(server.mailbox("anna"), "ab") as held:
            fcntl.lockf(held, fcntl.LOCK_EX)
            client.greet().start_message("anna", "hello")
            client.send(".")
            time.sleep(0.5)
            since = asked_to_stop(folder)
            answer, took = heard_at(client, since)
            equal((answer, client.hear()), (NOT_STORED, STOPPING))
            assert GRACE <= took < GRACE + LATE, took
            ended = ended_in_time(server, since)
    equal((ended.status, ended.errors), (0, ["lmtpd: anna in use 1"]))

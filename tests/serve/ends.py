"""What ends the server though its clients aren't done, and what ends a conversation."""

import threading
import time

import failing
from cases import case, equal
from clients import Client, deliver_one
from files import give_room, of_size
from inherited import Inheriting, passed
from replies import STOPPING, not_stored, stored
from restarts import MANY, SECONDS_ALONE, asked_to_stop, ended_in_time, restart_under_load
from server import Server, run, words

STORED, NOT_STORED = stored("anna"), not_stored("anna")
LANES = 4
OLD = b"x" * 9_998 + b"\n\n"
RESTARTS = 20


def stoppable(folder, *more, **how):
    return Server(folder, ["anna"], MANY, "--lanes", LANES, "--stop-file", folder / "stop", *more, **how)


@case
def a_stop_file_ends_an_idle_server(folder):
    """once the stop file is there a server whose lanes wait for clients ends with status 0, and the file stays"""
    with stoppable(folder) as server:
        equal(deliver_one(server.address, ["anna"], "hello"), [STORED])
        ended = ended_in_time(server, asked_to_stop(folder), SECONDS_ALONE)
    equal((ended.status, ended.said, ended.errors), (0, ["anna stored 1"], []))
    equal((folder / "stop").exists(), True)


@case
def a_stop_file_at_the_start(folder):
    """a stop file that is there at the start ends the server at once, with status 0"""
    asked_to_stop(folder)
    given = words(folder, ["anna"], MANY, "--stop-file", folder / "stop")
    ended = run(given)
    equal((ended.status, ended.said[1:], ended.errors), (0, ["anna stored 0"], []))


@case
def a_session_has_its_time(folder):
    """a client that sends a byte now and then hears 421 once its conversation has lasted for --session-time"""
    with Server(folder, ["anna"], 1, "--lanes", 1, "--session-time", 2) as server, Client(server.address) as client:
        client.greet()
        since = time.monotonic()
        sender = threading.Thread(target=send_slowly, args=[client])
        sender.start()
        equal(client.hear(), STOPPING)
        took = time.monotonic() - since
        sender.join()
        assert 1.5 < took < 4, took
        equal(server.end().status, 0)


@case
def bad_commands_have_their_number(folder):
    """with --bad-commands 3 a client hears 421 after its third bad command since its last letter: a recipient who isn't
    here is none, and a letter between them has them counted anew"""
    with Server(folder, ["anna"], 1, "--lanes", 1, "--bad-commands", 3) as server, Client(server.address) as client:
        client.greet()
        bad = ["NOPE", "DATA"]
        equal([client.ask(line)[:3] for line in bad], ["500", "503"])
        equal(client.ask("MAIL FROM:<a@b>")[:3], "250")
        equal([client.ask("RCPT TO:<zoe@mx.example>")[:3] for _ in range(5)], ["550"] * 5)
        equal([client.ask(line)[:3] for line in ["RCPT TO:<anna@mx.example>", "DATA"]], ["250", "354"])
        equal(client.ask("NOPE\r\n."), STORED)
        equal([client.ask(line)[:3] for line in bad], ["500", "503"])
        equal(client.ask("NOOP")[:3], "250")
        client.send("EXPN anna")
        equal([client.hear()[:3], client.hear(), client.hear()], ["502", STOPPING, ""])
        equal(server.end().status, 0)


def send_slowly(client):
    try:
        for _ in range(40):
            client.socket.sendall(b"N")
            time.sleep(0.2)
    except OSError:
        pass


@case
def no_number_ends_it(folder):
    """without --connections a server goes on after many conversations"""
    given = words(folder, ["anna"], MANY, "--lanes", 2, "--stop-file", folder / "stop")
    at = given.index("--connections")
    with Server.with_words(folder, given[:at] + given[at + 2 :]) as server:
        for number in range(20):
            equal(deliver_one(server.address, ["anna"], f"letter {number}"), [STORED])
        ended = ended_in_time(server, asked_to_stop(folder))
    equal((ended.status, ended.said), (0, ["anna stored 20"]))


@case
def a_mailbox_without_room(folder):
    """a mailbox whose file can't grow is told 451, it alone, and the first copy after there is room 250, with no
    restart; the status is 0, and where there is no room again as the server ends, it is 1 with a device fault"""
    for is_full_again in [False, True]:
        place = folder / str(is_full_again)
        place.mkdir()
        (place / "anna.mbox").write_bytes(OLD)
        letters_told = 4 + is_full_again
        with Server(place, ["anna", "ben"], letters_told, "--lanes", 1, **of_size(len(OLD))) as server:
            told = [deliver_both(server, number) for number in range(3)]
            equal(told, [[NOT_STORED, stored("ben")]] * 3)
            equal(server.mailbox("anna").read_bytes() == OLD, True)
            give_room(server.process.pid, 2 * len(OLD))
            equal(deliver_both(server, 3), [STORED, stored("ben")])
            if is_full_again:
                give_room(server.process.pid, server.mailbox("anna").stat().st_size)
                equal(deliver_both(server, 4), [NOT_STORED, stored("ben")])
            ended = server.end()
        equal((ended.status, ended.errors), (int(is_full_again), ["lmtpd: device fault"] * is_full_again))
        equal(ended.said, ["anna stored 1", f"ben stored {letters_told}"])
        found = server.mailbox("anna").read_bytes()
        equal((found.startswith(OLD + b"From "), found.endswith(b"\nletter 3\n\n")), (True, True))


def deliver_both(server, number):
    return deliver_one(server.address, ["anna", "ben"], f"letter {number}")


@case
def a_call_that_failed_once(folder):
    """a mailbox of which one write fails: that copy is told 451, the next 250, and the other mailbox 250 all the while;
    the status is 0, and where nothing comes after it, 1 with a device fault"""
    library, trial = failing.built(folder), folder / "trial"
    trial.mkdir()
    given = failing.with_calls(library, trial)
    with failing.environment(given), Server(trial, ["anna"], 1, "--lanes", 1) as server:
        equal(deliver_one(server.address, ["anna"], "hello"), [STORED])
        equal(server.end().status, 0)
    write = failing.called(trial).index("write mailbox") + 1
    for after in range(3):
        place = folder / str(after)
        place.mkdir()
        given = failing.with_calls(library, place, write)
        with failing.environment(given):
            server = Server(place, ["anna", "ben"], 1 + after, "--lanes", 1)
        with server:
            equal(deliver_both(server, 0), [NOT_STORED, stored("ben")])
            for number in range(after):
                equal(deliver_both(server, 1 + number), [STORED, stored("ben")])
            ended = server.end()
        equal((ended.status, ended.errors), (0, []) if after else (1, ["lmtpd: device fault"]))
        equal(ended.said, [f"anna stored {after}", f"ben stored {1 + after}"])


@case
def restarts_lose_nothing(folder):
    """orderly restarts under load on a socket that was passed: each numbered letter is there once, nobody is refused"""
    with passed() as listener:
        listener.listen(64)

        def begin():
            return Inheriting(folder, listener, "--stop-file", folder / "stop", connections=MANY)

        equal(restart_under_load(folder, begin, listener.getsockname(), RESTARTS), 0)


restarts_lose_nothing.seconds = 180

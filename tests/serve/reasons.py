"""What the log on standard error says of why a mailbox is in use, and of why the server can't listen."""

import contextlib
import socket

import readers
from cases import case, equal
from clients import Client
from logs import NO_FILE
from replies import not_stored, stored
from server import Server, run, words


@case
def where_it_cannot_listen_is_logged(folder):
    """before `cannot listen` the log has a line with the reason, at error and at info, and none without: a port that
    is taken, a folder that isn't there, a file that is no socket, a socket to which somebody listens"""
    (folder / "plain").write_bytes(b"abc")
    port, there = socket.create_server(("127.0.0.1", 0)), socket.socket(socket.AF_UNIX)
    with port, there:
        there.bind(str(folder / "socket"))
        there.listen()
        reasons = {
            f"127.0.0.1:{port.getsockname()[1]}": "Address already in use (os error 98)",
            f"unix:{folder}/none/socket": NO_FILE,
            f"unix:{folder}/plain": "what is there is no socket",
            f"unix:{folder}/socket": "another server listens there",
        }
        for listen, reason in reasons.items():
            for level in "error", "info", "off":
                ended = run(words(folder, ["anna"], 1, "--log", level, listen=listen))
                logged = [f"[ERROR lmtpd] cannot listen reason={reason}"] * (level != "off")
                equal(vars(ended), {"status": 1, "said": [], "errors": [*logged, "lmtpd: cannot listen"]})


@case
def a_mailbox_in_use_is_logged(folder):
    """the first turn that is missed is logged with its reason, at error and at info, and the next that isn't: either
    lock of another program, a folder in the mailbox's place, a folder that is away"""
    for level, others in ("error", 0), ("info", 3 + 1):
        for hold, reason in HOLDS.items():
            place = folder / f"{level}_{hold.__name__}"
            place.mkdir()
            more = ["--lanes", 1, "--lock-wait", 0, "--log", level]
            with Server(place, ["anna"], 1, *more) as server, Client(server.address).greet() as client:
                with hold(server.mailbox("anna")):
                    for _ in range(2):
                        equal(client.deliver(["anna"], "hello")[1], [not_stored("anna")])
                equal(client.deliver(["anna"], "hello")[1], [stored("anna")])
                client.quit()
                ended = server.end()
            logged = [line for line in ended.errors if line.startswith("[ERROR ")]
            in_use = f"[ERROR lmtpd] mailbox in use mailbox=anna reason={reason}"
            equal(logged, [in_use, "[ERROR lmtpd] mailbox free again mailbox=anna"])
            equal((ended.status, len(ended.errors), ended.errors[-1]), (0, 3 + others, "lmtpd: anna in use 2"))


@contextlib.contextmanager
def made_a_folder(path):
    path.unlink(missing_ok=True)  # its first letter makes it
    path.mkdir()
    yield
    path.rmdir()


@contextlib.contextmanager
def put_away(path):
    away = path.parent.with_name("away")
    path.parent.rename(away)
    yield
    away.rename(path.parent)


# What keeps a mailbox's turn away, and what the log says of it.
HOLDS = {
    readers.bytes_held: "locked by another program",
    readers.name_held: "locked by another program",
    made_a_folder: "not plain",
    put_away: NO_FILE,
}

"""Postfix delivers to `lmtpd serve`."""

import contextlib
import subprocess

from cases import Absent, case, equal
from mail import equal_mailbox, message
from packages import need_root
from postfix import Postfix
from replies import NO_SUCH_BOX, not_stored, over_quota, stored
from server import Server
from started import free_port

LONG = (b"x" * 62 + b"\r\n") * 128


@case
def postfix_delivers(folder):
    """Postfix: 250 for one recipient, 550 for another, in its log too; the letter byte for byte, with 8BITMIME"""
    with Server(folder, ["anna"], 100, "--timeout", 30) as server:
        with Postfix(folder, f"virtual_transport = lmtp:inet:{server.text}") as postfix:
            postfix.send(["anna@mx.example", "nobody@mx.example"], message("one"))
            word, text = postfix.fate("anna@mx.example")
            equal((word, text), ("sent", stored("anna")))
            word, text = postfix.fate("nobody@mx.example")
            equal((word, NO_SUCH_BOX in text), ("bounced", True))
            equal_mailbox(server.mailbox("anna"), ["one"])


@case
def a_full_disk_keeps_the_queue(folder):
    """Postfix and a full disk: 451, the copy stays queued, and is sent once there is room, with no restart"""
    listen = f"127.0.0.1:{free_port()}"
    with small_disk(folder / "mail") as mail, Postfix(folder, f"virtual_transport = lmtp:inet:{listen}") as postfix:
        filler = mail / "filler"
        filler.write_bytes(b"x" * 60 * 1024)
        with Server(mail, ["anna"], 100, listen=listen) as server:
            postfix.send(["anna@mx.example"], message("late") + LONG)
            word, text = postfix.fate("anna@mx.example")
            equal((word, not_stored("anna") in text), ("deferred", True))
            filler.unlink()
            postfix.flush()
            equal(postfix.fate("anna@mx.example", 2), ("sent", stored("anna")))
            equal(sum(word == "sent" for word, _ in postfix.fates("anna@mx.example")), 1)
            said = server.mailbox("anna").read_bytes()
            # nothing of it was left before
            equal((said.startswith(b"From carl@a.example "), said.count(b"Subject: late\n")), (True, 1))
            equal(said.endswith(LONG.replace(b"\r\n", b"\n") + b"\n"), True)


@case
def a_quota_keeps_the_queue(folder):
    """Postfix and a mailbox over its quota: 452, the copy stays queued, and is sent once there is room"""
    listen = f"127.0.0.1:{free_port()}"
    mail = folder / "mail"
    mail.mkdir()
    (mail / "anna.mbox").write_bytes(b"From carl@a.example Mon Nov 23 10:00:00 2026\n\n" + b"x" * 3000 + b"\n\n")
    with Postfix(folder, f"virtual_transport = lmtp:inet:{listen}") as postfix:
        with Server(mail, ["anna"], 100, "--quota", 10_000, listen=listen):
            postfix.send(["anna@mx.example"], message("late") + LONG)
            word, text = postfix.fate("anna@mx.example")
            equal((word, over_quota("anna") in text), ("deferred", True))
        (mail / "anna.mbox").write_bytes(b"")
        with Server(mail, ["anna"], 100, "--quota", 10_000, listen=listen) as server:
            postfix.flush()
            equal(postfix.fate("anna@mx.example", 2), ("sent", stored("anna")))
            equal(sum(word == "sent" for word, _ in postfix.fates("anna@mx.example")), 1)
            said = server.mailbox("anna").read_bytes()
            # nothing of it was written before
            equal((said.startswith(b"From carl@a.example "), said.count(b"Subject: late\n")), (True, 1))
            equal(said.endswith(LONG.replace(b"\r\n", b"\n") + b"\n"), True)


@contextlib.contextmanager
def small_disk(path):
    """A file system of 64 KiB in memory."""
    need_root()
    path.mkdir()
    if subprocess.run(["mount", "-t", "tmpfs", "-o", "size=64k", "none", path], stderr=subprocess.DEVNULL).returncode:
        raise Absent("no file system can be mounted")
    try:
        yield path
    finally:
        subprocess.run(["umount", "-l", path])

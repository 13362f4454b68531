"""OpenSMTPD delivers to `lmtpd serve`. Its package can't stand beside Postfix's, so its files are only unpacked, and
what it needs at a fixed place is there as long as the case runs."""

import contextlib
import pathlib
import shutil
import smtplib
import subprocess
import time

from cases import Absent, case, equal
from exim_delivers import user
from mail import equal_mailbox, message
from packages import install, unpacked, need_root
from replies import NO_SUCH_BOX
from server import Server
from started import free_port

CONFIGURATION = """
listen on 127.0.0.1 port {port} hostname relay.example
table boxes {{ "@mx.example" = nobody }}
action "lmtp" lmtp "{text}" rcpt-to virtual <boxes>
match from any for domain "mx.example" action "lmtp"
"""
HELPERS = pathlib.Path("/usr/libexec/opensmtpd")
HOME = pathlib.Path("/var/lib/opensmtpd")
SPOOL = pathlib.Path("/var/spool/smtpd")  # which it makes itself


@case
def opensmtpd_delivers(folder):
    """OpenSMTPD by action lmtp: 250 for one recipient, 550 for another, in its log too; the letter byte for byte"""
    with opensmtpd(folder) as files, Server(folder, ["anna"], 100) as server:
        opensmtpd_sends(folder, files, server, server.text)


@case
def opensmtpd_delivers_over_a_unix_socket(folder):
    """OpenSMTPD by action lmtp and a path, over a Unix socket of the user that it delivers as: 250 for one recipient,
    550 for another, in its log too; the letter byte for byte"""
    path = folder / "sock"
    with opensmtpd(folder) as files:
        with Server(folder, ["anna"], 100, "--socket-mode", 600, listen=f"unix:{path}") as server:
            folder.chmod(0o755)
            shutil.chown(path, "nobody")
            opensmtpd_sends(folder, files, server, path)


@contextlib.contextmanager
def opensmtpd(folder):
    """Its files, with its users and what it needs at fixed places."""
    need_root()
    install("libevent-2.1-7")
    files = unpacked("opensmtpd", folder / "opensmtpd")
    with user("opensmtpd"), user("opensmtpq"), places(files):
        yield files


def opensmtpd_sends(folder, files, server, where):
    recipients = ["anna@mx.example", "nobody@mx.example"]
    with sending(folder, files, where, recipients, message("one")) as log:
        equal(" result=Ok " in tried(log, "anna"), True)
        equal(NO_SUCH_BOX in tried(log, "nobody"), True)
        equal_mailbox(server.mailbox("anna"), ["one"])


@contextlib.contextmanager
def sending(folder, files, where, recipients, text):
    """It runs, and was sent a letter; the file of its log."""
    port = free_port()
    conf = folder / "smtpd.conf"
    conf.write_text(CONFIGURATION.format(port=port, text=where))
    log = folder / "smtpd.log"
    with log.open("wb") as file:
        smtpd = subprocess.Popen([files / "usr/sbin/smtpd", "-d", "-f", conf], stdout=file, stderr=file)
    try:
        send(port, log, recipients, text)
        yield log
    finally:
        smtpd.terminate()
        smtpd.wait(timeout=20)


def send(port, log, recipients, text):
    until = time.monotonic() + 20
    while True:
        try:
            with smtplib.SMTP("127.0.0.1", port, local_hostname="client.example", timeout=20) as client:
                client.sendmail("carl@a.example", recipients, text)
            return
        except ConnectionRefusedError:
            said = log.read_text()
            if "error while loading shared libraries" in said:
                raise Absent(said.strip()) from None
            if time.monotonic() > until:
                raise RuntimeError(said[-800:]) from None
            time.sleep(0.1)


def tried(log, name):
    """Its line on the first try at that recipient, once there is one."""
    until = time.monotonic() + 20
    while time.monotonic() < until:
        for line in log.read_text().splitlines():
            if f"to=<{name}@mx.example>" in line and " result=" in line:
                return line
        time.sleep(0.1)
    raise RuntimeError(log.read_text()[-800:])


@contextlib.contextmanager
def places(files):
    """The folders that it needs, with the program that it delivers by."""
    new = [path for path in [HELPERS, HOME, SPOOL] if not path.exists()]
    try:
        for path in [HELPERS, HOME / "empty"]:
            path.mkdir(parents=True, exist_ok=True)
        shutil.copy(files / "usr/libexec/opensmtpd/mail.lmtp", HELPERS)
        yield
    finally:
        for path in new:
            shutil.rmtree(path, ignore_errors=True)

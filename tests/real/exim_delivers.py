"""Exim delivers to `lmtpd serve`. Its package can't stand beside Postfix's, so its files are only unpacked."""

import contextlib
import re
import shutil
import subprocess

from cases import Absent, case, equal
from mail import equal_mailbox, message
from packages import install, unpacked, need_root
from replies import NO_SUCH_BOX, stored
from server import Server

CONFIGURATION = """
primary_hostname = relay.example
exim_path = {exim}
spool_directory = {folder}/spool
log_file_path = {folder}/%slog
exim_user = Debian-exim
exim_group = Debian-exim
keep_environment =
domainlist local_domains =
{delivery}
begin retry
* * F,2h,1m
"""
STORED = rf"=> (anna <)?anna@mx\.example>? .*{stored('anna')}"
OVER_TCP = """
begin routers
all:
  driver = manualroute
  domains = mx.example
  route_list = * 127.0.0.1
  self = send
  transport = lmtp
begin transports
lmtp:
  driver = smtp
  protocol = lmtp
  port = {where}
  hosts_override
  hosts_try_fastopen =
"""
# As docs/OPERATING.md has it, but for the path.
OVER_A_UNIX_SOCKET = """
begin routers
lmtpd:
  driver = accept
  domains = mx.example
  transport = lmtpd
begin transports
lmtpd:
  driver = lmtp
  socket = {where}
  batch_max = 100
  user = Debian-exim
"""


@case
def exim_delivers(folder):
    """Exim by protocol = lmtp: 250 for one recipient, 550 for another, in its log too; the letter byte for byte"""
    with exim(folder) as program, Server(folder, ["anna"], 100) as server:
        exim_sends(folder, program, server, OVER_TCP.format(where=server.address[1]))


@case
def exim_delivers_over_a_unix_socket(folder):
    """Exim by driver = lmtp, over a Unix socket of its user: 250 for one recipient, 550 for another, in its log too;
    the letter byte for byte"""
    path = folder / "sock"
    with exim(folder) as program:
        with Server(folder, ["anna"], 100, "--socket-mode", 600, listen=f"unix:{path}") as server:
            shutil.chown(path, "Debian-exim")
            exim_sends(folder, program, server, OVER_A_UNIX_SOCKET.format(where=path))


@contextlib.contextmanager
def exim(folder):
    """The program, and the user that it runs as."""
    need_root()
    install("libidn12")  # the library of its that nothing else may have brought
    found = next(unpacked("exim4-daemon-light", folder / "exim").glob("usr/sbin/exim*"), None)
    if found is None:
        raise Absent("the package has no exim")
    with user("Debian-exim"):
        yield found


def exim_sends(folder, program, server, delivery):
    (folder / "spool").mkdir()
    folder.chmod(0o777)
    shutil.chown(folder / "spool", "Debian-exim", "Debian-exim")
    conf = folder / "exim.conf"
    conf.write_text(CONFIGURATION.format(folder=folder, exim=program, delivery=delivery))
    words = [program, "-C", conf, "-odi", "-oi", "-f", "carl@a.example", "anna@mx.example", "nobody@mx.example"]
    said = subprocess.run(words, input=message("one"), capture_output=True, timeout=30)
    log = folder / "mainlog"
    text = log.read_text() if log.exists() else f"{said.returncode} {said.stderr.decode()}"
    if "error while loading shared libraries" in text:
        raise Absent(text.strip())
    equal((bool(re.search(STORED, text)), text), (True, text))
    equal(("** nobody@mx.example" in text and NO_SUCH_BOX in text, text), (True, text))
    equal_mailbox(server.mailbox("anna"), ["one"])


@contextlib.contextmanager
def user(name):
    """A user of that name, which the program needs to find."""
    is_new = subprocess.run(["id", name], capture_output=True).returncode != 0
    if is_new and subprocess.run(["useradd", "--system", "--user-group", name], capture_output=True).returncode:
        raise Absent(f"no user {name} can be made")
    try:
        yield
    finally:
        if is_new:
            subprocess.run(["userdel", name], capture_output=True)

"""A Dovecot of its own, in a folder, whose inbox is one file in the mbox form: IMAP and LMTP on ports of loopback."""

import imaplib
import os
import pathlib
import shutil
import smtplib
import subprocess

from cases import Absent
from packages import install, program, need_root
from started import Started, free_port, wait_for_port

NEEDS = [("dovecot", "dovecot-core"), ("imap", "dovecot-imapd"), ("lmtp", "dovecot-lmtpd")]
CONFIGURATION = """
base_dir = {folder}/run
state_dir = {folder}/state
log_path = {folder}/log
protocols = imap lmtp
listen = 127.0.0.1
ssl = no
disable_plaintext_auth = no
hostname = mx.example
postmaster_address = postmaster@mx.example
mail_location = mbox:{folder}/home:INBOX={path}
mbox_read_locks = fcntl
mbox_write_locks = fcntl
first_valid_uid = 0
first_valid_gid = 0
auth_username_format = %Ln
service imap-login {{
  inet_listener imap {{
    address = 127.0.0.1
    port = {imap}
  }}
  inet_listener imaps {{
    port = 0
  }}
}}
service lmtp {{
  inet_listener lmtp {{
    address = 127.0.0.1
    port = {lmtp}
  }}
}}
service stats {{
  unix_listener stats-writer {{
    mode = 0666
  }}
}}
passdb {{
  driver = static
  args = password=x
}}
userdb {{
  driver = static
  args = uid={user} gid={user} home={folder}/home allow_all_users=yes
}}
namespace inbox {{
  inbox = yes
}}
{more}
"""


class Dovecot(Started):
    """It runs as the user mail, or another, to whom it gives the file where there is one."""

    def __init__(self, folder, path, *more, user="mail"):
        need_root()
        for name in ["imapd", "lmtpd"]:
            need(name)
        self.command = program("dovecot", "dovecot-core")
        self.folder = pathlib.Path(folder) / "dovecot"
        home = self.folder / "home"
        home.mkdir(parents=True)
        for place in [self.folder.parent, self.folder]:
            place.chmod(0o755)
        for place in [home, path]:
            if place.exists():
                shutil.chown(place, user, user)
        self.imap, self.lmtp = free_port(), free_port()
        self.conf = self.folder / "dovecot.conf"
        places = {"folder": self.folder, "path": path, "imap": self.imap, "lmtp": self.lmtp}
        self.conf.write_text(CONFIGURATION.format(**places, user=user, more="\n".join(more)))

    def start(self):
        words = [self.command, "-F", "-c", self.conf]
        self.process = subprocess.Popen(words, stdin=subprocess.DEVNULL, stderr=subprocess.DEVNULL)

    def wait(self):
        for port in [self.imap, self.lmtp]:
            wait_for_port(port, 15, self.log)

    def end(self):
        self.process.terminate()
        self.process.wait(10)

    def log(self):
        path = self.folder / "log"
        return path.read_text() if path.exists() else ""

    def login(self):
        client = imaplib.IMAP4("127.0.0.1", self.imap)
        client.login("anna", "x")
        return client

    def deliver(self, message, sender="carl@a.example"):
        with smtplib.LMTP("127.0.0.1", self.lmtp, local_hostname="relay.example", timeout=20) as client:
            client.sendmail(sender, ["anna@mx.example"], message, mail_options=["BODY=8BITMIME"])


def need(name):
    """That part of Dovecot, which has a program of the same name without the d."""
    path = f"/usr/lib/dovecot/{name.removesuffix('d')}"
    if not os.path.exists(path):
        install(f"dovecot-{name}")
    if not os.path.exists(path):
        raise Absent(f"{path} isn't installed (package dovecot-{name})")

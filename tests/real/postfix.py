"""A Postfix of its own, in a folder, which takes mail on a port of loopback and delivers it by LMTP."""

import pathlib
import re
import smtplib
import subprocess
import time

from packages import program, need_root
from started import Started, free_port, wait_for_port

MAIN = """
compatibility_level = 3.6
queue_directory = {folder}/queue
data_directory = {folder}/data
maillog_file = {folder}/log
maillog_file_prefixes = {folder}
inet_interfaces = 127.0.0.1
inet_protocols = ipv4
myhostname = relay.example
mynetworks = 127.0.0.0/8
mydestination =
virtual_mailbox_domains = mx.example
virtual_mailbox_maps = static:all
lmtp_destination_concurrency_limit = 4
message_size_limit = 1000000
default_transport = discard
alias_maps =
alias_database =
minimal_backoff_time = 1000s
{more}
"""

MASTER = """
127.0.0.1:{port} inet n - n - - smtpd
pickup unix n - n 60 1 pickup
cleanup unix n - n - 0 cleanup
qmgr unix n - n 300 1 qmgr
rewrite unix - - n - - trivial-rewrite
bounce unix - - n - 0 bounce
defer unix - - n - 0 bounce
trace unix - - n - 0 bounce
verify unix - - n - 1 verify
flush unix n - n 1000? 0 flush
proxymap unix - - n - - proxymap
error unix - - n - - error
retry unix - - n - - error
discard unix - - n - - discard
lmtp unix - - n - - lmtp
local unix - n n - - local
virtual unix - n n - - virtual
anvil unix - - n - 1 anvil
scache unix - - n - 1 scache
tlsmgr unix - - n 1000? 1 tlsmgr
showq unix n - n - - showq
postlog unix-dgram n - n - 1 postlogd
"""


class Postfix(Started):
    def __init__(self, folder, *more):
        need_root()
        self.command = program("postfix", "postfix")
        self.folder = pathlib.Path(folder) / "postfix"
        self.port = free_port()
        for name in ["conf", "queue", "data"]:
            (self.folder / name).mkdir(parents=True)
        for path in [self.folder.parent, self.folder]:
            path.chmod(0o755)
        subprocess.run(["chown", "postfix", self.folder / "data"], check=True)
        conf = self.folder / "conf"
        (conf / "main.cf").write_text(MAIN.format(folder=self.folder, more="\n".join(more)))
        (conf / "master.cf").write_text(MASTER.format(port=self.port))

    def start(self):
        self.control("start")

    def wait(self):
        wait_for_port(self.port, 20, self.log)

    def end(self):
        self.control("abort")

    def control(self, verb):
        quiet = {"stdout": subprocess.DEVNULL, "stderr": subprocess.DEVNULL}
        subprocess.run([self.command, "-c", self.folder / "conf", verb], timeout=30, **quiet)

    def send(self, recipients, message, sender="carl@a.example"):
        with smtplib.SMTP("127.0.0.1", self.port, local_hostname="client.example", timeout=20) as client:
            client.sendmail(sender, recipients, message, mail_options=["BODY=8BITMIME"])

    def flush(self):
        """Has it try all that is in its queue."""
        subprocess.run([program("postqueue", "postfix"), "-c", self.folder / "conf", "-f"], check=True, timeout=30)

    def log(self):
        path = self.folder / "log"
        return path.read_text() if path.exists() else ""

    def fates(self, recipient):
        """For each try at that recipient the word of its status and the text after it, in their order."""
        found = re.findall(rf"to=<{re.escape(recipient)}>.* status=(\w+) \((.*)\)", self.log())
        return [(word, text) for word, text in found]

    def fate(self, recipient, count=1):
        """The last of these, once there are that many."""
        until = time.monotonic() + 30
        while time.monotonic() < until:
            found = self.fates(recipient)
            if len(found) >= count:
                return found[count - 1]
            time.sleep(0.1)
        raise RuntimeError(f"{len(self.fates(recipient))} of {count} tries: {self.log()[-800:]}")

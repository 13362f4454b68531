"""The servers that bench/serve.sh compares: each is started with an empty store, and ended again."""

import os
import pathlib
import shutil
import signal
import socket
import subprocess
import time

# The folders in which Debian has the servers, which an ordinary user's PATH lacks.
SEARCHED = os.environ.get("PATH", "") + ":/usr/sbin:/usr/lib/postfix/sbin"

# They are programs of ours, which choose a port themselves.
OF_OURS = ("ours", "quota", "logged", "renamed", "refusing", "before", "before-logged")

DOVECOT = """
base_dir = {folder}/run
state_dir = {folder}/state
log_path = {folder}/log
protocols = lmtp
listen = 127.0.0.1
ssl = no
hostname = mx.example
postmaster_address = postmaster@mx.example
mail_location = mbox:~/mail:INBOX=~/inbox.mbox
mail_fsync = optimized
mbox_read_locks = fcntl
mbox_write_locks = fcntl
first_valid_uid = 1
auth_username_format = %Ln
{environment}
passdb {{
  driver = static
  args = nopassword=y
}}
userdb {{
  driver = static
  args = uid=mail gid=mail home={store}/%Ln allow_all_users=yes
}}
namespace inbox {{
  inbox = yes
}}
service lmtp {{
  process_min_avail = 4
  process_limit = 64
  client_limit = 1
  service_count = 0
  inet_listener lmtp {{
    address = 127.0.0.1
    port = {port}
  }}
}}
service stats {{
  unix_listener stats-writer {{
    mode = 0666
  }}
}}
"""


def absent(name):
    """Why that peer can't run here, or None."""
    if name == "dovecot" and os.geteuid() != 0:
        return "it needs root"
    if name == "dovecot" and not pathlib.Path("/usr/lib/dovecot/lmtp").exists():
        return "dovecot-lmtpd isn't installed"
    if name == "smtp-sink" and shutil.which("smtp-sink", path=SEARCHED) is None:
        return "postfix isn't installed"
    if name.startswith("before") and "LMTPD_BEFORE" not in os.environ:
        return "LMTPD_BEFORE names no program"
    return None


class Server:
    """A server that listens on `address`, with `store` for its mailboxes, from its start to `end`."""

    def __init__(self, name, folder, preload):
        self.store = folder / "store"
        self.store.mkdir(parents=True)
        self.log = folder / "output"
        self.port = 0 if name in OF_OURS else free_port()
        words_of = {
            "ours": self.ours,
            "quota": self.quota,
            "logged": self.logged,
            "renamed": self.renamed,
            "refusing": self.refusing,
            "before": self.before,
            "before-logged": self.before_logged,
            "plain": self.plain,
            "smtp-sink": self.smtp_sink,
            "dovecot": self.dovecot,
        }
        environment = dict(os.environ)
        if preload and name != "dovecot":
            environment["LD_PRELOAD"] = preload
        self.process = subprocess.Popen(
            words_of[name](folder, preload),
            stdout=self.log.open("wb"),
            stderr=subprocess.STDOUT,
            stdin=subprocess.DEVNULL,
            start_new_session=True,
            env=environment,
        )
        try:
            self.wait()
        except BaseException:
            self.end()
            raise

    @property
    def address(self):
        return f"127.0.0.1:{self.port}"

    def ours(self, _folder, _preload):
        boxes = [f"u{number}" for number in range(40)]
        words = ["--host", "mx.example", "--listen", "127.0.0.1:0", "--dir", str(self.store)]
        return [os.environ["LMTPD"], "serve", *words, "--connections", "1000000", *boxes]

    def before(self, folder, preload):
        return [os.environ["LMTPD_BEFORE"], *self.ours(folder, preload)[1:]]

    def before_logged(self, folder, preload):
        return [*self.before(folder, preload), "--log", "info"]

    def quota(self, folder, preload):
        return [*self.ours(folder, preload), "--quota", str(2**64 - 1)]

    def logged(self, folder, preload):
        return [*self.ours(folder, preload), "--log", "info"]

    def renamed(self, folder, preload):
        return [*self.ours(folder, preload), "--rename-marks"]

    def refusing(self, folder, preload):
        return [*self.ours(folder, preload), "--refuse-malformed"]

    def plain(self, folder, _preload):
        return [str(folder.parent / "plain"), str(self.store), self.address]

    def smtp_sink(self, _folder, _preload):
        user = ["-u", "nobody"] if os.geteuid() == 0 else []
        return [shutil.which("smtp-sink", path=SEARCHED), *user, "-L", self.address, "128"]

    def dovecot(self, folder, preload):
        environment = f"import_environment = LD_PRELOAD={preload}" if preload else ""
        shutil.chown(self.store, "mail", "mail")
        text = DOVECOT.format(folder=folder, store=self.store, port=self.port, environment=environment)
        (folder / "conf").write_text(text)
        return ["/usr/sbin/dovecot", "-F", "-c", str(folder / "conf")]

    def wait(self):
        """Until it listens, ten seconds at most."""
        until = time.monotonic() + 10
        while time.monotonic() < until and self.process.poll() is None:
            if self.port == 0:
                said = self.log.read_text()
                if said.startswith("listening on ") and said.endswith("\n"):
                    self.port = int(said.rsplit(":", 1)[1])
            else:
                with socket.socket() as probe:
                    if probe.connect_ex(("127.0.0.1", self.port)) == 0:
                        return
            time.sleep(0.02)
        raise RuntimeError(f"{self.process.args[0]} doesn't listen: {self.log.read_text()[-500:]}")

    def end(self):
        """Ends the process, and what it has started and left behind."""
        if self.process.poll() is None:
            self.process.terminate()
            try:
                self.process.wait(10)
            except subprocess.TimeoutExpired:
                pass
        try:
            os.killpg(self.process.pid, signal.SIGKILL)
        except ProcessLookupError:
            pass
        self.process.wait(10)


def free_port():
    with socket.socket() as probe:
        probe.bind(("127.0.0.1", 0))
        return probe.getsockname()[1]

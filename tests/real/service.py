"""The service of the package as it is installed, for a case that runs in its machine (in_a_machine.py).

Its socket is Postfix's, its mailboxes are those of /var/mail/lmtpd, which are the user lmtpd's; its words stand in
/etc/lmtpd.conf, and no unit is changed.
"""

import pathlib
import re
import subprocess
import time

from cases import equal
from server import Ended

FOLDER = pathlib.Path("/var/mail/lmtpd")
SOCKETS = pathlib.Path("/var/spool/postfix/private")
CONF = pathlib.Path("/etc/lmtpd.conf")
# Who may read the mailboxes: the server's own user, as whom a user's program runs then.
SERVER_USER = {"user": "lmtpd", "group": "lmtpd", "extra_groups": []}


class Service:
    """One server, from its start to the end of a `with`, which ends it where it still runs; with a name of its own one
    of several."""

    def __init__(self, boxes, *more, name=""):
        """It has these mailboxes, and more words before them."""
        self.unit = f"lmtpd@{name}" if name else "lmtpd"
        self.address = str(SOCKETS / (f"lmtpd-{name}" if name else "lmtpd"))
        if name:
            pathlib.Path("/etc/lmtpd").mkdir(exist_ok=True)
            pathlib.Path(f"/etc/lmtpd/{name}.boxes").write_text("\n".join([*boxes, ""]))
        else:
            self.set("BOXES", *boxes)
            self.set("OPTIONS", *more)

    def set(self, name, *words):
        """That word of the service, from its next start on."""
        line = f"{name}={' '.join(map(str, words))}"
        text, count = re.subn(f"(?m)^{name}=.*$", lambda _: line, CONF.read_text())
        equal((name, count), (name, 1))
        CONF.write_text(text)

    def __enter__(self):
        systemctl("enable", "--now", f"{self.unit}.socket")
        systemctl("start", self.unit)
        return self

    def __exit__(self, *_):
        self.stop()

    def stop(self):
        """In order, and for good."""
        systemctl("stop", f"{self.unit}.socket", self.unit)

    def restart(self, may_fail=False):
        if may_fail:
            subprocess.run(["systemctl", "restart", self.unit], capture_output=True)
        else:
            systemctl("restart", self.unit)

    def kill(self):
        """By SIGKILL, and until it is gone. It begins again in five seconds, as the unit has it, or by
        `begin_again`."""
        self.killed = self.told("MainPID")
        systemctl("kill", "--kill-who=main", "--signal=KILL", self.unit)
        self.wait(lambda: not pathlib.Path("/proc", self.killed).exists())

    def begin_again(self):
        """At once after it was killed: what the unit has wait for five seconds is ended, and how often it began is
        forgotten."""
        systemctl("reset-failed", self.unit)
        self.wait(self.has_begun)

    def has_begun(self):
        state, process = self.told("SubState"), self.told("MainPID")
        if state == "stop-post":
            # it may have ended by itself meanwhile
            subprocess.run(["systemctl", "kill", "--kill-who=control", "--signal=KILL", self.unit], capture_output=True)
        return state == "running" and process != self.killed

    def wait(self, is_so):
        until = time.monotonic() + 30
        while not is_so():
            assert time.monotonic() < until, (self.told("SubState"), self.lines()[-5:])
            time.sleep(0.02)

    def end(self):
        """How its last run ended, once it was stopped in order, and what it said at its end."""
        self.stop()
        lines = self.lines()
        begun = max((place for place, line in enumerate(lines) if line.startswith("listening on ")), default=0)
        said = [line for line in lines[begun:] if re.fullmatch(r"\S+ stored \d+", line)]
        errors = [line for line in lines[begun:] if line.startswith("lmtpd: ")]
        return Ended(int(self.told("ExecMainStatus")), said, errors)

    def lines(self, priority="debug"):
        """What all its runs said, in the journal, at that priority or a graver one."""
        subprocess.run(["journalctl", "--sync"], check=True)
        words = ["journalctl", "-u", self.unit, "-p", priority, "-o", "cat", "--no-pager"]
        return subprocess.run(words, check=True, capture_output=True).stdout.decode(errors="replace").splitlines()

    def told(self, name):
        """What systemd says of it by that name."""
        words = ["systemctl", "show", "--property", name, "--value", self.unit]
        return subprocess.run(words, check=True, capture_output=True, text=True).stdout.strip()

    def restarts(self):
        """How often it began again by itself."""
        return int(self.told("NRestarts"))

    def mailbox(self, name):
        return FOLDER / f"{name}.mbox"

    def lock_file(self, name):
        return FOLDER / f"{name}.mbox.lock"


def systemctl(*words):
    said = subprocess.run(["systemctl", *words], stdout=subprocess.PIPE, stderr=subprocess.STDOUT, text=True)
    if said.returncode:
        last = ["journalctl", "-n", "30", "-o", "cat", "--no-pager"]
        told = subprocess.run(last, stdout=subprocess.PIPE, text=True, errors="replace", check=False).stdout
        raise AssertionError((words, said.returncode, said.stdout, told))

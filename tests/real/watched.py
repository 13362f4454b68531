"""What docs/operating/TROUBLE.md has an administrator watch, typed as it stands, of a service that is in order and of
one that isn't."""

import contextlib
import re
import subprocess
import time

from cases import case, equal
from clients import Client, deliver_one
from in_a_machine import in_a_machine
from pages import PAGES, lines_of, type_lines
from replies import GREETING, not_stored, stored
from service import FOLDER, Service, systemctl

HEADING = "## What to watch"
LANES = 4


@case
@in_a_machine()
def what_to_watch(_folder):
    """what docs/operating/TROUBLE.md has one watch, typed as it stands: of a service in order, one whose lanes are
    held, a mailbox in use, and one with a word that is wrong"""
    type_lines(lines_of("TROUBLE.md", HEADING))
    with Service(["anna"], "--lock-wait", 0) as service:
        equal(deliver_one(service.address, ["anna"], "hello"), [stored("anna")])
        equal(said_by("it answers"), (0, f"{GREETING}\n"))
        equal([said_by(what)[1] for what in ["it begins", "mailboxes, disk, starts"]], ["", ""])
        equal(said_by("lanes")[1].split()[2], "0")
        equal(said_by("letters that wait"), (0, "0\n"))
        assert re.fullmatch(r"Use%\n +\d+%\n", said_by("room")[1]), said_by("room")
        with contextlib.ExitStack() as clients:
            for _ in range(LANES):
                clients.enter_context(Client(service.address)).greet()
            since = time.monotonic()
            assert said_by("it answers")[0] != 0
            equal(9 < time.monotonic() - since < 20, True)
            with Client(service.address):
                # the probe's own connection went, and waits to be closed by a lane
                equal(said_by("lanes")[1].split()[2], "2")
        equal(said_by("it answers"), (0, f"{GREETING}\n"))
        service.lock_file("anna").touch()
        equal(deliver_one(service.address, ["anna"], "hello"), [not_stored("anna")])
        service.lock_file("anna").unlink()
        assert " mailbox in use mailbox=anna " in said_by("mailboxes, disk, starts")[1]
        service.set("HOST", "a_b")
        service.restart(may_fail=True)
        equal(said_by("it begins")[1].split()[0], "lmtpd.service")
        assert "lmtpd: bad host\n" in said_by("mailboxes, disk, starts")[1]
        systemctl("stop", "lmtpd.socket")
        assert said_by("it answers")[0] != 0


what_to_watch.seconds = 180


def said_by(what):
    """Status and output of that row's command, once the journal has all lines."""
    subprocess.run(["journalctl", "--sync"], check=True)
    text = (PAGES / "TROUBLE.md").read_text().split(f"\n{HEADING}\n")[1]
    [command] = re.findall(rf"^\| {what} \| `(.*?)`", text, re.MULTILINE)
    said = subprocess.run(command.replace(r"\|", "|"), shell=True, capture_output=True, text=True, cwd=FOLDER)
    return said.returncode, said.stdout.replace("-- No entries --\n", "")

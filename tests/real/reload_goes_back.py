"""A reload of the service as it is installed whose words are in order and whose start comes to nothing: the server goes
on with the words and the mailboxes of before, and the journal says so."""

import pathlib
import subprocess

from cases import case, equal
from in_a_machine import in_a_machine
from reload_names import BOXES, WORDS, Knocking, to
from replies import NO_SUCH_BOX, stored
from service import CONF, Service, systemctl

# What no check can look at: how many threads the service gets. A hundred mailboxes have more.
FEW_THREADS = "[Service]\nLimitNPROC=30\n"
MANY = "".join(f"box{number}\n" for number in range(100))
GOES_BACK = "the server can't begin with the new words, and goes on with those before status=1"
MARK = pathlib.Path("/run/lmtpd/served/mark")
SIZES = [
    ("--lanes 100", "--lanes has=100 least=1 most=64"),
    ("--blocks 100000", "--blocks has=100000 least=1 most=65536"),
    ("--capacity 5000", "--capacity has=5000 least=1 most=1024"),
]

FOLDERS = {
    "/var/mail/none": "No such file or directory (os error 2)",
    "/etc/lmtpd.boxes": "Not a directory (os error 20)",
    "/var/mail/closed": "Permission denied (os error 13)",
}


@case
@in_a_machine()
def a_start_that_no_check_foresees(_folder):
    """systemctl reload where the new server gets no thread: the old words and names go on, nobody is refused meanwhile,
    the journal has it at err, and a restart, which has nothing to go back to, fails; with the list mended all is well"""
    with limited(Service([])) as service:
        process = service.told("MainPID")
        BOXES.write_text("anna\n" + MANY)
        knocking = Knocking(service.address)
        before = len(service.lines("err"))
        systemctl("reload", service.unit)
        service.wait(lambda: service.told("ActiveState") == "active" and service.told("MainPID") not in ["0", process])
        equal([to(service, name) for name in ["anna", "ben", "box1"]], [stored("anna"), stored("ben"), NO_SUCH_BOX])
        knocking.end()
        found = service.lines("err")[before:]
        equal((found, MARK.exists()), (["lmtpd: no thread", GOES_BACK], False))
        # it stops in order, as any other one
        service.stop()
        equal(service.told("ExecMainStatus"), "0")
        systemctl("start", "lmtpd.socket")
        said = subprocess.run(["systemctl", "start", service.unit], capture_output=True)
        equal((said.returncode, service.lines("err").count(GOES_BACK)), (1, 1))
        BOXES.write_text("anna\nnew\n")
        systemctl("reset-failed", service.unit)
        systemctl("restart", service.unit)
        equal([to(service, name) for name in ["anna", "new"]], [stored("anna"), stored("new")])
        systemctl("reload", service.unit)
        service.wait(lambda: not MARK.exists())
        equal([to(service, name) for name in ["anna", "new"]], [stored("anna"), stored("new")])


@case
@in_a_machine()
def what_a_check_foresees(_folder):
    """systemctl reload with a size out of its limits, or a folder that is away, a file or closed to the server: it
    fails, the journal has the word with its limits or the folder and why, and nothing is stopped"""
    with Service(["anna"]) as service:
        process = service.told("MainPID")
        for options, told in SIZES:
            service.set("OPTIONS", options)
            refused(service, process, [f"[ERROR lmtpd] a size is out of its limits word={told}", "lmtpd: size"])
        service.set("OPTIONS")
        pathlib.Path("/var/mail/closed").mkdir(mode=0o700)
        for place, why in FOLDERS.items():
            service.set("FOLDER", place)
            lines = [f"[ERROR lmtpd] cannot open mailbox=anna reason={why}"]
            lines += [f"[ERROR lmtpd] cannot read the folder folder={place} reason={why}"]
            refused(service, process, [*lines, "lmtpd: cannot open anna.mbox"])
        equal(list(pathlib.Path("/var/mail/closed").iterdir()), [])


for one in [a_start_that_no_check_foresees, what_a_check_foresees]:
    one.seconds = 240


def limited(service):
    """With few threads, and the mailboxes of the list."""
    CONF.write_text(WORDS)
    BOXES.write_text("anna\nben\n")
    place = pathlib.Path("/etc/systemd/system/lmtpd.service.d")
    place.mkdir(parents=True)
    (place / "threads.conf").write_text(FEW_THREADS)
    systemctl("daemon-reload")
    return service


def refused(service, process, lines):
    before = len(service.lines("err"))
    said = subprocess.run(["systemctl", "reload", service.unit], capture_output=True)
    equal((lines, said.returncode, service.told("MainPID")), (lines, 1, process))
    equal(service.lines("err")[before:][: len(lines)], lines)
    equal(to(service, "anna"), stored("anna"))

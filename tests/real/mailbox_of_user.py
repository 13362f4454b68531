"""A mailbox that is its reader's, whose group is the server's, as docs/operating/MAILBOXES.md sets it up."""

import os
import subprocess

from beside import Beside
from cases import case, equal
from clients import deliver_one
from in_a_machine import in_a_machine
from packages import need_root
from pages import lines_of, type_lines
from readers_delete import FORMAIL, MAILX, MUTT, ByFormail, ByMailx, ByMutt, ByPython
from replies import stored
from server import Server, run
from service import FOLDER

ANNA = {"user": "anna", "group": "anna", "extra_groups": []}
ANOTHER = 61_001
SECONDS = 45  # so that it rests twice meanwhile


class BesideAnna(Beside):
    """She is a user of the machine, and the service is set up by the page's lines."""

    def __init__(self, folder):
        type_lines("useradd --create-home --shell /bin/bash anna")
        super().__init__(folder, how=ANNA)

    def service(self, lanes):
        made = super().service(lanes)
        type_lines(lines_of("MAILBOXES.md", "### Users' own programs on their own files"))
        return made

    def judge_hers(self, ended):
        """Owner, group and mode stay; a shell of hers knows where the mailbox is."""
        self.judge(ended)
        said = subprocess.run(["stat", "-c", "%U %G %a", self.path], check=True, capture_output=True, text=True)
        equal(said.stdout, "anna mail 660\n")
        words = ["su", "-", "anna", "-c", "echo $MAIL"]
        equal(subprocess.run(words, check=True, capture_output=True, text=True).stdout, f"{FOLDER}/anna.mbox\n")


@case
@in_a_machine(*MUTT)
def hers_with_mutt(folder):
    """a mailbox of mode 0660 that is anna's and of group mail, by the typed lines: the service delivers, and mutt as
    anna reads and deletes; owner and mode stay, and MAIL names it"""
    beside = BesideAnna(folder)
    beside.judge_hers(beside.run({"mutt": ByMutt(beside)}, seconds=SECONDS))


@case
@in_a_machine(*MAILX)
def hers_with_mailx(folder):
    """a mailbox of mode 0660 that is anna's and of group mail, by the typed lines: the service delivers, and mail
    (bsd-mailx) as anna saves and deletes; owner and mode stay"""
    beside = BesideAnna(folder)
    beside.judge_hers(beside.run({"mailx": ByMailx(beside)}, seconds=SECONDS))


@case
@in_a_machine(*MAILX)
def mailx_with_a_path(folder):
    """mail -f (bsd-mailx) deletes from a mailbox whose lock file another process has: it takes no lock"""
    with BesideAnna(folder).service(1) as service:
        for number in range(2):
            equal(deliver_one(service.address, ["anna"], f"Subject: {number}", "", "hello"), [stored("anna")])
        service.lock_file("anna").write_text(str(os.getpid()))
        words = ["su", "anna", "-c", f"bsd-mailx -n -N -f {service.mailbox('anna')}"]
        subprocess.run(words, input=b"delete 1\nquit\n", check=True, timeout=20, capture_output=True)
        equal(run(["check", service.mailbox("anna")]).said, [f"{service.mailbox('anna')} letters 1"])
        service.lock_file("anna").unlink()


@case
@in_a_machine(*FORMAIL)
def hers_with_lockfile(folder):
    """a mailbox of mode 0660 that is anna's and of group mail, by the typed lines: the service delivers, and two
    scripts as anna with lockfile and formail cut letters and write the rest in place; owner and mode stay"""
    beside = BesideAnna(folder)
    beside.judge_hers(beside.run({who: ByFormail(beside, who) for who in ["one", "two"]}, seconds=SECONDS))


@case
@in_a_machine()
def hers_with_python(folder):
    """a mailbox of mode 0660 that is anna's and of group mail, by the typed lines: the service delivers, and two
    scripts as anna lock, remove and flush by Python's mailbox, which renames; owner and mode stay"""
    beside = BesideAnna(folder)
    beside.judge_hers(beside.run({who: ByPython(beside) for who in ["one", "two"]}, seconds=SECONDS))


@case
@in_a_machine()
def a_lock_that_she_left(folder):
    """a lock file that a program of anna's left more than five minutes ago, by the typed lines: the service removes it,
    though it is hers, and delivers"""
    with BesideAnna(folder).service(1) as service:
        lock = service.lock_file("anna")
        subprocess.run(["su", "anna", "-c", f"touch -d '400 seconds ago' {lock}"], check=True)
        equal(lock.owner(), "anna")
        equal(deliver_one(service.address, ["anna"], "hello"), [stored("anna")])
        equal(lock.exists(), False)


for one in [
    hers_with_mutt,
    hers_with_mailx,
    mailx_with_a_path,
    hers_with_lockfile,
    hers_with_python,
    a_lock_that_she_left,
]:
    one.seconds = SECONDS + 180


@case
def another_users_when_root(folder):
    """a server that runs as root refuses a mailbox that is another user's: cannot open, status 1"""
    need_root()
    path = folder / "anna.mbox"
    path.touch()
    os.chown(path, ANOTHER, ANOTHER)
    with Server(folder, ["anna"], 1) as server:
        expected = {"status": 1, "said": [], "errors": ["lmtpd: cannot open anna.mbox"]}
        equal((server.first, vars(server.end())), ("", expected))

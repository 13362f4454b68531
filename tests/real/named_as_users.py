"""Mailboxes in Debian's /var/mail, called as their users are, as docs/operating/MAILBOXES.md sets them up: users'
programs without configuration, and Dovecot as Debian has it."""

import imaplib
import pathlib
import subprocess

from all_through_dovecot import CERTIFICATE, subjects
from beside import Beside
from cases import case, equal
from clients import deliver_one
from dovecot import NEEDS
from in_a_machine import in_a_machine
from machine import PATH
from packages import program
from pages import lines_of, type_lines
from readers_delete import MUTT, ByMailx, ByMutt
from replies import stored
from server import run
from service import Service
from started import wait_for_port

FOLDER = pathlib.Path("/var/mail")
MAILBOX = FOLDER / "anna"
HEADING = "### Mailboxes in /var/mail"
ANNA = {"user": "anna", "group": "anna", "extra_groups": []}
PROCMAIL, S_NAIL = [("procmail", "procmail")], [("s-nail", "s-nail")]
# It finds her mailbox by itself; the first letter goes, and the lock file is made by Debian's mutt_dotlock.
BY_MUTT = (
    "mutt -n -F /dev/null -e 'set delete=yes move=no quit=yes' "
    "-e 'push 1<enter><delete-message><sync-mailbox><exit>'"
)
DOVECOT = """
cat > /etc/dovecot/local.conf << 'END'
mail_location = mbox:~/mail:INBOX=/var/mail/%u
ssl = no
disable_plaintext_auth = no
passdb {
  driver = static
  args = password=x
}
END
systemctl restart dovecot
"""
SECONDS = 30


class ServiceOfUsers(Service):
    """The service by the page's lines; anna is a user of the machine."""

    def __init__(self, *more):
        type_lines("useradd --create-home --shell /bin/bash anna")
        super().__init__(["anna"], *more)

    def __enter__(self):
        super().__enter__()
        equal(whose(FOLDER), "root mail 2775")
        type_lines(lines_of("MAILBOXES.md", HEADING))
        return self

    def mailbox(self, name):
        return FOLDER / name

    def lock_file(self, name):
        return FOLDER / f"{name}.lock"

    def deliver(self, *subjects_of_letters):
        for subject in subjects_of_letters:
            lines = [f"Subject: {subject}", "", f"hello {subject}"]
            equal(deliver_one(self.address, ["anna"], *lines), [stored("anna")])

    def stands(self, *expected):
        """These letters stand in the mailbox, in this order; the folder, and owner, group and mode are as they were."""
        found = [line for line in MAILBOX.read_text().splitlines() if line.startswith("Subject: ")]
        equal(found, [f"Subject: {subject}" for subject in expected])
        equal(run(["check", MAILBOX]).said, [f"{MAILBOX} letters {len(expected)}"])
        equal((whose(FOLDER), whose(MAILBOX)), ("root mail 2775", "anna mail 660"))
        equal(self.lock_file("anna").exists(), False)


def whose(path):
    words = ["stat", "-c", "%U %G %a", path]
    return subprocess.run(words, check=True, capture_output=True, text=True).stdout.strip()


def as_anna(line, text=""):
    """As she types it after a login, in a shell that knows of no mailbox."""
    environment = {"PATH": PATH, "HOME": "/home/anna", "USER": "anna", "LOGNAME": "anna", "TERM": "xterm"}
    words = ["sh", "-c", line]
    ends = {"stdout": subprocess.PIPE, "stderr": subprocess.STDOUT, "text": True, "env": environment}
    said = subprocess.run(words, input=text, timeout=60, cwd="/home/anna", **ends, **ANNA)
    equal((line, said.returncode, said.stdout[-300:] if said.returncode else ""), (line, 0, ""))
    return said.stdout


@case
@in_a_machine(*MUTT, *PROCMAIL, *S_NAIL)
def programs_find_it_by_themselves(_folder):
    """a mailbox /var/mail/anna, by the typed lines: the service delivers, mutt and s-nail as anna, without
    configuration, read and delete there, and procmail delivers there; folder, owner and mode stay"""
    for needed in [*MUTT, *PROCMAIL, *S_NAIL]:
        program(*needed)
    with ServiceOfUsers() as service:
        service.deliver("one", "two", "three")
        service.stands("one", "two", "three")
        as_anna(f"script -qec {quoted(BY_MUTT)} /dev/null")
        service.stands("two", "three")
        said = as_anna("s-nail -n -R", "from *\nquit\n")
        equal([subject for subject in ["one", "two", "three"] if subject in said], ["two", "three"])
        as_anna("s-nail -n", "delete 1\nquit\n")
        service.stands("three")
        as_anna("procmail", "From carl@a.example Thu Jan  1 00:00:00 1970\nSubject: four\n\nhello four\n")
        service.stands("three", "four")
        service.deliver("five")
        service.stands("three", "four", "five")
        equal(service.restarts(), 0)


@case
@in_a_machine(*MUTT)
def mutt_deletes_while_letters_come(folder):
    """a mailbox /var/mail/anna, by the typed lines: beside clients that deliver without a pause mutt as anna deletes;
    each letter is there once or was deleted once"""
    beside = BesideUsers(folder)
    beside.judge(beside.run({"mutt": ByMutt(beside)}, seconds=SECONDS))
    equal((whose(FOLDER), whose(MAILBOX)), ("root mail 2775", "anna mail 660"))


@case
@in_a_machine(*S_NAIL)
def s_nail_deletes_while_letters_come(folder):
    """a mailbox /var/mail/anna, by the typed lines: beside clients that deliver without a pause s-nail as anna saves
    and deletes; each letter is there once or was deleted once"""
    beside = BesideUsers(folder)
    beside.judge(beside.run({"snail": BySNail(beside)}, seconds=SECONDS))
    equal((whose(FOLDER), whose(MAILBOX)), ("root mail 2775", "anna mail 660"))


class BySNail(ByMailx):
    def __init__(self, beside):
        self.beside, self.command = beside, program("s-nail", "s-nail")
        self.saved = beside.home / "saved"


class BesideUsers(Beside):
    """She is a user of the machine, whose mailbox has her name."""

    def __init__(self, folder):
        self.made_service = ServiceOfUsers("--lanes", 4, "--timeout", 120)
        super().__init__(folder, how=ANNA)
        self.path = MAILBOX

    def service(self, lanes):
        return self.made_service


@case
@in_a_machine(*NEEDS)
def dovecot_as_debian_has_it(_folder):
    """a mailbox /var/mail/anna, by the typed lines, and Dovecot at INBOX=/var/mail/%u as the system's user: she reads
    and deletes by IMAP what the service delivered, and keeps a letter in ~/mail"""
    with ServiceOfUsers() as service:
        type_lines(CERTIFICATE)
        type_lines(DOVECOT)
        service.deliver("one", "two", "three")
        wait_for_port(143, 20, lambda: "")
        client = imaplib.IMAP4("127.0.0.1", 143)
        client.login("anna", "x")
        equal(subjects(client, "INBOX"), ["one", "two", "three"])
        equal([client.create("Kept")[0], client.copy("2", "Kept")[0]], ["OK", "OK"])
        client.store("1", "+FLAGS.SILENT", r"(\Deleted)")
        equal(client.expunge()[0], "OK")
        equal(client.close()[0], "OK")
        service.deliver("four")
        equal(subjects(client, "INBOX"), ["two", "three", "four"])
        equal(subjects(client, "Kept"), ["two"])
        client.logout()
        service.stands("two", "three", "four")
        equal((pathlib.Path("/home/anna/mail/Kept").owner(), service.restarts()), ("anna", 0))


for one in [
    programs_find_it_by_themselves,
    mutt_deletes_while_letters_come,
    s_nail_deletes_while_letters_come,
    dovecot_as_debian_has_it,
]:
    one.seconds = SECONDS + 180


def quoted(text):
    return "'" + text.replace("'", "'\\''") + "'"

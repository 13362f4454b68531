"""Users delete letters by Dovecot's IMAP, mutt, formail and Python, while four clients deliver without a pause to the
service as it is installed."""

import imaplib
import re
import subprocess
import sys
import threading
import time

from beside import SECONDS, SUBJECT, Beside, reader_of, split, whole_of
from cases import case, equal
from dovecot import NEEDS, Dovecot
from in_a_machine import in_a_machine
from machine import PATH
from mutt import Mutt
from packages import program

MAILX = [("bsd-mailx", "bsd-mailx")]
MUTT, FORMAIL = [("mutt", "mutt")], [("formail", "procmail"), ("lockfile", "procmail")]
LOCKS = ["mbox_read_locks = fcntl", "mbox_write_locks = fcntl dotlock"]  # Debian's
# Of 150 letters, from its reader's first one on, it cuts those of that reader, and writes a new mailbox in its place.
BY_FORMAIL = r"""
cd "$3" || exit 1
lockfile -1 -r 100 "$1.lock" || exit 0
before=$(($(grep "^Subject: " "$1" | grep -n -m 1 "^Subject: for-$2 " | cut -d: -f1) - 1))
if [ "$before" -ge 0 ]; then
    formail -$before -s < "$1" > kept
    formail +$before -150 -s sh -c \
        'cat > one; if grep -q "^Subject: $0 " one; then cat one >> cut; else cat one >> kept; fi' "for-$2" < "$1"
    formail +$((before + 150)) -s < "$1" >> kept
    cat kept > "$1"
fi
rm -f "$1.lock"
"""


def subjects_of(text):
    return [subject.decode() for subject in SUBJECT.findall(text)]


class ByDovecot:
    """A session, which stays until something is wrong with it."""

    def __init__(self, beside, dovecot):
        self.beside, self.dovecot, self.client = beside, dovecot, None

    def __call__(self, who):
        asked = []
        try:
            if self.client is None:
                self.client = self.dovecot.login()
                self.client.sock.settimeout(60)
            self.client.select("INBOX")
            _, [found] = self.client.uid("SEARCH", "SUBJECT", f'"for-{who} "')
            chosen = b",".join(found.split()[:40]).decode()
            if chosen:
                _, parts = self.client.uid("FETCH", chosen, "(BODY.PEEK[HEADER.FIELDS (SUBJECT)])")
                asked = subjects_of(b"\n".join(part[1].replace(b"\r", b"") for part in parts if len(part) == 2))
                self.client.uid("STORE", chosen, "+FLAGS.SILENT", r"(\Deleted)")
                self.client.uid("EXPUNGE", chosen)
        except (imaplib.IMAP4.error, OSError):
            self.client = None
        time.sleep(0.05)
        return self.beside.look(asked) if asked else []


class ByMutt:
    def __init__(self, beside):
        self.beside, self.mutt = beside, Mutt(beside.home, beside.how)

    def __call__(self, who):
        asked = self.asked_for(who, self.mutt.delete(self.beside.path, f'~s "for-{who} "'))
        time.sleep(0.05)
        return self.beside.look(asked) if asked else []

    def asked_for(self, who, saved):
        """The letters that it had deleted, by what it saved of them."""
        return subjects_of(saved)


class ByMuttBesideOthers(ByMutt):
    """mutt where another program rewrites the mailbox too: it reads the letters that it saves from where they stood
    when it opened the mailbox, without a lock, and so saves other text in their place, whoever delivers (2.2.12). It
    may also write a letter twice: with one id of the server's, which is looked at."""

    def asked_for(self, who, saved):
        own = {one for one in whole_of(saved) if reader_of(one) == who and not self.beside.deleted[one]}
        self.beside.misread[who] += len(split(saved)) - len(own)
        return list(own)


class ByMailx:
    """`mail` (bsd-mailx) of a user whose MAIL names the mailbox: what it saves elsewhere it deletes as it leaves."""

    def __init__(self, beside):
        self.beside, self.command = beside, program("bsd-mailx", "bsd-mailx")
        self.saved = beside.home / "saved"

    def __call__(self, who):
        while not self.beside.path.exists():
            time.sleep(0.05)
        environment = {"PATH": PATH, "HOME": str(self.beside.home), "MAIL": str(self.beside.path), "USER": "anna"}
        keys = f"set hold\nsave /for-{who} {self.saved}\nquit\n"
        words = [self.command, "-n", "-N"]
        ends = {"stdout": subprocess.PIPE, "stderr": subprocess.STDOUT, "env": environment}
        subprocess.run(words, input=keys.encode(), timeout=100, **ends, **self.beside.how)
        found = self.saved.read_bytes() if self.saved.exists() else b""
        self.saved.unlink(missing_ok=True)
        time.sleep(0.5)
        asked = [one for one in subjects_of(found) if reader_of(one) == who]
        return self.beside.look(asked) if asked else []


class ByFormail:
    def __init__(self, beside, who):
        for name in ["formail", "lockfile"]:
            program(name, "procmail")
        self.beside, self.place = beside, beside.made(beside.home / who)

    def __call__(self, who):
        words = ["sh", "-c", BY_FORMAIL, "sh", self.beside.path, who, self.place]
        subprocess.run(words, check=True, timeout=300, **self.beside.how)
        cut = self.place / "cut"
        found = cut.read_bytes() if cut.exists() else b""
        cut.unlink(missing_ok=True)
        time.sleep(0.2)
        return subjects_of(found)


@case
@in_a_machine(*NEEDS)
def dovecot_deletes(folder):
    """two sessions of Dovecot's IMAP delete and expunge: each letter is there once, or was deleted once"""
    beside = Beside(folder)
    with Dovecot(folder, beside.path, *LOCKS, user="lmtpd") as dovecot:
        readers = {who: ByDovecot(beside, dovecot) for who in ["one", "two"]}
        beside.judge(beside.run(readers))


@case
@in_a_machine(*MUTT)
def mutt_deletes(folder):
    """mutt saves and deletes in a loop: each letter is there once, or was deleted once"""
    beside = Beside(folder)
    beside.judge(beside.run({"mutt": ByMutt(beside)}))


@case
@in_a_machine(*FORMAIL)
def formail_deletes(folder):
    """two scripts with lockfile and formail cut letters and write the rest in place: each letter is there once, or
    was deleted once"""
    beside = Beside(folder)
    beside.judge(beside.run({who: ByFormail(beside, who) for who in ["one", "two"]}))


@case
@in_a_machine(*NEEDS, *MUTT)
def mutt_beside_dovecot_deletes(folder):
    """a session of Dovecot's IMAP and mutt delete from one mailbox: each letter is there once, or was deleted once"""
    beside = Beside(folder)
    with Dovecot(folder, beside.path, *LOCKS, user="lmtpd") as dovecot:
        readers = {"dovecot": ByDovecot(beside, dovecot), "mutt": ByMuttBesideOthers(beside)}
        # beside others that lock it as often mutt may never get its locks
        beside.judge(beside.run(readers), may_be_idle=["mutt"])


@case
@in_a_machine(*NEEDS, *MUTT, *FORMAIL)
def all_three_delete(folder):
    """two sessions of Dovecot's IMAP, mutt and formail delete from one mailbox: each letter is there once, or was
    deleted once"""
    beside = Beside(folder)
    with Dovecot(folder, beside.path, *LOCKS, user="lmtpd") as dovecot:
        readers = {who: ByDovecot(beside, dovecot) for who in ["one", "two"]}
        readers |= {"mutt": ByMuttBesideOthers(beside), "formail": ByFormail(beside, "formail")}
        beside.judge(beside.run(readers), may_be_idle=["mutt"])


@case
@in_a_machine()
def python_deletes(folder):
    """two scripts lock, remove and flush by Python's mailbox, which renames: each letter is there once, or was
    deleted once"""
    beside = Beside(folder)
    beside.judge(beside.run({who: ByPython(beside) for who in ["one", "two"]}))


class ByPython:
    def __init__(self, beside):
        self.beside = beside

    def __call__(self, who):
        while not self.beside.path.exists():
            time.sleep(0.05)
        script = re.sub(r"\w+\.py$", "reads_by_python.py", __file__)
        ends = {"stdin": subprocess.PIPE, "stdout": subprocess.PIPE}
        words = [sys.executable, "-B", script, self.beside.path, who]
        process = subprocess.Popen(words, text=True, **ends, **self.beside.how)
        threading.Thread(target=self.end, args=[process]).start()
        found = process.stdout.read().splitlines()
        equal(process.wait(), 0)
        return found

    def end(self, process):
        self.beside.stop.wait()
        process.stdin.close()


for function in [
    dovecot_deletes,
    mutt_deletes,
    formail_deletes,
    mutt_beside_dovecot_deletes,
    all_three_delete,
    python_deletes,
]:
    function.seconds = int(SECONDS) + 180

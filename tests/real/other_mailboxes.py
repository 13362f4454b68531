"""Mailboxes that Postfix and Dovecot wrote, and what becomes of them here by docs/operating/MOVING.md."""

import contextlib
import os
import pathlib
import re
import subprocess

import letters
from cases import case, equal
from clients import deliver_one
from dovecot import Dovecot
from packages import program
from postfix import Postfix
from replies import stored
from server import Server

PAGE = pathlib.Path(__file__).parents[2] / "docs/operating/MOVING.md"
MOVING = PAGE.read_text().split("\n## Moving a mailbox\n")[1]
LINES = ["From x", ">From x", ">>From x", "", "From carl@a.example Mon Nov 23 10:00:00 2026", "> From y", "end"]
# Header lines by which programs count and mark the letters of a mailbox, here as a sender wrote them.
MARKS = ["Content-Length: 3", "Status: RO", "X-Status: F", "X-UID: 7", "X-Keywords: k", "X-IMAPbase: 1 9"]
FLAWED = "Subject: x\r\n\r\nhello\r\nFrom x\r\n"
SITE = ["virtual_transport = virtual", "virtual_uid_maps = static:8", "virtual_gid_maps = static:8"]
SITE += ["virtual_minimum_uid = 1", "mydestination = local.example", "local_recipient_maps ="]


@case
def postfix_quotes_once(folder):
    """Postfix puts > before From, none before >From, drops Content-Length; its mailbox is moved by the typed lines"""
    for path in filled_by_postfix(folder):
        equal((path.stat().st_mode & 0o777, checked(path)), (0o600, "letters 2"))
        one, two = letters_of(path)
        once = [re.sub("^From ", ">From ", line) for line in LINES]
        equal((body(one), body(two)), (once, once))
        equal([f"\n{mark}\n" in two.decode() for mark in MARKS], [False] + [True] * 5)
        # of `>From` nobody knows any more who wrote the >
        kept = ["From x" if line == ">From x" else line for line in LINES]
        moved_and_delivered_after(folder / f"moved-{path.name}", path, "sed", [kept, kept])


@case
def a_mailbox_without_its_last_line(folder):
    """a mailbox of Postfix's without its last empty line or last line end: a check says so, the next letter mends"""
    whole = filled_by_postfix(folder)[0].read_bytes()
    for lost in [1, 2]:
        home = folder / f"lost{lost}"
        home.mkdir()
        (home / "anna.mbox").write_bytes(whole[:-lost])
        second = whole.rindex(b"\n\nFrom ") + 2
        equal(checked(home / "anna.mbox"), f"no empty line at {len(whole) - lost} in letter 2 at {second}")
        deliver_after(home, 3)


@case
def dovecot_quotes_nothing(folder):
    """Dovecot quotes nothing, counts by Content-Length: a check finds more letters; it is moved by the typed lines"""
    path = folder / "inbox"
    path.touch()
    with Dovecot(folder, path) as dovecot:
        dovecot.deliver(message("one", *MARKS))
        with dovecot.login() as client:
            client.append("INBOX", None, None, message("two", *MARKS))
        said = path.read_text()
        # of each letter two lines after an empty one look like the next letter's first
        equal((said.count("\n\n" + "\n".join(LINES) + "\n\n"), checked(path)), (2, "letters 6"))
        length = len("\n".join([*LINES, ""]))
        equal((said.count(f"\nContent-Length: {length}\n"), said.count("Content-Length: 3")), (2, 0))
        equal([said.count(f"\n{mark}\n") for mark in MARKS[1:]], [0] * 5)
        equal(len(re.findall(r"^X-IMAPbase: \d+ \d+\nX-UID: 1\nStatus: ", said, re.MULTILINE)), 1)
        moved_and_delivered_after(folder / "home", path, "awk", [LINES, LINES])
        dovecot.deliver(FLAWED.encode())
        path.write_text("From carl" + path.read_text().rpartition("\nFrom carl")[2])
        place = path.read_text().index("From x") + len("From")
        equal(checked(path).partition(" in letter ")[0], f"no empty line at {place}")


@case
def dovecot_leaves_a_letter(folder):
    """Dovecot's IMAP leaves a letter of its own in a mailbox that it emptied, which counts as a letter"""
    path = folder / "inbox"
    path.touch()
    with Dovecot(folder, path) as dovecot, dovecot.login() as client:
        dovecot.deliver(message("one"))
        client.select("INBOX")
        client.store("1", "+FLAGS", "\\Deleted")
        client.expunge()
        client.close()
    equal(("FOLDER INTERNAL DATA" in path.read_text(), checked(path)), (True, "letters 1"))


@case
def dovecot_writes_into_ours(folder):
    """Dovecot's IMAP writes header lines into ours, even at EXAMINE and beside a server, unless it may only read it"""
    mail = folder / "mail"
    mail.mkdir()
    path = mail / "anna.mbox"
    with contextlib.ExitStack() as running:
        server = running.enter_context(Server(mail, ["anna"], 100, "--lanes", 1))
        # before the file is the reader's, from when on a server that runs as root refuses it
        deliver_to(server)
        dovecot = running.enter_context(Dovecot(folder, path))
        before = path.read_text()
        os.chown(path, 0, 8)
        path.chmod(0o640)
        look_by_imap(dovecot)
        equal(path.read_text(), before)
        os.chown(path, 8, 8)
        look_by_imap(dovecot)
        equal(names_after(path, before), {"X-IMAPbase", "X-UID"})
        look_by_imap(dovecot, "\\Seen")
        equal(names_after(path, before), {"X-IMAPbase", "X-UID", "Status"})
        equal((body(letters_of(path)[0]), checked(path)), (quoted(LINES), "letters 1"))


def look_by_imap(dovecot, *flags):
    with dovecot.login() as client:
        client.select("INBOX", readonly=not flags)
        client.fetch("1", "(BODY[])")
        for flag in flags:
            client.store("1", "+FLAGS", flag)
        client.close()


def names_after(path, before):
    """The names of the header lines that weren't there before."""
    return {line.partition(":")[0] for line in path.read_text().splitlines() if line not in before.splitlines()}


@case
def locks_that_others_take(folder):
    """Postfix and Dovecot lock by fcntl and the lock file where nobody says otherwise, and then wait for our turns"""
    program("postconf", "postfix")
    for name in ["mailbox_delivery_lock", "virtual_mailbox_lock"]:
        equal(said_by("postconf", "-d", name), f"{name} = fcntl, dotlock\n")
    program("doveconf", "dovecot-core")
    for kind, locks in [("read", "fcntl"), ("write", "fcntl dotlock")]:
        equal(said_by("doveconf", "-d", f"mbox_{kind}_locks"), f"mbox_{kind}_locks = {locks}\n")
    folder.chmod(0o755)
    mail = folder / "mail"
    mail.mkdir()
    with Server(mail, ["anna"], 100) as server:
        path = server.mailbox("anna")
        # the server makes none before its first letter
        path.touch(mode=0o600)
        for place in [mail, path]:
            os.chown(place, 8, 8)
        more = [f"virtual_mailbox_base = {mail}", "virtual_mailbox_maps = static:anna.mbox"]
        with Postfix(folder, *SITE, *more, "deliver_lock_attempts = 2") as postfix:
            postfix.send(["anna@mx.example"], message("one"))
            equal(postfix.fate("anna@mx.example")[0], "sent")
            # as it stands there in the middle of a turn
            (mail / "anna.mbox.lock").write_text(f"{os.getpid()}:{os.uname().nodename}\n")
            postfix.send(["anna@mx.example"], message("two"))
            equal(postfix.fate("anna@mx.example", 2)[0], "deferred")
        equal(checked(path), "letters 1")


def filled_by_postfix(folder):
    """Two files with two letters each, of Postfix's virtual(8) and of its local(8)."""
    boxes, spool = folder / "boxes", folder / "spool"
    for place in [boxes, spool]:
        place.mkdir()
        place.chmod(0o1777)
    with Postfix(folder, *SITE, f"virtual_mailbox_base = {boxes}", f"mail_spool_directory = {spool}") as postfix:
        for recipient in ["anna@mx.example", "games@local.example"]:
            postfix.send([recipient], message("one"))
            equal(postfix.fate(recipient), ("sent", "delivered to mailbox"))
            postfix.send([recipient], message("two", *MARKS))
            equal(postfix.fate(recipient, 2), ("sent", "delivered to mailbox"))
    return boxes / "all", spool / "games"


def message(name, *more):
    return "\r\n".join([f"Subject: {name}", "From: <carl@a.example>", *more, "", *LINES, ""]).encode()


def quoted(lines):
    return [re.sub("^(>*From )", r">\1", line) for line in lines]


def body(letter):
    """The lines of a letter after its header."""
    return letter.decode().partition("\n\n")[2].removesuffix("\n").split("\n")


def letters_of(path):
    """The texts of a file between From lines that stand after an empty line."""
    return [text.removesuffix(b"\n") for text in re.split(rb"(?:\A|(?<=\n\n))From [^\n]*\n", path.read_bytes())[1:]]


def checked(path):
    """What `lmtpd check` says of a file."""
    return said_by(os.environ["LMTPD"], "check", path, expected=(0, 1)).removeprefix(f"{path} ").removesuffix("\n")


def said_by(*words, expected=(0,)):
    said = subprocess.run(words, capture_output=True, text=True, timeout=20)
    equal((said.returncode in expected, said.stderr), (True, ""))
    return said.stdout


def moved_and_delivered_after(home, path, tool, bodies):
    """Types what MOVING has for that tool; then a server delivers one more letter, and readers find all."""
    home.mkdir(exist_ok=True)
    lines = next(text for text in MOVING.split("```\n")[1::2] if tool in text)
    places = {"/var/mail/lmtpd/anna.mbox": home / "anna.mbox", "/var/mail/anna": path, "lmtpd:": "root:"}
    for name, place in places.items():
        lines = lines.replace(name, str(place))
    environment = dict(os.environ, PATH=f"{os.path.dirname(os.environ['LMTPD'])}:{os.environ['PATH']}")
    said = subprocess.run(["sh", "-e"], input=lines, env=environment, capture_output=True, text=True, timeout=20)
    equal((said.returncode, said.stderr), (0, ""))
    equal(said.stdout, f"{home}/anna.mbox letters {len(bodies)}\n")
    deliver_after(home, len(bodies) + 1)
    texts = list(letters.by_git(home / "anna.mbox"))
    equal([body(text) for text in texts], [*bodies, LINES])


def deliver_after(home, count):
    """A server delivers one more letter to anna's file, which then has that many."""
    with Server(home, ["anna"], 1, "--lanes", 1) as server:
        deliver_to(server)
        equal(server.end().status, 0)
    path = home / "anna.mbox"
    texts = list(letters.by_git(path))
    equal((checked(path), len(texts)), (f"letters {count}", count))
    equal(list(letters.by_python(path)), texts)


def deliver_to(server):
    text = message("behind").decode().removesuffix("\r\n")
    equal(deliver_one(server.address, ["anna"], text), [stored("anna")])

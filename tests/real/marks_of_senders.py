"""What a sender can do to a mailbox by its head or its address: with `--rename-marks` none of it, and without, so that
each case can fail, all of it."""

import imaplib
import mailbox
import re
import shutil
import subprocess

from cases import case, equal
from clients import Client
from dovecot import Dovecot
from mutt import Mutt
from packages import program
from pages import lines_of, type_lines
from replies import stored
from server import Server

RENAMED = "--rename-marks"
PLAIN = "carl@a.example"
# Dovecot reads `\` in a From line's quotes as the start of a pair that never ends.
BROKEN_ADDRESS = '"\\\\"@a.example'
# Before the last field, in bytes that another letter's record has as well.
DIGITS = "0000000"


def mailbox_of(folder, letters, *more):
    """The file of a mailbox with these letters, each a sender and lines."""
    folder.mkdir()
    with Server(folder, ["anna"], 1, "--lanes", 1, *more) as server:
        with Client(server.address).greet() as client:
            for sender, lines in letters:
                for line in [f"MAIL FROM:<{sender}>", "RCPT TO:<anna@mx.example>"]:
                    equal(client.ask(line)[:3], "250")
                equal(client.ask("DATA")[:3], "354")
                # one text, since a bare CR stands in some
                client.socket.sendall("\r\n".join([*lines, ".", ""]).encode())
                equal(client.hear(), stored("anna"))
            client.quit()
        equal(server.end().status, 0)
    return server.mailbox("anna")


def letter(name, *head, body="hello"):
    return PLAIN, [*head, "From: <carl@a.example>", f"Subject: {name}", "", body]


@case
def numbers_that_break_the_inbox(folder):
    """X-IMAPbase: 7 4294967295 in the first letter: Dovecot's IMAP opens the mailbox with the word, and without it not"""
    letters = [letter("one", "X-IMAPbase: 7 4294967295"), letter("two")]
    equal(selected(folder / "without", letters), "broken")
    equal(selected(folder / "with", letters, RENAMED), 2)


@case
def an_address_that_breaks_the_inbox(folder):
    """a sender "\\\\"@a.example: Dovecot's IMAP opens the mailbox with the word, and without it not"""
    letters = [(BROKEN_ADDRESS, letter("one")[1]), letter("two")]
    equal(selected(folder / "without", letters), "broken")
    equal(selected(folder / "with", letters, RENAMED), 2)


@case
def flags_that_a_sender_sets(folder):
    """Status: RO and X-Status: D: to Dovecot and mutt the letter is new with the word, and without it read or deleted"""
    letters = [letter("one", "Status: RO", "X-Status: D"), letter("two")]
    without, renamed = mailbox_of(folder / "without", letters), mailbox_of(folder / "with", letters, RENAMED)
    equal([b"\\Seen" in flags_by_dovecot(folder, path)[0] for path in [without, renamed]], [True, False])
    equal([b"\\Deleted" in flags_by_dovecot(folder, path)[0] for path in [without, renamed]], [True, False])
    equal([is_in_mutt(folder, path, "~N ~s one") for path in [without, renamed]], [False, True])


@case
def flags_whose_names_a_nul_ends(folder):
    """Status and a NUL before : RO: to Dovecot the letter is new with the word, and without it read"""
    letters = [letter("one", "Status\0: RO"), letter("two")]
    without, renamed = mailbox_of(folder / "without", letters), mailbox_of(folder / "with", letters, RENAMED)
    equal([b"\\Seen" in flags_by_dovecot(folder, path)[0] for path in [without, renamed]], [True, False])


@case
def a_length_that_hides_the_next_letter(folder):
    """Content-Length, exact by guess: Dovecot, mutt and formail find three letters with the word, and without it two"""
    letters = [letter("one", f"Content-Length: {DIGITS}"), letter("two"), letter("three")]
    guess = mailbox_of(folder / "guess", letters).read_bytes()
    body = guess.index(b"\n\n") + 2
    third = [found.start() for found in re.finditer(rb"^From ", guess, re.MULTILINE)][2]
    # what stands between the first letter's head and the empty line before the third
    letters[0] = letter("one", f"Content-Length: {third - 1 - body:0{len(DIGITS)}}")
    without, renamed = mailbox_of(folder / "without", letters), mailbox_of(folder / "with", letters, RENAMED)
    equal([count_by_dovecot(folder, path) for path in [without, renamed]], [2, 3])
    equal([is_in_mutt(folder, path, "~s two") for path in [without, renamed]], [False, True])
    equal([count_by_formail(path) for path in [without, renamed]], [2, 3])


@case
def a_carriage_return_before_a_flag(folder):
    """a bare CR and then Status: RO: to Python the letter is new with the word, and without it read"""
    letters = [letter("one", "X-Note: x\rStatus: RO")]
    without, renamed = mailbox_of(folder / "without", letters), mailbox_of(folder / "with", letters, RENAMED)
    equal([[one.get_flags() for one in mailbox.mbox(path, create=False)] for path in [without, renamed]], [["RO"], [""]])


@case
def a_mailbox_moved_in(folder):
    """a mailbox with a sender's marks, moved in: Dovecot opens it after the typed line of docs/operating/MOVING.md"""
    path = mailbox_of(folder / "moved", [letter("one", "x-imapBASE: 7 4294967295", "Status: RO"), letter("two")])
    line = lines_of("MOVING.md", "### Marks of what is moved in")
    type_lines(line.replace("/var/mail/lmtpd/anna.mbox", str(path)))
    equal(count_by_dovecot(folder, path), 2)
    equal(re.findall(rb"(?m)^(\S+): (?:7 |RO)", path.read_bytes()), [b"X-Was-x-imapBASE", b"X-Was-Status"])


@case
def git_takes_the_letters_with_their_names(folder):
    """git mailsplit finds each letter with the word as without, and in it the fields by their new names"""
    letters = [letter("one", "Status: RO", "X-Was-Status: x"), letter("two")]
    found = {}
    for name, more in [("without", []), ("with", [RENAMED])]:
        path = mailbox_of(folder / name, letters, *more)
        split = folder / f"{name}.d"
        split.mkdir()
        subprocess.run(["git", "mailsplit", "--mboxrd", f"-o{split}", path], check=True, capture_output=True)
        found[name] = [re.findall(rb"(?m)^(\S*Status): ", one.read_bytes()) for one in sorted(split.iterdir())]
    equal(found, {"without": [[b"Status", b"X-Was-Status"], []], "with": [[b"X-Was-Status", b"X-Was-X-Was-Status"], []]})


def opened(folder, path):
    """A Dovecot whose inbox is a copy of that file."""
    # its processes pass through the folder
    folder.chmod(0o755)
    place = folder / f"dovecot-{path.parent.name}"
    place.mkdir(exist_ok=True)
    shutil.rmtree(place / "dovecot", ignore_errors=True)
    return Dovecot(place, shutil.copy(path, place / "inbox"))


def selected(folder, letters, *more):
    """How many letters Dovecot finds in a mailbox with these, or that it can't open it."""
    path = mailbox_of(folder, letters, *more)
    try:
        return count_by_dovecot(folder.parent, path)
    except (imaplib.IMAP4.error, OSError):
        return "broken"


def count_by_dovecot(folder, path):
    with opened(folder, path) as dovecot, dovecot.login() as client:
        answer, [count] = client.select("INBOX")
        return int(count) if answer == "OK" else "broken"


def flags_by_dovecot(folder, path):
    with opened(folder, path) as dovecot, dovecot.login() as client:
        equal(client.select("INBOX", readonly=True)[0], "OK")
        return client.fetch("1:*", "(FLAGS)")[1]


def is_in_mutt(folder, path, pattern):
    """Whether mutt lists a letter of that pattern."""
    home = folder / f"mutt-{path.parent.name}"
    home.mkdir(exist_ok=True)
    shutil.rmtree(home / "Mail", ignore_errors=True)
    mutt = Mutt(home, {})
    keys = f"<tag-pattern>{pattern}<enter><tag-prefix-cond><copy-message>{mutt.saved}<enter><end-cond>"
    return mutt.session(path, keys, 20, "-R") != b""


def count_by_formail(path):
    formail = program("formail", "procmail")
    # one that doesn't read its letter may be gone before formail wrote that
    words = [formail, "-s", "sh", "-c", "cat > /dev/null; echo"]
    said = subprocess.run(words, stdin=path.open("rb"), capture_output=True, check=True)
    return len(said.stdout.splitlines())

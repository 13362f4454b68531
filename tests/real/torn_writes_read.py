"""A server is killed within its write of a record, or crashes at any moment of a turn, and five readers take what the next
one made of it; where formail is installed it is a sixth, for which a From line without a head is a line of the letter
before it."""

import contextlib
import os
import pathlib
import re
import shutil
import subprocess
import tempfile

import crashes
import letters
from cases import case
from cut_writes import READERS, TOLD, Killer, Reader, deliver_after, judge
from dovecot import Dovecot
from mutt import Mutt
from packages import need_root
from told_letters import by_dovecot

LAST = 8  # bytes of the record, at each of which the server is killed
# What mutt adds to a letter that it copies.
OF_MUTT = re.compile(rb"^(?:Content-Length|Lines): \d+\n", re.MULTILINE)
# In a head with NULs it writes that within a line.
LENGTH = re.compile(rb"Content-Length: (\d+)$", re.MULTILINE)


@case
def five_readers_after_a_cut(folder):
    """a server is killed at each place of a record's From line and of its last eight bytes, after a told letter: then
    git, Python, the check, mutt and Dovecot find that letter unchanged and the next one whole"""
    cut_and_read(folder, TOLD)


@case
def five_readers_after_a_first_cut(folder):
    """the same of a mailbox's first record"""
    cut_and_read(folder, [])


@case
def five_readers_after_each_crash(folder):
    """every state in which a crash may leave a mailbox, by the calls of a turn: a new one, one with a told letter, a torn
    one, one whose turn breaks, one that another program put there: then the five find each told letter unchanged and
    the next one whole"""
    need_root()
    folder.chmod(0o755)
    turns = [crashes.in_a_new_mailbox, crashes.after_a_told_letter, crashes.after_a_torn_tail]
    turns += [crashes.in_a_turn_that_breaks, crashes.after_a_rename]
    with five_readers(folder) as readers:
        for turn in turns:
            place = folder / turn.__name__
            place.mkdir()
            turn(place, readers)


@case
def five_readers_after_bytes_unwritten(folder):
    """what a crash leaves where a file grew by a record of which not each byte was written, and NULs stand there: then
    the five find that the last told letter begins with its own lines, those before it unchanged and the next one
    whole"""
    need_root()
    folder.chmod(0o755)
    with five_readers(folder) as readers:
        crashes.with_bytes_unwritten(folder, readers)


five_readers_after_each_crash.seconds = five_readers_after_bytes_unwritten.seconds = 900
five_readers_after_a_cut.seconds = five_readers_after_a_first_cut.seconds = 240


def cut_and_read(folder, told):
    need_root()
    folder.chmod(0o755)
    killer = Killer(folder)
    length, of_from_line = killer.length_of_record()
    places = [*range(of_from_line + 2), *range(length - LAST, length + 1)]
    cuts = killer.cut([(f"box{place}", place) for place in places], told)
    said = deliver_after(folder, cuts)
    with five_readers(folder) as readers:
        judge(cuts, said, readers)


@contextlib.contextmanager
def five_readers(folder):
    """The check is the fifth; formail is one more where it is installed."""
    mutt = Mutt(folder, {})
    with Dovecot(folder, folder / "inbox") as dovecot, dovecot.login() as client:
        home = dovecot.folder / "home"
        by_mutt = Reader(lambda path: copied_by(mutt, path))
        by_imap = Reader(lambda path: by_dovecot(client, put(path, home)), without_from_line)
        found = READERS | {"mutt": by_mutt, "Dovecot": by_imap}
        yield found | ({"formail": Reader(by_formail, joins=True)} if shutil.which("formail") else {})


def copied_by(mutt, path):
    """The letters that it copies, without the lines that it adds to their heads and with the quoting undone."""
    copied = mutt.copy(path)
    while copied:
        head, _, rest = copied.removeprefix(b"From ").partition(b"\n\n")
        if b"\nFrom " in head:
            # of a head with NULs it copies no more than stands before them, and no empty line
            yield head.partition(b"\nFrom ")[0] + b"\n"
            copied = copied[copied.find(b"\nFrom ") + 1 :]
            continue
        length = int(LENGTH.search(head)[1])
        body, copied = rest[:length], rest[length:].removeprefix(b"\n")
        yield letters.unquoted(OF_MUTT.sub(b"", head + b"\n") + (b"\n" + body if body else b""))


def by_formail(path):
    with tempfile.TemporaryDirectory() as folder, path.open("rb") as file:
        words = ["formail", "-s", "sh", "-c", 'cat > "$0/$FILENO"', folder]
        subprocess.run(words, stdin=file, check=True)
        for name in sorted(os.listdir(folder)):
            # it leaves the quoting, and the empty line after the letter
            yield letters.unquoted(pathlib.Path(folder, name).read_bytes().removeprefix(b"From ").removesuffix(b"\n"))


def put(path, home):
    """The name of a copy in that folder of Dovecot's."""
    shutil.chown(shutil.copy(path, home), "mail", "mail")
    return path.name


def without_from_line(text):
    return text.partition(b"\n")[2]

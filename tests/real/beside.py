"""What the cases share in which users read and delete while clients deliver to the installed service: numbered letters,
and what became of each.

Each letter is for one of the readers, who alone deletes it, or for nobody, so that it stays. A reader says which
letters it deleted once it has seen that it did: what it only asked for may have failed.
"""

import collections
import contextlib
import fcntl
import math
import os
import pathlib
import re
import shutil
import threading
import time

from cases import equal
from clients import Client
from replies import BUSY, not_stored, stored
from server import run
from service import FOLDER, SERVER_USER, Service

CLIENTS = 4
SECONDS = float(os.environ.get("READERS_SECONDS", "60"))
# One letter of so many is for nobody, and how long a client waits after 451, in seconds.
NOBODYS, REST = 16, 0.25
SUBJECT = re.compile(rb"^Subject: (for-\w+ \d+-\d+)$", re.MULTILINE)
ID = re.compile(rb"with LMTP id (\d+-\d+);")
# Dovecot keeps its own data in such a letter, where the first of a mailbox goes.
OF_DOVECOT = b"Subject: DON'T DELETE THIS MESSAGE -- FOLDER INTERNAL DATA\n"


def body_of(subject):
    """Each letter's own lines. One in fifty is longer than what is written at a time; but where there are more than
    four clients those of the further ones are short, so that it is their number that counts."""
    client, number = map(int, subject.rpartition(" ")[2].split("-"))
    count = 1 + number * 7 % 40 if number % 50 != 49 else 2000
    count = count if client < CLIENTS else 1
    return [f"{subject}, line {line} of {count}, {'x' * 30}" for line in range(count)] + [f"the end of {subject}"]


class Beside:
    """A service for one mailbox, by whom it is told, and what was told and deleted."""

    def __init__(self, folder, *more, how=SERVER_USER):
        """Readers run as `how` says."""
        folder.chmod(0o755)
        self.folder, self.how, self.more = folder, how, more
        self.home = self.made(folder / "home")
        self.path = FOLDER / "anna.mbox"
        self.told, self.refused, self.deleted = [], [], collections.Counter()
        self.busy = []  # for which the mailbox was busy, so that they weren't taken
        self.deleted_by = collections.Counter()
        # by reader: what it saved of the letters that it deleted and isn't theirs
        self.misread = collections.Counter()
        self.asked = set()
        self.stop = threading.Event()
        self.faults = []
        self.looking = threading.Lock()

    def made(self, place):
        place.mkdir()
        shutil.chown(place, self.how["user"], self.how["group"])
        return place

    def service(self, lanes):
        return Service(["anna"], "--lanes", lanes, "--timeout", 120, *self.more)

    def run(self, readers, clients=CLIENTS, seconds=SECONDS, letters=math.inf):
        """Delivers for that long, or so many letters, beside the readers, each a function of a name, and gives how the
        service ended, which never began again meanwhile."""
        with self.service(clients) as service:
            until = time.monotonic() + seconds

            def is_over():
                return self.stop.is_set() or time.monotonic() > until or len(self.told) >= letters

            names, address = list(readers), service.address
            jobs = [self.begin(self.read, who, reads) for who, reads in readers.items()]
            loads = [self.begin(self.deliver, address, number, names, is_over) for number in range(clients)]
            for load in loads:
                load.join()
            self.stop.set()
            for job in jobs:
                job.join()
            if self.faults:
                raise self.faults[0]
            equal(service.restarts(), 0)
            return service.end()

    def begin(self, *given):
        thread = threading.Thread(target=self.guard, args=given)
        thread.start()
        return thread

    def guard(self, function, *given):
        try:
            function(*given)
        except Exception as fault:
            self.faults.append(fault)
            self.stop.set()

    def read(self, who, reads):
        while not self.stop.is_set():
            self.count(who, reads(who))

    def count(self, who, subjects):
        self.deleted.update(subjects)
        self.deleted_by[who] += len(subjects)

    def deliver(self, address, number, readers, is_over):
        with Client(address) as client:
            client.socket.settimeout(120)
            client.greet()
            count = 0
            while not is_over():
                whose = readers[(count + number) % len(readers)] if (count + number) % NOBODYS else "nobody"
                subject = f"for-{whose} {number}-{count}"
                lines = [f"Subject: {subject}", "From: <carl@a.example>", "", *body_of(subject)]
                answers, finals = client.deliver_at_once(["anna"], *lines)
                assert finals in [[stored("anna")], [not_stored("anna")]] or answers == [BUSY], (answers, finals)
                is_stored = finals == [stored("anna")]
                (self.told if is_stored else self.refused if finals else self.busy).append(subject)
                count += 1
                if not is_stored:
                    time.sleep(REST)
            client.quit()

    def look(self, asked):
        """Which of these letters, that a reader asked to delete, are there no more: seen with both locks."""
        self.asked.update(asked)
        with self.looking, both_held(self.path) as file:
            there = {subject.decode() for subject in SUBJECT.findall(file.read())}
        return [subject for subject in asked if subject not in there]

    def judge(self, ended, idle=(), may_be_idle=()):
        """Each letter that was told 250 is there once and whole, or was deleted once, and none that wasn't told; each
        reader has deleted some, but those that are idle. Of letters that a reader misread it can't say that it deleted
        them: as many of its own may be missing. Of those that are for nobody each is there."""
        found, torn = letters_of(self.path.read_bytes())
        told = collections.Counter(self.told)
        here = collections.Counter(found)
        # what a reader asked for may have been done after it looked, by another session
        self.deleted.update(one for one in self.asked if not here[one] and not self.deleted[one])
        missing = [one for one in told if here[one] + self.deleted[one] == 0]
        lost = [one for one in missing if self.misread[reader_of(one)] < count_of(missing, reader_of(one))]
        doubled = [one for one in here | self.deleted if here[one] > 1 or self.deleted[one] > 1]
        back = [one for one in here if self.deleted[one] > 0]
        stray = [one for one in here | self.deleted if one not in told]
        each = ", ".join(f"{who} {count}" for who, count in sorted(self.deleted_by.items()))
        print(f"told {len(told)}, {count_of(told, 'nobody')} of them for nobody,", end=" ")
        print(f"refused {len(self.refused)}, busy {len(self.busy)},", end=" ")
        print(f"still there {len(found)}, deleted by {each};", end=" ")
        faults = {"lost": lost, "doubled": doubled, "torn": torn, "back": back, "stray": stray}
        print(", ".join(f"{fault} {len(letters)}" for fault, letters in faults.items()), end="; ")
        # one that the server wrote once has one id, however often readers copied it, as mutt does beside another
        ids = {one: ids_of(self.path.read_bytes(), one) for one in doubled}
        copied = [one for one in doubled if self.misread and is_one_id(ids[one])]
        print(f"one id twice {len(copied)};", end=" ")
        faults["doubled"] = [(one, ids[one]) for one in doubled if one not in copied]
        print(*(f"{who} misread {count}, {count_of(missing, who)} missing" for who, count in self.misread.items()))
        equal(faults, dict.fromkeys(faults, []))
        in_use = [f"lmtpd: anna in use {len(self.refused)}"] * bool(self.refused)
        equal(vars(ended), {"status": 0, "said": [f"anna stored {len(told)}"], "errors": in_use})
        equal(run(["check", self.path]).status, 0)
        equal(lock_of(self.path).exists(), False)
        none_deleted = [who for who, count in self.deleted_by.items() if count == 0 and who not in may_be_idle]
        equal(none_deleted, list(idle))


def letters_of(text):
    """The subjects of a mailbox's letters, and those letters that aren't as they were sent."""
    letters = [(subject_of(letter), letter) for letter in split(text)]
    subjects = [subject for subject, _ in letters if subject]
    return subjects, [letter[:200] for subject, letter in letters if not is_whole(subject, letter)]


def ids_of(text, subject):
    """The ids that the server wrote into the letters of that subject."""
    heads = [letter.partition(b"\n\n")[0] for letter in split(text) if subject_of(letter) == subject]
    return [found[1].decode() if (found := ID.search(head)) else None for head in heads]


def is_one_id(ids):
    """Whether these are one that stands there more than once."""
    return len(ids) > 1 and len(set(ids)) == 1 and None not in ids


def whole_of(text):
    """The subjects of the letters that are as they were sent."""
    letters = [(subject_of(letter), letter) for letter in split(text)]
    return [subject for subject, letter in letters if subject and is_whole(subject, letter)]


def split(text):
    return re.split(rb"^From ", text, flags=re.MULTILINE)[1:]


def subject_of(letter):
    """None where it has no subject of ours."""
    subject = SUBJECT.search(letter.partition(b"\n\n")[0])
    return subject and subject[1].decode()


def is_whole(subject, letter):
    head, _, body = letter.partition(b"\n\n")
    if subject is None:
        return OF_DOVECOT in head + b"\n"
    return body.rstrip(b"\n") == "\n".join(body_of(subject)).encode()


def reader_of(subject):
    """For whom that letter is."""
    return subject.removeprefix("for-").partition(" ")[0]


def count_of(subjects, reader):
    return sum(reader_of(one) == reader for one in subjects)


def lock_of(path):
    return path.with_name(f"{path.name}.lock")


@contextlib.contextmanager
def both_held(path):
    """Both locks on the file that the path names. Neither is waited for with the other in hand."""
    lock = lock_of(pathlib.Path(path))
    while True:
        with contextlib.suppress(FileExistsError, BlockingIOError, FileNotFoundError):
            os.close(os.open(lock, os.O_CREAT | os.O_EXCL, 0o644))
            try:
                with open(path, "r+b") as file:
                    fcntl.lockf(file, fcntl.LOCK_EX | fcntl.LOCK_NB)
                    yield file
                    return
            finally:
                lock.unlink()
        time.sleep(0.005)

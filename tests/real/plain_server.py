#!/usr/bin/env python3
"""An LMTP server of a page for one mailbox, in the place of ours: what readers do to one another whoever delivers.

It appends each letter under the lock file and the range lock, and syncs it. It is run by the unit of our package, in
the place of its program, and takes the words that it gets there; it leaves out all that the cases don't look at.
usage: PLAIN_SERVER=yes tests/real/run.sh 'and mutt delete'
"""

import fcntl
import itertools
import os
import pathlib
import socket
import sys
import threading
import time

TRIES = 100  # for a letter's locks, and one for the next letters while they can't be had
PAUSE = 0.1
INHERITED = 3  # the socket that systemd hands on
# The words of `lmtpd serve` that have no value, of those that the unit gives.
ALONE = ["--rename-marks", "--refuse-malformed", "--start-anyway"]


class Mailbox:
    def __init__(self, path):
        self.path, self.lock = path, path.with_name(f"{path.name}.lock")
        self.stored = self.missed = 0
        self.tries = TRIES
        self.turn = threading.Lock()
        os.close(os.open(path, os.O_CREAT, 0o600))

    def put(self, record):
        with self.turn:
            found = any(self.take(record) or time.sleep(PAUSE) for _ in range(self.tries))
            self.tries = TRIES if found else 1
            self.stored, self.missed = self.stored + found, self.missed + (not found)
            return found

    def take(self, record):
        """Whether both locks were free, and the letter stands there now."""
        try:
            made = os.open(self.lock, os.O_CREAT | os.O_EXCL | os.O_WRONLY, 0o644)
        except FileExistsError:
            return False
        try:
            os.write(made, f"{os.getpid()}:{socket.gethostname()}".encode())
            os.close(made)
            with open(self.path, "r+b") as file:
                fcntl.lockf(file, fcntl.LOCK_EX | fcntl.LOCK_NB)
                file.seek(0, os.SEEK_END)
                file.write(record)
                file.flush()
                os.fdatasync(file.fileno())
            return True
        except BlockingIOError:
            return False
        finally:
            self.lock.unlink()


class Conversation:
    def __init__(self, number, client, mailbox):
        self.number, self.mailbox = number, mailbox
        self.stream = client.makefile("rwb")
        self.count = 0

    def hold(self):
        self.say("220 mx.example LMTP ready")
        while line := self.stream.readline():
            self.say(self.reply(line[:4].upper()))
            if line[:4].upper() == b"QUIT":
                return

    def reply(self, command):
        match command:
            case b"LHLO":
                return "250-mx.example\r\n250-PIPELINING\r\n250-ENHANCEDSTATUSCODES\r\n250-8BITMIME\r\n250 SIZE 1048576"
            case b"MAIL":
                return "250 2.1.0 Sender ok"
            case b"RCPT":
                return "250 2.1.5 Recipient ok"
            case b"DATA":
                self.say("354 End with a lone dot")
                name = self.mailbox.path.name.removesuffix(".mbox")
                is_stored = self.mailbox.put(self.record())
                return f"250 2.0.0 Stored for {name}" if is_stored else f"451 4.3.0 Not stored for {name}"
        return "221 2.0.0 mx.example closing"

    def record(self):
        """The next letter, each with a head of its own, by which Dovecot knows it again."""
        self.count += 1
        lines = []
        while (line := self.stream.readline().removesuffix(b"\r\n")) != b".":
            lines.append(line.removeprefix(b"."))
        now = time.gmtime()
        head = [
            f"From carl@a.example {time.strftime('%a %b %e %H:%M:%S %Y', now)}",
            "Return-Path: <carl@a.example>",
            f"Received: from relay.example by mx.example with LMTP id {self.number}-{self.count};",
            time.strftime("\t%a, %d %b %Y %H:%M:%S +0000", now),
        ]
        return b"\n".join([*map(str.encode, head), *lines, b"", b""])

    def say(self, reply):
        self.stream.write(reply.encode() + b"\r\n")
        self.stream.flush()


def main(word, *words):
    if word == "check":
        return
    given, (name,) = parted(words)
    mailbox = Mailbox(pathlib.Path(given["--dir"]) / f"{name}.mbox")
    listener = socket.socket(fileno=INHERITED)
    for number in range(int(given["--lanes"])):
        threading.Thread(target=serve, args=(number, listener, mailbox), daemon=True).start()
    print("listening on inherited", flush=True)
    tell_systemd(b"READY=1")
    while not os.path.exists(given["--stop-file"]):
        time.sleep(PAUSE)
    print(f"{name} stored {mailbox.stored}")
    if mailbox.missed:
        print(f"lmtpd: {name} in use {mailbox.missed}", file=sys.stderr)


def parted(words):
    """The value of each word that has one, and the names of mailboxes, which stand among them."""
    given, names, left = {}, [], iter(words)
    for word in left:
        if not word.startswith("--"):
            names.append(word)
        elif word not in ALONE:
            given[word] = next(left)
    return given, names


def tell_systemd(text):
    with socket.socket(socket.AF_UNIX, socket.SOCK_DGRAM) as notify:
        notify.connect(os.environ["NOTIFY_SOCKET"].replace("@", "\0", 1))
        notify.send(text)


def serve(lane, listener, mailbox):
    """One conversation after another."""
    for number in itertools.count():
        Conversation(f"{lane}-{number}", listener.accept()[0], mailbox).hold()


main(*sys.argv[1:])

"""In which order the system is asked for what, as strace has it: a copy is synced, and its folder, before it is said to
be there; a mailbox is read under its lock, and its line is written before the next one is opened; a line of the log is
written after the reply that it tells of."""

import os
import re
import shutil
import subprocess

from cases import Absent, case, equal
from clients import Client
from replies import stored
from server import Server
from written import until_it_looks

LETTER = b"From a@b Thu Jan  1 00:00:00 1970\nSubject: x\n\nhello\n\n"
TRACED = "openat,fcntl,read,write,close,fsync,fdatasync"
# what a call of the server sends or logs that the case looks for
SENT = {
    "503 sent": r'sendto\(.*"503 ',
    "copies sent": r'sendto\(.*"250 2\.0\.0 Stored for anna\\r\\n250 2\.0\.0 Stored for ben',
    "503 logged": r'write\(2, "\[INFO  lmtpd\] command refused .* code=503',
    "a copy logged": r'write\(2, "\[INFO  lmtpd\] copy answered ',
}
# a call, the path of its descriptor or the one that it opens, and what it answered
CALL = re.compile(r'(?:\d+ +)?(\w+)\((?:AT_FDCWD<[^>]*>, "([^"]*)"|\d+<([^>]*)>)(.*)\) += (-?\d+).*')


def calls_of(folder, *given):
    """The calls of a run of the program in the folder, each with its path and the rest of its line."""
    if shutil.which("strace") is None:
        raise Absent("strace")
    place = folder / "calls"
    looks = ["strace", "-f", "-y", "-qq", "-e", f"trace={TRACED}", "-e", "signal=none", "-o", place]
    done = subprocess.run([*looks, os.environ["LMTPD"], *given], cwd=folder, capture_output=True, timeout=30)
    equal((done.returncode, done.stderr), (0, b""))
    found = [CALL.fullmatch(line) for line in place.read_text().splitlines()]
    return [(it[1], name_at(it[2] or it[3]), it[4]) for it in found if it and int(it[5]) >= 0]


def name_at(path):
    """What stands at the path: standard output is a pipe here."""
    return "output" if path.startswith("pipe:") else os.path.basename(path)


def names_of(calls, *paths):
    """The names of the calls at these paths, with what a lock is for; what is said alike several times stands once."""
    named = [f"{name} {path}{' locked' if 'F_RDLCK' in rest else ''}" for name, path, rest in calls if path in paths]
    return [name for place, name in enumerate(named) if named[place - 1 : place] != [name]]


@case
def a_copy_is_synced(folder):
    """a mailbox that is copied: the copy's bytes are kept before its folder's entry, and both before it ends well"""
    (folder / "from").mkdir()
    (folder / "to").mkdir()
    (folder / "from" / "anna.mbox").write_bytes(LETTER)
    calls = calls_of(folder, "copy", "from/anna.mbox", "to/copy")
    expected = ["openat copy", "write copy", "fdatasync copy", "openat to", "fsync to", "close to", "close copy"]
    equal(names_of(calls, "copy", "to"), expected)


@case
def a_mailbox_is_read_under_its_lock(folder):
    """two mailboxes that are checked: each is locked before its bytes are read, and until all are, and its line is
    written before the next one is opened"""
    for name in ["anna.mbox", "ben.mbox"]:
        (folder / name).write_bytes(LETTER)
    calls = calls_of(folder, "check", "anna.mbox", "ben.mbox")
    one = ["openat {0}", "fcntl {0} locked", "read {0}", "close {0}", "write output"]
    expected = [it.format(name) for name in ["anna.mbox", "ben.mbox"] for it in one]
    equal(names_of(calls, "anna.mbox", "ben.mbox", "output"), expected)


@case
def a_reply_goes_out_before_its_line(folder):
    """what the server sends and what it logs of a conversation, in their order: no line stands in the log before the
    reply that it tells of was sent"""
    if shutil.which("strace") is None:
        raise Absent("strace")
    place = folder / "calls"
    with Server(folder, ["anna", "ben"], 1, "--lanes", 1, "--log", "info") as server:
        looks = ["strace", "-f", "-qq", "-s", "1000", "-e", "trace=write,sendto", "-e", "signal=none", "-o", place]
        with subprocess.Popen([*looks, "-p", str(server.process.pid)], stdin=subprocess.DEVNULL) as tracer:
            until_it_looks(tracer, server)
            with Client(server.address).greet() as client:
                equal(client.ask("RCPT TO:<carl@mx.example>")[:3], "503")
                equal(client.deliver(["anna", "ben"], "Subject: x", "", "x")[1], [stored("anna"), stored("ben")])
                client.quit()
            server.end()
            tracer.wait(20)
    lines = place.read_text().splitlines()
    told = [what for line in lines for what, text in SENT.items() if re.search(text, line)]
    equal(told, ["503 sent", "503 logged", "copies sent", "a copy logged", "a copy logged"])

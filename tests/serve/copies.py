"""Copies of a mailbox: of one that a server delivers into, and where they can't be made."""

import contextlib
import fcntl
import os
import pathlib
import resource
import signal
import socket
import subprocess
import threading
import time

import letters
from cases import Absent, case, equal
from clients import Client, deliver_one
from failing import built
from readers import NOBODY, both_held, bytes_held, lock_of, name_held
from replies import not_stored, stored
from server import Server

STOPPING = pathlib.Path(__file__).parent / "stop_in_write.c"
WAIT = 10  # seconds for which locks are waited for
LETTER = b"From a@b Thu Jan  1 00:00:00 1970\nSubject: x\n\nhello\n\n"
COPIES = 20


def copy(file, to, **how):
    """The status and what was said of it; nothing is ever said on standard output."""
    done = start(file, to, **how)
    output, errors = done.communicate(timeout=30)
    equal(output, "")
    return done.returncode, errors


def start(file, to, **how):
    ends = {"stdin": subprocess.DEVNULL, "stdout": subprocess.PIPE, "stderr": subprocess.PIPE, "text": True}
    return subprocess.Popen([os.environ["LMTPD"], "copy", file, to], **ends, **how)


def made(folder, text=LETTER):
    path = folder / "anna.mbox"
    path.write_bytes(text)
    return path


def refused(file, to, line, **how):
    """It isn't copied, and no lock file is left."""
    equal(copy(file, to, **how), (1, f"lmtpd: {line}\n"))
    equal(pathlib.Path(f"{file}.lock").is_file(), False)


@case
def beside_a_server(folder):
    """a mailbox is copied while a server delivers into it: each copy is whole letters, those that were told 250 before
    among them, as git and Python read them; no letter is refused for it, and nothing else is left"""
    (folder / "copies").mkdir()
    copies = [folder / "copies" / str(number) for number in range(COPIES)]
    told, done = [], threading.Event()
    with Server(folder, ["anna"], 1) as server:
        file = server.mailbox("anna")

        def deliver():
            with Client(server.address).greet() as client:
                while not done.is_set():
                    told.extend(client.deliver(["anna"], f"letter {len(told)}", "From here")[1])
                client.quit()

        thread = threading.Thread(target=deliver)
        thread.start()
        try:
            while len(told) < 3:
                time.sleep(0.01)
            before = []
            for to in copies:
                before.append(len(told))
                equal(copy(file, to), (0, ""))
        finally:
            done.set()
            thread.join()
        equal(server.end().status, 0)
    equal(set(told), {stored("anna")})
    whole = file.read_bytes()
    expected = [f"letter {number}\nFrom here\n".encode() for number in range(len(told))]
    equal(letters.messages(file), expected)
    for to, count in zip(copies, before):
        found = letters.messages(to)
        equal((found, len(found) >= count), (expected[: len(found)], True))
        equal((whole.startswith(to.read_bytes()), to.stat().st_mode & 0o7777), (True, 0o600))
    equal(sorted(it.name for it in folder.iterdir()), ["anna.mbox", "copies"])


@case
def large_and_empty(folder):
    """a mailbox of 20 MB, one without a byte and a file that is none are copied byte for byte, whatever the mask, and
    stay as they were"""
    for text in [LETTER * 400_000, b"", b"\0\xff no mailbox" * 10_000]:
        file, to = made(folder, text), folder / "copy"
        before = file.stat()
        equal(copy(file, to, umask=0), (0, ""))
        equal((to.read_bytes() == text, to.stat().st_mode & 0o7777), (True, 0o600))
        after = file.stat()
        equal((after.st_mtime_ns, after.st_ino, after.st_mode), (before.st_mtime_ns, before.st_ino, before.st_mode))
        to.unlink()
    equal([it.name for it in folder.iterdir()], ["anna.mbox"])


@case
def what_is_there_stays(folder):
    """what is there of the copy's name, a file, a folder, the mailbox itself, its lock file's name or a symbolic link
    that leads nowhere, is left as it is: cannot make"""
    file, there, dangling = made(folder), folder / "there", folder / "dangling"
    there.write_bytes(b"mine")
    dangling.symlink_to("nowhere")
    for to in [there, file, folder, dangling, lock_of(file), folder / "none" / "copy", ""]:
        refused(file, to, f"cannot make {to}")
    equal((there.read_bytes(), file.read_bytes()), (b"mine", LETTER))
    equal(sorted(it.name for it in folder.iterdir()), ["anna.mbox", "dangling", "there"])


@case
def no_mailbox(folder):
    """a mailbox that is missing, a symbolic link, a folder, a FIFO, a socket, a device or a file of two names isn't
    copied, nor waited for, and none is made: cannot read"""
    file, to = made(folder), folder / "copy"
    linked, dangling, fifo, bound, second = [folder / it for it in ["linked", "dangling", "fifo", "socket", "second"]]
    linked.symlink_to(file)
    dangling.symlink_to("nowhere")
    os.mkfifo(fifo)
    with socket.socket(socket.AF_UNIX) as listener:
        listener.bind(str(bound))
        others = [linked, dangling, folder, fifo, bound, "/dev/null", "/dev/zero"]
        for path in [folder / "missing", *others, folder / "none" / "anna.mbox", ""]:
            refused(path, to, f"cannot read {path}")
    second.hardlink_to(file)
    refused(file, to, f"cannot read {file}")
    equal(sorted(it.name for it in folder.iterdir()), ["anna.mbox", "dangling", "fifo", "linked", "second", "socket"])


@case
def others_hold_a_lock(folder):
    """another program has a lock for longer than 10 seconds: in use, and nothing is made; one that lets go after two is
    waited for"""
    for number, hold in enumerate([bytes_held, name_held, both_held]):
        place = folder / str(number)
        place.mkdir()
        file, to = made(place), place / "copy"
        with hold(file):
            began = time.monotonic()
            equal(copy(file, to), (1, f"lmtpd: {file} in use\n"))
            took = time.monotonic() - began
            equal((WAIT * 0.9 < took < WAIT + 3, to.exists()), (True, False))
        with contextlib.ExitStack() as held:
            held.enter_context(hold(file))
            copying = start(file, to)
            time.sleep(2)
            equal(copying.poll(), None)
            held.close()
            equal((copying.communicate(timeout=5), copying.returncode), (("", ""), 0))
        equal((to.read_bytes(), lock_of(file).exists()), (LETTER, False))


@case
def no_room(folder):
    """the disk is full, by a limit on a file's size: device fault, and nothing is left of the copy"""
    file, to = made(folder, LETTER * 40_000), folder / "copy"

    def limit():
        signal.signal(signal.SIGXFSZ, signal.SIG_IGN)
        resource.setrlimit(resource.RLIMIT_FSIZE, (1_000_000, 1_000_000))

    refused(file, to, "device fault", preexec_fn=limit)
    equal([it.name for it in folder.iterdir()], ["anna.mbox"])


@case
def a_call_fails(folder):
    """each call on the copy fails in turn: cannot make, or device fault, and nothing is left of it"""
    library, said = built(folder), []
    for number in range(1, 100):
        place = folder / str(number)
        place.mkdir()
        file, to, told = made(place, LETTER * 3_000), place / "copy", place / "told"
        given = {"LD_PRELOAD": library, "FAIL_FILE": "/copy", "FAIL_CALL": str(number), "FAIL_TOLD": str(told)}
        status, errors = copy(file, to, env={**os.environ, **given})
        if not told.exists():
            equal((status, errors, to.read_bytes() == LETTER * 3_000), (0, "", True))
            break
        if (status, errors) == (0, ""):
            raise AssertionError(f"call {number} failed, and yet it was copied")
        equal((status, to.exists(), lock_of(file).exists()), (1, False, False))
        said.append(errors.removeprefix("lmtpd: ").removesuffix(f" {to}\n").strip())
    equal((said[0], set(said[1:])), ("cannot make", {"device fault"}))


@case
def others_wait(folder):
    """while a copy goes on both locks are held, and mail for the mailbox is told 451; once the copy was killed, mail is
    taken again"""
    library, to, cut = folder / "stop.so", folder / "copy", folder / "copy.cut"
    subprocess.run(["cc", "-O2", "-shared", "-fPIC", "-o", library, STOPPING], check=True)
    with Server(folder, ["anna"], 3, "--lock-wait", 0) as server:
        file = server.mailbox("anna")
        equal(deliver_one(server.address, ["anna"], "hello"), [stored("anna")])
        before = file.read_bytes()
        cut.write_text("20")
        copying = start(file, to, env={**os.environ, "LD_PRELOAD": str(library)})
        try:
            while cut.exists():
                time.sleep(0.01)
            equal((lock_of(file).exists(), is_locked(file)), (True, True))
            equal(deliver_one(server.address, ["anna"], "hello"), [not_stored("anna")])
            equal((copying.poll(), file.read_bytes()), (None, before))
        finally:
            copying.kill()
            copying.communicate()
        equal(deliver_one(server.address, ["anna"], "hello"), [stored("anna")])
        equal(vars(server.end()), {"status": 0, "said": ["anna stored 2"], "errors": ["lmtpd: anna in use 1"]})
    equal(to.read_bytes(), before[:20])
    equal(letters.messages(file), [b"hello\n"] * 2)


def is_locked(path):
    """Whether another program has the bytes locked."""
    with path.open("r+b") as file:
        try:
            fcntl.lockf(file, fcntl.LOCK_EX | fcntl.LOCK_NB)
        except OSError:
            return True
    return False


@case
def another_owner(folder):
    """root copies a mailbox that is another's: the copy is root's alone, and the mailbox stays its owner's"""
    if os.geteuid():
        raise Absent("root")
    file, to = made(folder), folder / "copy"
    os.chown(file, NOBODY, NOBODY)
    file.chmod(0o660)
    equal(copy(file, to), (0, ""))
    equal((to.read_bytes(), to.stat().st_uid, to.stat().st_mode & 0o7777), (LETTER, 0, 0o600))
    equal((file.stat().st_uid, file.stat().st_mode & 0o7777, file.read_bytes()), (NOBODY, 0o660, LETTER))
    equal(sorted(it.name for it in folder.iterdir()), ["anna.mbox", "copy"])


@case
def no_right(folder):
    """a user who may not write the copy's folder: cannot make; nor the mailbox: cannot read; nor its folder, where the
    lock file is to be: in use, at once"""
    if os.geteuid():
        raise Absent("root")
    program = folder / "lmtpd"
    program.write_bytes(pathlib.Path(os.environ["LMTPD"]).read_bytes())
    program.chmod(0o755)
    folder.chmod(0o755)
    own, closed = folder / "own", folder / "closed"
    own.mkdir()
    closed.mkdir()
    os.chown(own, NOBODY, NOBODY)
    file, shut = made(own), made(closed)
    os.chown(file, NOBODY, NOBODY)
    os.chown(shut, NOBODY, NOBODY)

    def as_nobody(path, to):
        began = time.monotonic()
        words = [program, "copy", path, to]
        done = subprocess.run(words, user=NOBODY, group=NOBODY, extra_groups=[], capture_output=True, text=True, timeout=30)
        equal(time.monotonic() - began < WAIT / 2, True)
        return done.returncode, done.stdout, done.stderr

    equal(as_nobody(file, closed / "copy"), (1, "", f"lmtpd: cannot make {closed / 'copy'}\n"))
    equal(as_nobody(shut, own / "copy"), (1, "", f"lmtpd: {shut} in use\n"))
    equal(as_nobody(file, own / "copy"), (0, "", ""))
    file.chmod(0o440)
    equal(as_nobody(file, own / "other"), (1, "", f"lmtpd: cannot read {file}\n"))
    equal(sorted(it.name for it in own.iterdir()), ["anna.mbox", "copy"])
    equal([it.name for it in closed.iterdir()], ["anna.mbox"])


others_hold_a_lock.seconds = 120

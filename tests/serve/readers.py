"""Others lock a mailbox while the server delivers, and leave lock files behind."""

import concurrent.futures
import contextlib
import ctypes
import fcntl
import os
import pathlib
import socket
import subprocess
import sys
import time

import letters
from cases import Absent, case, equal
from clients import Client
from replies import not_stored, over_quota, stored
from server import Server

WAIT = 2  # seconds, as --lock-wait says it
AT_ONCE = 1  # fewer seconds than this
HOST = socket.gethostname()
NOBODY = 65534
NEW_MOUNTS, RECURSIVE, PRIVATE = 0x20000, 0x4000, 0x40000  # of unshare(2) and mount(2)


@contextlib.contextmanager
def bytes_held(path):
    """The range lock that Dovecot and mutt take to read and to write. A mailbox is made that has had no letter yet."""
    with open(path, "r+b", opener=made_where_missing) as file:
        fcntl.lockf(file, fcntl.LOCK_EX)
        yield file


def made_where_missing(path, flags):
    return os.open(path, flags | os.O_CREAT, 0o600)


@contextlib.contextmanager
def name_held(path):
    """The lock file that procmail's `lockfile` and others make."""
    lock = lock_of(path)
    while True:
        with contextlib.suppress(FileExistsError), lock.open("x") as file:
            file.write(f"{os.getpid()}:{HOST}")
            break
        time.sleep(0.01)
    try:
        yield
    finally:
        lock.unlink()


@contextlib.contextmanager
def both_held(path):
    with name_held(path), bytes_held(path) as file:
        yield file


def lock_of(path):
    return path.with_name(f"{path.name}.lock")


def timed(client, names, *lines):
    """The final replies to a letter, and after how many seconds they came."""
    began = time.monotonic()
    finals = client.deliver(names, *lines)[1]
    return finals, time.monotonic() - began


def equal_at_once(client, name, reply):
    finals, took = timed(client, [name], "hello")
    equal((finals, took < AT_ONCE), ([reply], True))


def equal_after_the_wait(client, name):
    finals, took = timed(client, [name], "hello")
    equal((finals, WAIT * 0.9 < took < WAIT + AT_ONCE), ([not_stored(name)], True))


@case
def the_bytes_are_held(folder):
    """a reader has the range lock: 451 after --lock-wait, then at once, the other mailbox undisturbed; 250 once it
    lets go, and within that minute it isn't waited for again"""
    is_held(folder, bytes_held)


@case
def the_name_is_held(folder):
    """a reader has the lock file: 451 after --lock-wait, then at once, the other mailbox undisturbed; 250 once it
    lets go, and within that minute it isn't waited for again"""
    is_held(folder, name_held)


def is_held(folder, hold):
    with Server(folder, ["anna", "ben"], 2, "--lanes", 4, "--lock-wait", WAIT) as server:
        with Client(server.address).greet() as client, concurrent.futures.ThreadPoolExecutor(1) as pool:
            equal_at_once(client, "anna", stored("anna"))
            with hold(server.mailbox("anna")):
                beside = pool.submit(deliver_beside, server.address)
                equal_after_the_wait(client, "anna")
                for _ in range(3):
                    equal_at_once(client, "anna", not_stored("anna"))
                count = beside.result()
            for _ in range(2):
                equal_at_once(client, "anna", stored("anna"))
            with hold(server.mailbox("anna")):
                equal_at_once(client, "anna", not_stored("anna"))
            client.quit()
        said, errors = ["anna stored 3", f"ben stored {count}"], ["lmtpd: anna in use 5"]
        equal(vars(server.end()), {"status": 0, "said": said, "errors": errors})
        equal(letters.messages(server.mailbox("anna")), [b"hello\n"] * 3)
        equal(server.lock_file("anna").exists(), False)


def deliver_beside(address):
    """Delivers to ben for as long as anna's letter waits, each at once: how many."""
    until, count = time.monotonic() + WAIT * 0.8, 0
    with Client(address).greet() as client:
        while time.monotonic() < until:
            equal_at_once(client, "ben", stored("ben"))
            count += 1
        client.quit()
    return count


@case
def it_lets_go_in_time(folder):
    """a reader lets go within --lock-wait: the letter that waited is stored, with either lock"""
    for hold in [bytes_held, name_held]:
        with Server(folder, ["anna"], 1, "--lanes", 1, "--lock-wait", 10) as server:
            with Client(server.address).greet() as client, concurrent.futures.ThreadPoolExecutor(1) as pool:
                with hold(server.mailbox("anna")):
                    waits = pool.submit(timed, client, ["anna"], "hello")
                    time.sleep(1)
                    equal(waits.done(), False)
                finals, took = waits.result()
                equal((finals, 0.9 < took < 1 + AT_ONCE), ([stored("anna")], True))
                client.quit()
            equal(vars(server.end()), {"status": 0, "said": ["anna stored 1"], "errors": []})


@case
def no_wait_at_all(folder):
    """--lock-wait 0: a held mailbox is 451 at once, with either lock, and 250 once it is let go"""
    with Server(folder, ["anna"], 1, "--lanes", 1, "--lock-wait", 0) as server:
        with Client(server.address).greet() as client:
            for hold in [bytes_held, name_held]:
                with hold(server.mailbox("anna")):
                    equal_at_once(client, "anna", not_stored("anna"))
                equal_at_once(client, "anna", stored("anna"))
            client.quit()
        equal(vars(server.end()), {"status": 0, "said": ["anna stored 2"], "errors": ["lmtpd: anna in use 2"]})


@case
def in_use_is_told(folder):
    """mailboxes that were in use: a line for each with its count, in the order of the site, before those over quota;
    the log has a line as the first turn is missed, and one as the mailbox is free again"""
    names = ["ben", "anna", "carla", "dora"]
    for name in ["anna", "ben"]:
        (folder / f"{name}.mbox").write_bytes(b"x" * 998 + b"\n\n")
    more = ["--lanes", 1, "--quota", 1000, "--lock-wait", 0, "--log", "info"]
    with Server(folder, names, 1, *more) as server, Client(server.address).greet() as client:
        with bytes_held(server.mailbox("anna")), name_held(server.mailbox("carla")):
            for to in [["anna", "carla", "dora"], ["anna"], ["anna"]]:
                expected = [not_stored(name) if name in ["anna", "carla"] else stored(name) for name in to]
                equal(client.deliver(to, "hello")[1], expected)
        over = [over_quota(name) for name in ["anna", "ben"]]
        equal(client.deliver(["anna", "ben", "carla"], "hello")[1], [*over, stored("carla")])
        client.quit()
        ended = server.end()
    equal((ended.status, ended.said), (0, ["ben stored 0", "anna stored 0", "carla stored 1", "dora stored 1"]))
    told = [line for line in ended.errors if line.startswith("lmtpd: ")]
    in_use = ["lmtpd: anna in use 3", "lmtpd: carla in use 1"]
    equal((told, ended.errors[-4:]), ([*in_use, "lmtpd: ben over quota 1", "lmtpd: anna over quota 1"], told))
    failed = [line for line in ended.errors if line.startswith("[ERROR ")]
    for name, count in {"anna": 2, "carla": 2, "ben": 0, "dora": 0}.items():
        equal((name, len([line for line in failed if f"mailbox={name}" in line])), (name, count))


def gone_process():
    """The number of a process that has ended."""
    process = subprocess.Popen([sys.executable, "-c", ""])
    process.wait()
    return process.pid


def uptime():
    """How many seconds the machine has been up."""
    return float(pathlib.Path("/proc/uptime").read_text().split()[0])


# What lock files others left, with their age in seconds, and whether they go.
def left_lock_files():
    gone, living, up = f"{gone_process()}:{HOST}", f"{os.getpid()}:{HOST}", uptime()
    return [
        ("a process that is gone", gone, 0, True),
        ("a living process", living, 0, False),
        ("a living process, as old as the machine's boot allows", living, min(400, up - 5), False),
        ("a living process, as liblockfile writes it", f"{os.getpid()}\n", min(400, up - 5), False),
        ("a living process's number, from before the machine's boot", living, max(300, up) + 30, True),
        ("a number above all", f"2147483648:{HOST}", 0, False),
        ("a number above all, old", f"2147483648:{HOST}", 400, True),
        ("leading zeros, old", f"0{os.getpid()}:{HOST}", 400, True),
        ("two numbers, old", f"{os.getpid()} 2", 400, True),
        ("another host's", "1:elsewhere.example", 0, False),
        ("another host's, old", "1:elsewhere.example", 400, True),
        ("another host's, not yet old", "1:elsewhere.example", 200, False),
        ("empty", "", 0, False),
        ("empty, old", "", 400, True),
        ("no number", "anna", 0, False),
        ("no number, old", "anna", 400, True),
    ]


def leave_lock_file(path, text, age):
    path.write_text(text)
    then = time.time() - age
    os.utime(path, (then, then))


@case
def left_lock_files_at_the_start(folder):
    """a lock file that was left goes at the first letter after the start where its process is gone, or where it is old
    and names no living process of this host; else it stays"""
    for number, (name, text, age, is_stale) in enumerate(left_lock_files()):
        place = folder / str(number)
        place.mkdir()
        leave_lock_file(place / "anna.mbox.lock", text, age)
        with Server(place, ["anna"], 1, "--lanes", 1, "--lock-wait", 0) as server:
            deliver_beside_left(name, server, text, is_stale)


@case
def left_lock_files_in_turns(folder):
    """a lock file that is left while the server runs goes in the next turn by the same rule, or costs a 451"""
    for number, (name, text, age, is_stale) in enumerate(left_lock_files()):
        place = folder / str(number)
        place.mkdir()
        with Server(place, ["anna"], 1, "--lanes", 1, "--lock-wait", 1) as server:
            leave_lock_file(server.lock_file("anna"), text, age)
            deliver_beside_left(name, server, text, is_stale)


def deliver_beside_left(name, server, text, is_stale):
    with Client(server.address).greet() as client:
        finals = client.deliver(["anna"], "hello")[1]
        equal((name, finals), (name, [stored("anna") if is_stale else not_stored("anna")]))
        client.quit()
    equal((name, server.lock_file("anna").exists()), (name, not is_stale))
    equal(is_stale or server.lock_file("anna").read_text() == text, True)
    errors = [] if is_stale else ["lmtpd: anna in use 1"]
    equal(vars(server.end()), {"status": 0, "said": [f"anna stored {int(is_stale)}"], "errors": errors})


@case
def its_own_number(folder):
    """a lock file with the server's own number, left by an earlier process, goes at the first letter, and one in a
    later turn"""
    lock = folder / "anna.mbox.lock"

    def leave():  # in the process that becomes the server
        lock.write_text(f"{os.getpid()}:{HOST}")

    with Server(folder, ["anna"], 1, "--lanes", 1, "--lock-wait", 0, preexec_fn=leave) as server:
        with Client(server.address).greet() as client:
            equal_at_once(client, "anna", stored("anna"))
            lock.write_text(f"{server.process.pid}:{HOST}")
            client.deliver(["anna"], "hello")  # it may be the turn that removes it
            equal_at_once(client, "anna", stored("anna"))
            equal(lock.exists(), False)
            client.quit()
        equal(server.end().status, 0)


@case
def another_users(folder):
    """a lock file of another user's process that is gone stays until it is old"""
    if os.geteuid() != 0:
        raise Absent("root")
    with Server(folder, ["anna"], 1, "--lanes", 1, "--lock-wait", 0) as server:
        with Client(server.address).greet() as client:
            for age, reply in [(0, not_stored("anna")), (400, stored("anna"))]:
                leave_lock_file(server.lock_file("anna"), f"{gone_process()}:{HOST}", age)
                os.chown(server.lock_file("anna"), NOBODY, NOBODY)
                client.deliver(["anna"], "hello")  # it may be the turn that removes it
                equal(client.deliver(["anna"], "hello")[1], [reply])
            client.quit()
        equal(server.end().status, 0)


@case
def hidden_processes(folder):
    """a lock file of a living process stays where the server is shown no other user's processes, as systemd has it by
    ProtectProc=invisible; one of a process that is gone goes"""
    if os.geteuid() != 0:
        raise Absent("root")
    folder.chmod(0o777)
    with Server(folder, ["anna"], 1, "--lanes", 1, "--lock-wait", 0, preexec_fn=hide_processes) as server:
        with Client(server.address).greet() as client:
            equal(client.deliver(["anna"], "hello")[1], [stored("anna")])
            for process, age, reply in [
                (os.getpid(), 0, not_stored("anna")),
                (os.getpid(), min(400, uptime() - 5), not_stored("anna")),
                (gone_process(), 0, stored("anna")),
            ]:
                leave_lock_file(server.lock_file("anna"), f"{process}:{HOST}", age)
                os.chown(server.lock_file("anna"), NOBODY, NOBODY)
                equal((process, age, client.deliver(["anna"], "hello")[1]), (process, age, [reply]))
            client.quit()
        equal(server.end().status, 0)


def hide_processes():
    """In the process that becomes the server: a /proc that shows no other user's processes, and a user of its own."""
    system = ctypes.CDLL(None, use_errno=True)
    for is_done in [
        system.unshare(NEW_MOUNTS) == 0,
        system.mount(b"none", b"/", None, RECURSIVE | PRIVATE, None) == 0,
        system.mount(b"proc", b"/proc", b"proc", 0, b"hidepid=invisible") == 0,
    ]:
        if not is_done:
            raise OSError(ctypes.get_errno(), "a /proc of its own")
    os.setgroups([])
    os.setresgid(NOBODY, NOBODY, NOBODY)
    os.setresuid(NOBODY, NOBODY, NOBODY)


@case
def the_lock_file(folder):
    """the lock file names the server's process and host while a letter is written, and is gone as its reply comes"""
    seen = set()
    with Server(folder, ["anna"], 1, "--lanes", 1, "--quota", 1_000_000, "--lock-wait", 0) as server:
        lock = server.lock_file("anna")
        with Client(server.address).greet() as client, concurrent.futures.ThreadPoolExecutor(1) as pool:
            looks = pool.submit(texts_of, lock, 3)
            until = time.monotonic() + 2
            while time.monotonic() < until and not looks.done():
                for lines in [["hello"], ["x" * 500] * 20]:
                    seen.add(client.deliver(["anna"], *lines)[1][0])
                    equal(lock.exists(), False)
            server.mailbox("anna").write_bytes(b"x" * 999_998 + b"\n\n")
            seen.add(client.deliver(["anna"], "hello")[1][0])
            equal(lock.exists(), False)
            with bytes_held(server.mailbox("anna")):
                seen.add(client.deliver(["anna"], "hello")[1][0])
                equal(lock.exists(), False)
            equal(looks.result() - {""}, {f"{server.process.pid}:{HOST}"})
            client.quit()
        equal(seen, {stored("anna"), over_quota("anna"), not_stored("anna")})
        equal(server.end().status, 0)


def texts_of(path, seconds):
    """What a file had in it, looked at until it had something, for some seconds at most."""
    until, found = time.monotonic() + seconds, set()
    while time.monotonic() < until and not found - {""}:
        with contextlib.suppress(FileNotFoundError):
            found.add(path.read_text())
    return found

"""The server over a Unix socket, and over a socket that it was started with."""

import contextlib
import fcntl
import os
import re
import shutil
import socket
import stat
import subprocess
import time

import letters
from cases import Absent, case, equal
from clients import Client, connected, deliver_one
from failing import MOST_CALLS, built, environment
from inherited import Inheriting, handed, passed
from replies import CLOSING, stored
from server import Server, run, words

STORED = stored("anna")
REFUSED = {"status": 1, "said": [], "errors": ["lmtpd: cannot listen"]}
NO_ADDRESS = {"status": 2, "said": [], "errors": ["lmtpd: bad address"]}
MODE = "--socket-mode"


def unix_server(folder, path, connections, *more, **how):
    return Server(folder, ["anna"], connections, "--lanes", 1, *more, listen=f"unix:{path}", **how)


def mode_of(path):
    found = path.lstat().st_mode
    assert stat.S_ISSOCK(found), oct(found)
    return stat.S_IMODE(found)


def stale_socket(path):
    """A socket's file to which nobody listens."""
    with socket.socket(socket.AF_UNIX) as made:
        made.bind(str(path))


def try_at(folder, listen, *more):
    return vars(run(words(folder, ["anna"], 1, "--lanes", 1, *more, listen=listen)))


@case
def over_a_unix_socket(folder):
    """over a Unix socket a letter is stored, the log calls the client unix, and the socket's file goes at the end"""
    path = folder / "sock"
    with unix_server(folder, path, 1, "--log", "info") as server:
        equal(server.first, f"listening on unix:{path}\n")
        equal(deliver_one(path, ["anna"], "hello"), [STORED])
        ended = server.end()
    equal((ended.status, ended.said, len(ended.errors)), (0, ["anna stored 1"], 2))
    assert " client=unix cause=quit " in ended.errors[-1], ended.errors
    equal(letters.messages(server.mailbox("anna")), [b"hello\n"])
    equal(path.exists(), False)


@case
def the_file_has_its_mode(folder):
    """whatever the umask, a Unix socket's file has the mode that is asked for, 660 where none is, once it is said"""
    path = folder / "sock"
    for umask in 0o000, 0o022, 0o077, 0o777:
        for more, mode in [([], 0o660), ([MODE, "666"], 0o666), ([MODE, "600"], 0o600), ([MODE, "770"], 0o770)]:
            with unix_server(folder, path, 1, *more, umask=umask):
                equal((umask, more, mode_of(path)), (umask, more, mode))
            path.unlink()


@case
def never_a_wider_mode(folder):
    """a Unix socket has its mode before it has its file, and the file the very mode before it listens, by strace"""
    path, log = folder / "sock", folder / "calls"
    if shutil.which("strace") is None:
        raise Absent("strace")
    given = words(folder, ["anna"], 1, "--lanes", 1, MODE, 606, listen=f"unix:{path}")
    traced = "trace=socket,fchmod,bind,chmod,listen,write"
    command = ["strace", "-f", "-qq", "-o", str(log), "-e", traced, os.environ["LMTPD"], *given]
    umask = 0o027
    process = subprocess.Popen(command, stdout=subprocess.PIPE, text=True, umask=umask)
    try:
        equal(process.stdout.readline(), f"listening on unix:{path}\n")
        equal((mode_of(path), deliver_one(path, ["anna"], "hello")), (0o606, [STORED]))
        process.wait(20)
    finally:
        process.kill()
        process.communicate()
    calls = log.read_text()
    made = re.search(r"bind\((\d+), \{sa_family=AF_UNIX", calls).group(1)
    steps = [
        rf"fchmod\({made}, 0606\) += 0",
        rf"bind\({made}, ",
        r'chmod\("' + re.escape(str(path)) + r'", 0606\) += 0',
        rf"listen\({made}, ",
        r"write\(1, ",
    ]
    places = [re.search(step, calls) for step in steps]
    assert all(places), calls
    starts = [found.start() for found in places]
    equal(starts, sorted(starts))


@case
def a_stale_socket_is_replaced(folder):
    """the socket's file of a server that was killed is replaced, one that answers stays and the second is refused"""
    path = folder / "sock"
    with unix_server(folder, path, 1):
        pass
    equal(mode_of(path), 0o660)
    stale = path.stat().st_mtime_ns
    with unix_server(folder, path, 2) as server:
        equal(path.stat().st_mtime_ns > stale, True)
        equal(try_at(folder, f"unix:{path}"), REFUSED)
        equal(deliver_one(path, ["anna"], "hello"), [STORED])
        equal(server.end().status, 0)
    equal(path.exists(), False)


@case
def no_other_file_is_replaced(folder):
    """where a plain file, a folder, a FIFO or a symbolic link is, also one to a stale socket, a server is refused"""
    other = folder / "other"
    stale_socket(other)
    makers = {
        "file": lambda path: path.write_bytes(b"kept"),
        "folder": lambda path: path.mkdir(),
        "fifo": os.mkfifo,
        "link": lambda path: path.symlink_to(other),
        "dangling": lambda path: path.symlink_to(folder / "nothing"),
        "looped": lambda path: path.symlink_to(path),
    }
    for name, make in makers.items():
        path = folder / name
        make(path)
        before = path.lstat()
        equal((name, try_at(folder, f"unix:{path}")), (name, REFUSED))
        after = path.lstat()
        equal((name, after.st_ino, after.st_mode), (name, before.st_ino, before.st_mode))
    equal(((folder / "file").read_bytes(), (folder / "nothing").exists()), (b"kept", False))
    equal(mode_of(other) & 0o7000, 0)


@case
def a_link_to_a_socket_that_answers(folder):
    """where a symbolic link to another server's socket is, a server is refused: the link stays, and the other serves"""
    path, link = folder / "sock", folder / "link"
    link.symlink_to(path)
    # that somebody listens may be found by connecting, which counts as a conversation
    with unix_server(folder, path, 100):
        equal(try_at(folder, f"unix:{link}"), REFUSED)
        equal((link.is_symlink(), mode_of(path)), (True, 0o660))
        equal(deliver_one(path, ["anna"], "hello"), [STORED])


@case
def no_device_is_replaced(folder):
    """where a device is, a server is refused, and the device stays; so it is where a mailbox's file would be"""
    if os.geteuid() != 0:
        raise Absent("root")
    numbers = os.stat("/dev/null").st_rdev
    for path in [folder / "null", folder / "anna.mbox"]:
        os.mknod(path, stat.S_IFCHR | 0o666, numbers)
    equal(vars(run(words(folder, ["anna"], 1))), {"status": 1, "said": [], "errors": ["lmtpd: cannot open anna.mbox"]})
    place = folder / "mail"
    place.mkdir()
    equal(try_at(place, f"unix:{folder}/null"), REFUSED)
    for path in [folder / "null", folder / "anna.mbox"]:
        found = path.lstat()
        equal((stat.S_ISCHR(found.st_mode), found.st_rdev), (True, numbers))


@case
def no_folder_no_socket(folder):
    """a path in a folder that isn't there, or below a plain file or a FIFO, is refused at once"""
    (folder / "file").write_bytes(b"")
    os.mkfifo(folder / "fifo")
    for path in [folder / "missing/sock", folder / "file/sock", folder / "fifo/sock", f"{folder}/"]:
        equal((path, try_at(folder, f"unix:{path}")), (path, REFUSED))


@case
def paths_of_108_bytes(folder):
    """a socket's path may have 107 bytes, and one of 108 is no address, nor is an empty one"""
    path = "s" * 107
    with unix_server(folder, path, 1, cwd=folder) as server:
        equal(server.first, f"listening on unix:{path}\n")
        equal(mode_of(folder / path), 0o660)
    for text in ["unix:" + "s" * 108, "unix:", "unix", "UNIX:sock", "inherited:", "Inherited"]:
        equal((text, try_at(folder, text)), (text, NO_ADDRESS))


@case
def many_at_once(folder):
    """of eight servers that start at once over one stale socket just one listens there, and it is reached"""
    path = folder / "sock"
    for _ in range(3):
        stale_socket(path)
        places = [folder / str(number) for number in range(8)]
        for place in places:
            place.mkdir(exist_ok=True)
        given = [words(place, ["anna"], 100, "--lanes", 1, listen=f"unix:{path}") for place in places]
        with contextlib.ExitStack() as ends:
            started = [subprocess.Popen([os.environ["LMTPD"], *one], stdout=subprocess.PIPE, text=True,
                                        stderr=subprocess.DEVNULL) for one in given]
            for process in started:
                ends.callback(process.communicate)
                ends.callback(process.kill)
            told = [process.stdout.readline() for process in started]
            equal(sorted(told), [""] * 7 + [f"listening on unix:{path}\n"])
            equal(deliver_one(path, ["anna"], "hello"), [STORED])
        path.unlink()


@case
def a_folder_that_anybody_locked(folder):
    """a lock on its folder, which any user may take who can read that, holds no server back that listens there"""
    path = folder / "sock"
    held = os.open(folder, os.O_RDONLY)
    try:
        fcntl.flock(held, fcntl.LOCK_EX)
        with unix_server(folder, path, 1) as server:
            equal(server.first, f"listening on unix:{path}\n")
            equal(deliver_one(path, ["anna"], "hello"), [STORED])
            equal(server.end().status, 0)
    finally:
        os.close(held)
    equal(path.exists(), False)


@case
def its_lock_is_its_owners_alone(folder):
    """a Unix socket's lock has the mode 600 whatever the umask, and stays; one that others may hold is refused"""
    path, lock, other = folder / "sock", folder / "sock.lock", folder / "other"
    for umask in 0o000, 0o777:
        lock.unlink(missing_ok=True)
        with unix_server(folder, path, 1, umask=umask) as server:
            equal(deliver_one(path, ["anna"], "hello"), [STORED])
            equal(server.end().status, 0)
        found = lock.lstat()
        equal((stat.S_ISREG(found.st_mode), stat.S_IMODE(found.st_mode), found.st_size), (True, 0o600, 0))
    lock.chmod(0o640)
    equal(try_at(folder, f"unix:{path}"), REFUSED)
    lock.unlink()
    lock.symlink_to(other)
    equal(try_at(folder, f"unix:{path}"), REFUSED)
    equal((other.exists(), path.exists()), (False, False))
    lock.unlink()
    os.mkfifo(lock, 0o600)
    equal(try_at(folder, f"unix:{path}"), REFUSED)


@case
def only_the_own_file_goes(folder):
    """at its end a server leaves a socket that another program made in its place"""
    path = folder / "sock"
    with unix_server(folder, path, 1) as server, contextlib.ExitStack() as ends:
        client = ends.enter_context(Client(path)).greet()
        path.unlink()
        stale_socket(path)
        other = path.stat().st_ino
        equal(client.quit(), CLOSING)
        equal(server.end().status, 0)
    equal(path.stat().st_ino, other)


@case
def a_start_that_fails_leaves_no_file(folder):
    """each call on a Unix socket fails in turn: a server that says so leaves no file, one that listens removes it"""
    library, path, stop = built(folder), folder / "sock", folder / "stop"
    seen = set()
    for number in range(1, MOST_CALLS):
        told = folder / "told"
        given = {"LD_PRELOAD": library, "FAIL_SOCKETS": 1, "FAIL_CALL": number, "FAIL_TOLD": told}
        with environment({name: str(value) for name, value in given.items()}):
            server = unix_server(folder, path, 1, "--timeout", 2, "--stop-file", stop)
        with server:
            if server.first:
                with contextlib.suppress(OSError, AssertionError):
                    deliver_one(path, ["anna"], "hello")
                seen.add("served")
                # a client whose stream took no time is no conversation
                stop.touch()
                server.end()
                stop.unlink()
            else:
                equal(vars(server.end()), REFUSED)
                seen.add("refused")
        equal((number, path.exists()), (number, False))
        if not told.exists():
            equal(seen, {"served", "refused"})
            return
        told.unlink()
    raise AssertionError(f"no end after {MOST_CALLS} calls")


@case
def a_socket_that_was_passed(folder):
    """a socket of TCP that was passed is served, also one that doesn't block, and is closed where a program starts"""
    for blocks in True, False:
        with passed() as listener:
            listener.setblocking(blocks)
            with Inheriting(folder, listener) as server:
                equal(server.address, listener.getsockname())
                [(_, flags)] = server.descriptors()
                equal(flags & (os.O_CLOEXEC | os.O_NONBLOCK), os.O_CLOEXEC)
                time.sleep(1.2)
                equal(deliver_one(server.address, ["anna"], "hello"), [STORED])
                ended = server.end()
        equal((ended.status, ended.said, ended.errors), (0, ["anna stored 1"], []))
    equal(letters.messages(folder / "anna.mbox"), [b"hello\n"] * 2)


@case
def a_unix_socket_that_was_passed(folder):
    """a Unix socket that was passed is served, and its file stays as it is"""
    path = folder / "sock"
    with passed(socket.AF_UNIX, str(path)) as listener:
        path.chmod(0o612)
        with Inheriting(folder, listener, MODE, 600) as server:
            equal(server.first, f"listening on unix:{path}\n")
            equal(deliver_one(path, ["anna"], "hello"), [STORED])
            equal(server.end().status, 0)
        equal(mode_of(path), 0o612)
    name = f"\0lmtpd_{os.getpid()}"
    with passed(socket.AF_UNIX, name) as listener, Inheriting(folder, listener) as server:
        equal(server.first, f"listening on unix:@{name[1:]}\n")
        equal(deliver_one(name, ["anna"], "hello"), [STORED])
        equal(server.end().status, 0)


def refused(folder, handed_on, **told):
    given = words(folder, ["anna"], 1, "--lanes", 1, listen="inherited")
    descriptor = handed_on.fileno()
    process = subprocess.run(handed(given, descriptor, **told), stdin=subprocess.DEVNULL, capture_output=True,
                             text=True, pass_fds=[descriptor], timeout=20, check=False)
    return {"status": process.returncode, "said": process.stdout.splitlines(), "errors": process.stderr.splitlines()}


@case
def what_is_not_passed(folder):
    """no socket is taken that is for another process or one of two, none that doesn't listen, and none where none is"""
    equal(try_at(folder, "inherited"), REFUSED)
    with passed() as listener:
        for told in {"process": 1}, {"process": ""}, {"count": 0}, {"count": 2}, {"count": ""}, {"count": "x"}:
            equal((told, refused(folder, listener, **told)), (told, REFUSED))
        with connected(listener.getsockname()) as client, listener.accept()[0] as accepted:
            equal(refused(folder, client), REFUSED)
            equal(refused(folder, accepted), REFUSED)
        equal(deliver_by(folder, listener), [STORED])
    with passed(listens=False) as bound:
        equal(refused(folder, bound), REFUSED)
    with passed(socket.AF_UNIX, str(folder / "bound"), listens=False) as bound:
        equal(refused(folder, bound), REFUSED)
    with socket.socket(socket.AF_INET, socket.SOCK_DGRAM) as datagrams:
        equal(refused(folder, datagrams), REFUSED)
    with open("/dev/null", "rb") as file:
        equal(refused(folder, file), REFUSED)
    reading, writing = os.pipe()
    with open(reading, "rb") as pipe, open(writing, "wb"):
        equal(refused(folder, pipe), REFUSED)


def deliver_by(folder, listener):
    """The socket serves still, whatever it was handed to before."""
    with Inheriting(folder, listener) as server:
        finals = deliver_one(server.address, ["anna"], "hello")
        equal(server.end().status, 0)
    return finals


@case
def port_25_that_was_passed(folder):
    """a socket that was passed on port 25 is refused as one that is asked for there"""
    try:
        with passed(at=("127.0.0.1", 25)) as listener:
            equal(refused(folder, listener), {"status": 2, "said": [], "errors": ["lmtpd: port 25"]})
    except PermissionError as fault:
        raise Absent("a port below 1024") from fault

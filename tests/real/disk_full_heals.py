"""The service as it is installed, with a mailbox on a file system of its own, of fixed size, that is full for a minute,
and with all of them on one in which no lock file has room."""

import concurrent.futures
import contextlib
import os
import pathlib
import statistics
import subprocess
import threading
import time

import letters
from cases import Absent, case, equal
from clients import deliver_one
from in_a_machine import installed
from packages import program
from replies import not_stored, stored

STORED, NOT_STORED = stored("anna"), not_stored("anna")
MAIL = "/var/mail/lmtpd"
OWN = "/mnt/anna"
SOCKET = "/var/spool/postfix/private/lmtpd"
SIZE = 16 * 1024 * 1024
BLOCK = 4096
# A part of a record of these lines has room there.
LEFT = 4 * BLOCK
LINES = ["x" * 70] * 600
FULL_SECONDS = 60
BESIDE = ["ben", "carla"]
# How much longer a letter for another mailbox may take while the disk is full, in seconds: in the middle, and at most.
MIDDLE_MORE = 0.01
LONGEST_MORE = 0.5


@case
def tmpfs_with_room_for_a_part(folder):
    """systemd, a mailbox on a tmpfs of its own in which a part of a record has room, for a minute: 451 for it alone,
    the others wait no longer, and with room the first copy is told 250 by the same process; each letter once and
    whole"""
    with service(folder) as there, on_tmpfs(there, OWN), its_own(there):
        is_full_for_a_while(there, LEFT)


@case
def tmpfs_without_room(folder):
    """systemd, a mailbox on a tmpfs of its own without room, for a minute: 451 for it alone, the others wait no longer,
    and with room the first copy is told 250 by the same process; each letter once and whole"""
    with service(folder) as there, on_tmpfs(there, OWN), its_own(there):
        is_full_for_a_while(there, 0)


@case
def ext4_with_room_for_a_part(folder):
    """systemd, a mailbox on an ext4 of its own in which a part of a record has room, for a minute: 451 for it alone,
    the others wait no longer, and with room the first copy is told 250 by the same process; each letter once and
    whole"""
    with service(folder) as there, on_ext4(there, folder / "disk", OWN), its_own(there):
        is_full_for_a_while(there, LEFT)


@case
def ext4_without_room(folder):
    """systemd, a mailbox on an ext4 of its own without room, for a minute: 451 for it alone, the others wait no longer,
    and with room the first copy is told 250 by the same process; each letter once and whole"""
    with service(folder) as there, on_ext4(there, folder / "disk", OWN), its_own(there):
        is_full_for_a_while(there, 0)


@case
def tmpfs_without_room_for_the_lock_file(folder):
    """systemd, a folder on a full tmpfs where neither lock file nor record has room: 451, and 250 with the first copy
    once there is room; each letter once and whole"""
    with service(folder) as there, on_tmpfs(there, MAIL):
        has_no_room_for_the_lock_file(there)


@case
def ext4_without_room_for_the_lock_file(folder):
    """systemd, a folder on a full ext4 where neither lock file nor record has room: 451, and 250 with the first copy
    once there is room; each letter once and whole"""
    with service(folder) as there, on_ext4(there, folder / "disk", MAIL):
        has_no_room_for_the_lock_file(there)


for one in [tmpfs_with_room_for_a_part, tmpfs_without_room, ext4_with_room_for_a_part, ext4_without_room]:
    one.seconds = 180 + 2 * FULL_SECONDS
for one in [tmpfs_without_room_for_the_lock_file, ext4_without_room_for_the_lock_file]:
    one.seconds = 180


def is_full_for_a_while(there, left):
    """The disk of anna's mailbox alone is filled while the server runs."""
    sender, disk = Sender(there), there.root / OWN.lstrip("/")
    before = waits_beside(there, lambda: sender.hears_250(FULL_SECONDS))
    process = process_of(there)
    fill(disk, left)
    meanwhile = waits_beside(there, lambda: sender.hears_451(FULL_SECONDS))
    make_room(disk)
    sender.hears_250(3)
    equal(process_of(there), process)
    print(f"{sender.refused} tries told 451; beside it {of_waits(before)} before, {of_waits(meanwhile)} meanwhile")
    assert statistics.median(meanwhile) < statistics.median(before) + MIDDLE_MORE, (before, meanwhile)
    assert max(meanwhile) < max(before) + LONGEST_MORE, (before, meanwhile)
    failed = "[ERROR lmtpd] mailbox failed mailbox=anna reason=No space left on device (os error 28)"
    equal(errors_of(there), [failed, "[ERROR lmtpd] mailbox stores again mailbox=anna"])
    sender.found_all()


def waits_beside(there, work):
    """How long each letter for another mailbox took while that was done, in seconds; each is told 250."""
    done = threading.Event()
    with concurrent.futures.ThreadPoolExecutor(len(BESIDE)) as pool:
        jobs = [pool.submit(deliver_until, there, name, done) for name in BESIDE]
        try:
            work()
        finally:
            done.set()
        return [took for job in jobs for took in job.result()]


def deliver_until(there, name, done):
    waits = []
    while not done.is_set():
        since = time.monotonic()
        equal(deliver_one(there.socket, [name], "hello"), [stored(name)])
        waits.append(time.monotonic() - since)
        time.sleep(0.05)
    return waits


def of_waits(waits):
    middle, longest = statistics.median(waits) * 1000, max(waits) * 1000
    return f"{len(waits)} letters of {middle:.1f} ms in the middle, {longest:.1f} at most"


def process_of(there):
    """The server's process, and how often systemd began one again."""
    status, said = there.run("systemctl show -p MainPID -p NRestarts lmtpd")
    equal((status, "MainPID=0\n" in said), (0, False))
    return said


def has_no_room_for_the_lock_file(there):
    """The disk is filled while no server runs, so that nothing is there that lock files are linked from."""
    sender = Sender(there)
    sender.hears_250(3)
    stop_in_order(there)
    fill(there.mail, 0)
    makes_no_file(there)
    sender.hears_451(10)
    process = process_of(there)
    make_room(there.mail)
    sender.hears_250(3)
    equal(process_of(there), process)
    equal(any(line.startswith("[ERROR lmtpd] mailbox in use mailbox=anna reason=") for line in errors_of(there)), True)
    sender.found_all()


def stop_in_order(there):
    """Once it has gone on for a second: before that a stop ends it by SIGTERM, and what it linked lock files from
    stays, in whose room the next server makes its own."""
    equal(there.run("systemctl start lmtpd")[0], 0)
    equal(there.run("systemctl stop lmtpd")[0], 0)
    equal([path.name for path in there.mail.glob("*.lock")], [])


def makes_no_file(there):
    """The server's user finds no room for a file."""
    status, said = there.run(f"setpriv --reuid lmtpd --regid lmtpd --clear-groups touch {MAIL}/new")
    equal((status, said), (1, f"touch: cannot touch '{MAIL}/new': No space left on device\n"))


class Sender:
    """A client that delivers numbered letters, each until it is told 250."""

    def __init__(self, there):
        self.there = there
        self.told, self.refused = [], 0

    def hears(self):
        """What it is told of the letter whose turn it is."""
        lines = [f"letter {len(self.told)}", *LINES]
        (final,) = deliver_one(self.there.socket, ["anna"], *lines)
        if final == STORED:
            self.told.append("\n".join([*lines, ""]).encode())
        return final

    def hears_250(self, seconds):
        """Delivers a letter each second for that long."""
        self.hears_for(seconds, STORED)

    def hears_451(self, seconds):
        """Tries the same letter each second for that long."""
        before = len(self.told)
        self.refused += self.hears_for(seconds, NOT_STORED)
        equal(len(self.told), before)

    def hears_for(self, seconds, final):
        until, count = time.monotonic() + seconds, 0
        while time.monotonic() < until:
            equal(self.hears(), final)
            count += 1
            time.sleep(1)
        return count

    def found_all(self):
        """What was told 250 is in the mailbox, in its order, each once and whole, and nothing else is."""
        equal(letters.messages(self.there.mail / "anna.mbox") == self.told, True)
        checked = f"{MAIL}/anna.mbox letters {len(self.told)}\n"
        equal(self.there.run(f"lmtpd check {MAIL}/anna.mbox"), (0, checked))


@contextlib.contextmanager
def service(folder):
    """The installed service; nothing listens yet."""
    with installed(folder) as there:
        there.root = pathlib.Path(f"/proc/{there.first()}/root")
        there.mail, there.socket = there.root / MAIL.lstrip("/"), there.root / SOCKET.lstrip("/")
        yield there


@contextlib.contextmanager
def its_own(there):
    """Anna's mailbox is a file of that file system, and the others aren't; a client may come."""
    place, made = f"{MAIL}/anna.mbox", f"{OWN}/anna.mbox"
    for line in [
        f"for name in {' '.join(BESIDE)}; do grep -qx $name /etc/lmtpd.boxes || echo $name >> /etc/lmtpd.boxes; done",
        f"setpriv --reuid lmtpd --regid lmtpd --clear-groups sh -c 'umask 077; touch {place} {made}'",
        f"mount --bind {made} {place}",
        "systemctl start lmtpd.socket",
    ]:
        equal((line, *there.run(line)), (line, 0, ""))
    yield
    equal(there.run(f"systemctl stop lmtpd.socket lmtpd; umount {place}"), (0, ""))


@contextlib.contextmanager
def on_tmpfs(there, place):
    mount(there, f"-t tmpfs -o size={SIZE},nr_inodes=64 none", place)
    yield


@contextlib.contextmanager
def on_ext4(there, disk, place):
    """On a disk that is a file."""
    with disk.open("wb") as file:
        file.truncate(SIZE)
    words = ["-q", "-F", "-b", BLOCK, "-m", 0, "-N", 64]
    subprocess.run([program("mkfs.ext4", "e2fsprogs"), *map(str, words), disk], check=True)
    looped = subprocess.run(["losetup", "--find", "--show", disk], capture_output=True, text=True)
    if looped.returncode != 0:
        raise Absent(f"no file system can be mounted over a file: {looped.stderr.strip()}")
    device = looped.stdout.strip()
    try:
        number = os.stat(device).st_rdev
        equal(there.run(f"mknod {device} b {os.major(number)} {os.minor(number)}"), (0, ""))
        mount(there, device, place)
        yield
        equal(there.run(f"systemctl stop lmtpd.socket lmtpd; umount {place}"), (0, ""))
    finally:
        subprocess.run(["losetup", "--detach", device], check=True)


def mount(there, words, place):
    status, said = there.run(f"mkdir -p {place}; mount {words} {place} && chown lmtpd: {place} && chmod 700 {place}")
    if status != 0:
        raise Absent(f"no file system can be mounted there: {said}")
    if place == MAIL:
        equal(there.run("systemctl start lmtpd.socket"), (0, ""))


def fill(place, left):
    """Leaves that many bytes of room, and with 0 no file can be made."""
    # a long file may need a block to say where its blocks are, which a short one doesn't
    with (place / "filler").open("wb", buffering=0) as file, (place / "filler_short").open("wb", buffering=0) as short:
        while room(place) > 0:
            for one in file, short:
                with contextlib.suppress(OSError):
                    while True:
                        one.write(b"x" * BLOCK)
                os.fsync(one)
        file.truncate(os.fstat(file.fileno()).st_size - left)
        os.fsync(file)
    for number in range(0 if left else 1000):
        try:
            (place / f"filler{number}").touch()
        except OSError:
            break
    equal(room(place), left)


def room(place):
    found = os.statvfs(place)
    return found.f_bavail * found.f_frsize


def make_room(place):
    for path in place.glob("filler*"):
        path.unlink()


def errors_of(there):
    """What the journal has of the service as errors, and as good news after these."""
    return there.run("journalctl -u lmtpd -p notice -o cat --no-pager")[1].splitlines()

"""What a disk holds of the mailboxes when the power goes."""

import contextlib
import os
import pathlib
import random
import re
import shutil
import signal
import subprocess
import time

from cases import Absent, case, equal
from clients import deliver_one
from killed_under_load import BOXES, under_load
from packages import program, need_root
from replies import stored
from server import Server
from told_letters import judge

ROUNDS = 20
LIBRARY = pathlib.Path(__file__).parent / "late_sync.c"
MOST_SECONDS = 20  # until each mailbox has a letter of this round, and until a server stands still
SIZE = 64 * 1024 * 1024
XFS_SIZE = 320 * 1024 * 1024  # mkfs.xfs makes none below 300 MiB


@case
def power_cut(folder):
    """the power goes twenty times: git, Python and Dovecot find each letter that was told 250, once and whole, in what
    the disk had been given by then and the next server went on with, at once, whatever lock files were left; the last
    one that was told before a cut begins with its lines, and each other one is unchanged"""
    need_root()
    return cut(folder, SIZE, program("mkfs.ext4", "e2fsprogs"), "-q", "-F", "-b", "4096")


@case
def power_cut_on_xfs(folder):
    """the power goes twenty times, on xfs"""
    need_root()
    return cut(folder, XFS_SIZE, program("mkfs.xfs", "xfsprogs"), "-q", "-f")


power_cut.seconds = power_cut_on_xfs.seconds = 480


def cut(folder, size, *formatting):
    """Says which letters gained lines, and where NULs stand in what the cuts left."""
    chance = random.Random(2)
    told = {name: [] for name in BOXES}
    first_after, zeros = [], []
    disk, copy = folder / "disk", folder / "copy"
    late = dict(os.environ, LD_PRELOAD=str(made_library(folder)))
    with disk.open("wb") as file:
        file.truncate(size)
    subprocess.run([*formatting, disk], check=True)
    for number in range(ROUNDS):
        with mounted(disk, folder / "mail") as mail:
            before = {name: len(held) for name, held in held_in(mail).items()}
            run_until_the_cut(mail, disk, copy, told, number, chance.uniform(0.1, 0.4), late)
        # what was written to the files and not to the disk is gone
        copy.rename(disk)
        with mounted(disk, folder / "mail") as mail:
            equal([lock.name for lock in mail.glob("*.lock") if not lock.stat().st_size], [])
            zeros += [place for name, held in held_in(mail).items() for place in zeros_in(held, before[name])]
            first_after.append(deliver_after(mail, told, number))
            gained = judge(held_in(mail), told, first_after)
    return f"{sum(map(len, gained.values()))} letters gained lines; NULs: {', '.join(zeros) or 'none'}"


def made_library(folder):
    if shutil.which("cc") is None:
        raise Absent("cc")
    subprocess.run(["cc", "-O2", "-shared", "-fPIC", "-o", folder / "late_sync.so", LIBRARY], check=True)
    return folder / "late_sync.so"


def held_in(mail):
    paths = {name: mail / f"{name}.mbox" for name in BOXES}
    return {name: path.read_bytes() if path.exists() else b"" for name, path in paths.items()}


def zeros_in(held, begin):
    """Where NULs stand from that place on, and how many bytes follow them."""
    for found in re.finditer(rb"\0+", held[begin:]):
        first, end = found.start() + begin, found.end() + begin
        yield f"{first} to {end} and {len(held) - end} more"


def run_until_the_cut(mail, disk, copy, told, load, seconds, environment):
    """Clients deliver until each mailbox has a letter, and then for that long; then the copy is what the disk has been
    given."""
    before = {name: len(told[name]) for name in BOXES}
    with Server(mail, BOXES, 1000, env=environment) as server, under_load(server, told, load):
        until = time.monotonic() + MOST_SECONDS
        while any(len(told[name]) == before[name] for name in BOXES) and time.monotonic() < until:
            time.sleep(0.01)
        time.sleep(seconds)
        stop(server.process)
        shutil.copyfile(disk, copy)
        server.process.kill()
    equal([name for name in BOXES if len(told[name]) == before[name]], [])


def stop(process):
    """Until none of its threads runs or is in a call: what was told then is what the copy has to have."""
    process.send_signal(signal.SIGSTOP)
    until = time.monotonic() + MOST_SECONDS
    while states_of(process) != {"T"}:
        assert time.monotonic() < until, states_of(process)
        time.sleep(0.001)


def states_of(process):
    tasks = pathlib.Path(f"/proc/{process.pid}/task").glob("*/stat")
    return {task.read_text().rpartition(")")[2].split()[0] for task in tasks}


def deliver_after(mail, told, number):
    """A server on what the cut left tells a letter for each mailbox, which it gives."""
    message = b"after %d\n" % number
    with Server(mail, BOXES, 1, "--lanes", 1) as server:
        equal(deliver_one(server.address, BOXES, f"after {number}"), [stored(name) for name in BOXES])
    for name in BOXES:
        told[name].append(message)
    return message


@contextlib.contextmanager
def mounted(disk, path):
    path.mkdir(exist_ok=True)
    if subprocess.run(["mount", "-o", "loop", disk, path], stderr=subprocess.DEVNULL).returncode:
        raise Absent("no file system can be mounted over a file")
    try:
        yield path
    finally:
        subprocess.run(["umount", path], check=True)

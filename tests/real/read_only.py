"""A mailbox on a file system that goes read-only."""

import contextlib
import subprocess

import letters
from cases import Absent, case, equal
from clients import deliver_one
from packages import program, need_root
from power_cut import SIZE, mounted
from replies import not_stored, stored
from server import Server

STORED = [stored("anna"), stored("ben")]


@case
def a_file_system_gone_read_only(folder):
    """a file system goes read-only: its mailbox is told 451, the other 250, also by a server that begins then"""
    need_root()
    disk, mail = folder / "disk", folder / "mail"
    with disk.open("wb") as file:
        file.truncate(SIZE)
    subprocess.run([program("mkfs.ext4", "e2fsprogs"), "-q", "-F", disk], check=True)
    mail.mkdir()
    (mail / "anna.mbox").touch()
    with mounted(disk, folder / "other") as other, in_place_of(mail / "anna.mbox", other / "anna.mbox"):
        with Server(mail, ["anna", "ben"], 100, "--lanes", 2) as server:
            equal(deliver_one(server.address, ["anna", "ben"], "one"), STORED)
            go_read_only(other)
            for text in ["two", "three"]:
                finals = deliver_one(server.address, ["anna", "ben"], text)
                equal(finals, [not_stored("anna"), STORED[1]])
        with Server(mail, ["anna", "ben"], 100) as server:
            equal(deliver_one(server.address, ["anna", "ben"], "then"), [not_stored("anna"), STORED[1]])
    with mounted(disk, folder / "other") as other, in_place_of(mail / "anna.mbox", other / "anna.mbox"):
        with Server(mail, ["anna", "ben"], 100) as server:
            equal(deliver_one(server.address, ["anna", "ben"], "four"), STORED)
            equal(letters.messages(server.mailbox("anna")), [b"one\n", b"four\n"])
            equal(letters.messages(server.mailbox("ben")), [b"one\n", b"two\n", b"three\n", b"then\n", b"four\n"])


@contextlib.contextmanager
def in_place_of(path, other):
    """The path names that other file, which may be on another file system."""
    other.touch()
    subprocess.run(["mount", "--bind", other, path], check=True)
    try:
        yield
    finally:
        subprocess.run(["umount", path], check=True)


def go_read_only(path):
    """As the kernel does after an error of the disk's, with files open that are written to."""
    subprocess.run(["mount", "-o", "remount,abort", path], stderr=subprocess.DEVNULL)
    try:
        (path / "probe").write_bytes(b"x")
    except OSError:
        return
    raise Absent("no file system can be made read-only with files open")

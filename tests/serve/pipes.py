"""A FIFO in a mailbox's place, which nobody writes to: who opens it waits for ever."""

import os
import subprocess

from cases import case, equal

WITHIN = 5  # seconds


def ended(*words):
    """The status and all that is said, or that it goes on."""
    ends = {"stdin": subprocess.DEVNULL, "stdout": subprocess.PIPE, "stderr": subprocess.STDOUT}
    try:
        done = subprocess.run([os.environ["LMTPD"], *map(str, words)], timeout=WITHIN, text=True, **ends)
    except subprocess.TimeoutExpired:
        return f"goes on after {WITHIN} seconds"
    return done.returncode, done.stdout


@case
def a_pipe_is_checked(folder):
    """a FIFO in a mailbox's place: check says that it can't be read, and copy the same, with status 1, and neither
    waits for who writes to it"""
    path = folder / "anna.mbox"
    os.mkfifo(path)
    equal(ended("check", path), (1, f"{path} cannot read\n"))
    equal(ended("copy", path, folder / "copy"), (1, f"lmtpd: cannot read {path}\n"))

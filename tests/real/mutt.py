"""mutt as a user that deletes: a session on a terminal of its own, whose keys are given before it starts."""

import os
import pty
import select
import subprocess
import time

from packages import program

# After five tries of a second mutt asks its user whether the lock file is to be removed; this user says no, which to
# mutt is as if the lock couldn't be had for another cause.
DOTLOCK = """#!/bin/sh
mutt_dotlock "$@"
status=$?
[ "$status" != 3 ] || status=1
exit "$status"
"""
# A mailbox without letters, or one that another program rewrote, has mutt drop the keys that it was given, and it
# waits for others.
DROPS, LEAVE = (b"There are no messages", b"externally modified"), b"x"
SETTINGS = "set delete=yes move=no quit=yes confirmappend=no confirmcreate=no sleep_time=0 record=''"


class Mutt:
    def __init__(self, home, how):
        self.command = program("mutt", "mutt")
        self.setsid = program("setsid", "util-linux")
        self.home, self.how = home, how
        self.dotlock = home / "dotlock"
        self.dotlock.write_text(DOTLOCK)
        self.dotlock.chmod(0o755)
        # it asks for this folder first, where it isn't there
        mails = home / "Mail"
        mails.mkdir()
        self.saved = home / "saved"

    def delete(self, path, pattern, seconds=100):
        """Saves the letters of that pattern elsewhere, deletes them, and leaves: what it saved. Whether they are
        deleted is to be seen: it may not have got its locks."""
        keys = f"<tag-pattern>{pattern}<enter><tag-prefix-cond><save-message>{self.saved}<enter><end-cond>"
        # a user whose first try to write doesn't get its lock tries again
        return self.session(path, keys + "<sync-mailbox>" * 5, seconds)

    def copy(self, path, seconds=20):
        """Copies all letters elsewhere, in their order, and leaves the mailbox as it is: what it copied."""
        keys = f"<tag-pattern>~A<enter><tag-prefix-cond><copy-message>{self.saved}<enter><end-cond>"
        return self.session(path, keys, seconds, "-R", "-e", "set sort=mailbox-order")

    def session(self, path, keys, seconds, *more):
        self.saved.unlink(missing_ok=True)
        given = ["-n", "-F", "/dev/null", "-e", f"{SETTINGS} dotlock_program={self.dotlock} folder={self.home}/Mail"]
        given += [*more, "-e", f"push '{keys}<exit>'", "-f", str(path)]
        environment = {"PATH": os.environ["PATH"], "HOME": str(self.home), "USER": "anna", "TERM": "xterm"}
        main, side = pty.openpty()
        words = [self.setsid, "--ctty", self.command, *given]
        ends = {"stdin": side, "stdout": side, "stderr": side}
        process = subprocess.Popen(words, env=environment | {"LINES": "24", "COLUMNS": "80"}, **ends, **self.how)
        os.close(side)
        try:
            attend(main, seconds)
        finally:
            os.close(main)
            # never killed: it may be writing
            process.terminate()
            process.wait(60)
        return self.saved.read_bytes() if self.saved.exists() else b""


def attend(terminal, seconds):
    """Takes what is said on a terminal until its last program has left it, and has one leave that dropped its keys."""
    until = time.monotonic() + seconds
    said = b""
    while time.monotonic() < until:
        if select.select([terminal], [], [], 0.2)[0]:
            try:
                said = said[-100:] + os.read(terminal, 65_536)
            except OSError:
                return
            if any(text in said for text in DROPS):
                os.write(terminal, LEAVE)
                said = b""

"""A user's lease on his lock file in a folder as Debian's /var/mail, where mutt_dotlock makes that file for him."""

import grp
import os
import subprocess

from cases import case, equal
from leases import hold_leases
from neighbours import ANNA, Senders, Site, done_by, need_undisturbed, seconds_of_letters
from packages import program


@case
def a_lease_by_mutt_dotlock(folder):
    """a folder as /var/mail, root:mail and 2775: a user makes his lock file by mutt_dotlock and holds a lease on it,
    while four clients send him letters and a turn waits for a second: another user's letters go on, 0.1 s in the middle
    and 1 s at most"""
    mutt_dotlock = program("mutt_dotlock", "mutt")
    site = Site(folder, owner=0, group=grp.getgrnam("mail").gr_gid, mode=0o2775)
    with site.serve("--lock-wait", 1) as server:
        lock = server.lock_file("anna")
        words = [mutt_dotlock, "-p", site.mail / "anna.mbox"]
        equal(subprocess.run(words, user=ANNA, group=ANNA, extra_groups=[], timeout=20).returncode, 0)
        with done_by(ANNA, open_and_hold, lock), Senders(server.address, ["anna"]) as senders:
            senders.wait_until_put_off()
            need_undisturbed(seconds_of_letters(server.address, "ben"))


def open_and_hold(lock):
    os.chmod(lock, 0o666)
    yield from hold_leases(lock)


a_lease_by_mutt_dotlock.seconds = 120

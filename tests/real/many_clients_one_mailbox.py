"""So many clients of the installed service at one mailbox that it is hardly ever free, and users who look for a gap
each second."""

import subprocess
import time

from beside import Beside
from cases import case
from in_a_machine import in_a_machine
from mutt import Mutt
from packages import program
from readers_delete import FORMAIL, MUTT, subjects_of

CLIENTS = 64
WITHIN = 60  # seconds


@case
@in_a_machine(*MUTT, *FORMAIL)
def users_get_their_turns(folder):
    """64 clients without a pause at one mailbox: mutt deletes letters, and `lockfile` has its lock, within a minute
    each; nothing is lost"""
    lockfile = program("lockfile", "procmail")
    beside = Beside(folder)
    mutt = Mutt(beside.home, beside.how)
    took = {}

    def by_mutt(who):
        wait_for_load()
        saved = subjects_of(mutt.delete(beside.path, "~m 1-10"))
        gone = beside.look(saved) if saved else []
        if gone:
            end(who)
        return gone

    def by_lockfile(who):
        wait_for_load()
        words = [lockfile, "-1", "-r", str(WITHIN), f"{beside.path}.lock"]
        if subprocess.run(words, **beside.how).returncode == 0:
            subprocess.run(["rm", "-f", f"{beside.path}.lock"], check=True)
            end(who)
        beside.stop.wait(0.5)
        return []

    def wait_for_load():
        while len(beside.told) < 10 * CLIENTS and not beside.stop.is_set():
            time.sleep(0.1)
        begun.append(time.monotonic())

    def end(who):
        took.setdefault(who, time.monotonic() - begun[0])
        if len(took) == 2:
            beside.stop.set()

    begun = []
    ended = beside.run({"mutt": by_mutt, "lockfile": by_lockfile}, clients=CLIENTS, seconds=WITHIN + 20)
    print(", ".join(f"{who} after {seconds:.1f} s" for who, seconds in sorted(took.items())))
    beside.judge(ended, idle=["lockfile"])
    assert len(took) == 2 and max(took.values()) < WITHIN, took


users_get_their_turns.seconds = 300

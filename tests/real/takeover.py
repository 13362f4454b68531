"""The second host of a pair takes over from the first, by the resource agent: both have one file system, of a file of
this machine in the place of a DRBD device, and Pacemaker's part is done by the case."""

import pathlib
import re
import subprocess
import time

from cases import Absent, case, equal
from hosts import HOSTS, RELAY, blocks, site
from packages import need_root, program
from resource_agent import AGENT, DRBD, FENCED, NEEDS

FIRST, SECOND, ADDRESS = 11, 14, "192.0.2.11/24"
MAIL = "/var/mail/lmtpd"
SIZE = 200_000_000  # bytes of the file system
# Pacemaker's configuration is a file.
ACT = f"CIB_file=/root/cib.xml OCF_ROOT=/usr/lib/ocf OCF_RESKEY_drbd_resource=mail {AGENT}"
CIB = "cibadmin --empty > /root/cib.xml"
STONITH = "CIB_file=/root/cib.xml crm_attribute --type crm_config --name stonith-enabled"


@case
def takeover(folder):
    """a pair of hosts behind one Postfix, the first of which is killed under load: without a fence, and before the file
    system is mounted, the second one's start is refused; then it removes the lock files that were left, and the next
    letter is stored within 60 seconds of the fence; each letter is there, and none bounced"""
    need_root()
    for needed in NEEDS:
        program(*needed)
    device = loop_device(folder / "disk")
    try:
        with site(folder, SECOND) as there:
            return look_at(there, device)
    finally:
        subprocess.run(["losetup", "--detach", device], check=True)


takeover.seconds = 300


def loop_device(path):
    """A file system of that file."""
    with path.open("wb") as file:
        file.truncate(SIZE)
    subprocess.run([program("mkfs.ext4", "e2fsprogs"), "-q", path], check=True)
    made = subprocess.run(["losetup", "--find", "--show", path], capture_output=True, text=True, check=False)
    if made.returncode:
        raise Absent("a loop device")
    return made.stdout.strip()


def make_pair(there, device):
    [host, _] = blocks("## Which host")
    number = re.search(r"\d+$", device)[0]
    for place in [FIRST, SECOND]:
        there.type(place, "systemctl disable --now lmtpd.socket lmtpd; printf 'anna\\nother\\n' > /etc/lmtpd.boxes")
        there.type(place, f"mknod /dev/drbd0 b 7 {number}; {CIB}")
        path = f"/proc/{there.machines[place].first()}/root/etc/drbd.d/mail.res"
        pathlib.Path(path).write_text(DRBD.format(fencing=FENCED, host=f"host{place}"))
    there.type(SECOND, host.replace("systemctl enable lmtpd.socket && systemctl restart lmtpd.socket", ""))
    there.type(FIRST, f"mount /dev/drbd0 {MAIL}; chown lmtpd: {MAIL}; chmod 700 {MAIL}; {ACT} start")


def look_at(there, device):
    make_pair(there, device)
    there.send("before", 90)
    there.wait(there.is_sent)
    with there.client("beside", 3_000, 0.002, ["anna"]):
        time.sleep(2)
        # the other host isn't fenced yet, and has the file system
        status, said = there.machines[SECOND].run(f"{ACT} start")
        equal((status, "is not on the device of mail" in said), (1, True))
        fence(there)
        since = time.monotonic()
        left = take_over(there)
        stored = count_stored(there)
        there.wait(lambda: count_stored(there) > stored)
        took = time.monotonic() - since
    there.type(RELAY, "postqueue -f")
    there.wait(there.is_sent)
    equal((took < 60, took), (True, took))
    found = there.equal_all(HOSTS | {"anna": SECOND})
    return f"{found}; {left} lock files were left; the next letter {took:.1f} s after the fence"


def fence(there):
    """The first host is off."""
    there.machines[FIRST].process.kill()
    there.machines[FIRST].process.wait()


def take_over(there):
    """What Pacemaker does then, in this order; the number of lock files that were left, one of which is anna's."""
    there.type(SECOND, f"mount /dev/drbd0 {MAIL}; echo 1:host{FIRST} > {MAIL}/anna.mbox.lock")
    there.type(SECOND, f"ip address add {ADDRESS} dev eth0")
    there.type(RELAY, "ip neighbour flush dev eth0")
    for stonith, expected in [("false", 6), ("true", 0)]:
        left = int(there.type(SECOND, f"ls {MAIL} | grep -c lock"))
        there.type(SECOND, f"{STONITH} --update {stonith}")
        equal(there.machines[SECOND].run(f"{ACT} start")[0], expected)
    equal(there.type(SECOND, f"cat {MAIL}/anna.mbox.lock 2> /dev/null || true").startswith("1:"), False)
    return left


def count_stored(there):
    return len(re.findall(r"to=<anna@mx\.example>.* status=sent ", there.log()))

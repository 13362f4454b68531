"""Folders that two hosts share, on file systems of Debian's packages: what lmtpd-two-hosts says of them."""

import contextlib
import os
import pathlib
import re
import subprocess
import time

from cases import Absent, case, equal
from hosts import Network, typed
from in_a_machine import installed
from packages import need_root, program

SCRIPT = pathlib.Path(__file__).parents[2] / "packaging/lmtpd.two-hosts"
# What GlusterFS needs, as docs/operating/CLUSTER.md has it.
TIMEOUTS = "entry-timeout=0,attribute-timeout=0,negative-timeout=0"
CACHES = ["stat-prefetch", "open-behind", "quick-read", "io-cache", "read-ahead", "readdir-ahead", "write-behind"]
NUMBERS = [11, 12, 13]


@case
def each_host_has_its_own_locks(folder):
    """lmtpd-two-hosts on a folder that two hosts have by bindfs, which hands no locks on: both say that b isn't kept,
    and leave nothing"""
    need_root()
    if not os.path.exists("/dev/fuse"):
        raise Absent("/dev/fuse")
    bindfs, shared = program("bindfs", "bindfs"), folder / "shared"
    shared.mkdir()
    with contextlib.ExitStack() as mounted:
        hosts = []
        for name in ["one", "two"]:
            place = folder / name
            place.mkdir()
            subprocess.run([bindfs, "-o", "attr_timeout=0,entry_timeout=0", shared, place], check=True)
            mounted.callback(subprocess.run, ["umount", place], check=True)
            begin = ["sh", "-c", 'hostname "$1"; exec perl "$2" "$3"', "sh", name, SCRIPT, place]
            hosts.append(subprocess.Popen(["unshare", "--uts", *begin], stdout=subprocess.PIPE, text=True))
        said = [(host.communicate(timeout=150)[0], host.returncode) for host in hosts]
    equal(said[0], said[1])
    letters = re.findall("^doesn't keep ([a-f]): ", said[0][0], re.MULTILINE)
    equal((said[0][1], "b" in letters), (1, True))
    equal(list(shared.iterdir()), [])
    return f"not kept: {', '.join(letters)}"


each_host_has_its_own_locks.seconds = 180


@case
def glusterfs(folder):
    """lmtpd-two-hosts on a folder of GlusterFS, three stores: as it comes it isn't kept, and with what the page has for
    it `keeps`"""
    need_root()
    program("glusterd", "glusterfs-server")
    with contextlib.ExitStack() as stack:
        network = stack.enter_context(Network())
        machines = {}
        for number in NUMBERS:
            place = folder / str(number)
            place.mkdir()
            machines[number] = machine = stack.enter_context(installed(place))
            network.join(machine, number)
            typed(machine, f"hostname host{number}; mknod -m 666 /dev/fuse c 10 229; mkdir -p /tmp/store /mnt/mail")
            typed(machine, "systemctl start glusterd")
        first = machines[NUMBERS[0]]
        stores = " ".join(f"192.0.2.{number}:/tmp/store/mail" for number in NUMBERS)
        typed(first, "for number in 12 13; do gluster peer probe 192.0.2.$number; done; sleep 3")
        typed(first, f"gluster --mode=script volume create mail replica 3 {stores} force; gluster volume start mail")
        status, faults = tried(machines, "defaults")
        equal((status, faults), (1, faults))
        for cache in CACHES:
            typed(first, f"gluster volume set mail performance.{cache} off")
        since = time.monotonic()
        equal([tried(machines, TIMEOUTS) for _ in range(3)], [(0, "keeps\n")] * 3)
        took = (time.monotonic() - since) / 3
    return f"as it comes: {'; '.join(faults.splitlines())}; with that {took:.0f} s a time"


glusterfs.seconds = 600


def tried(machines, options):
    """What two hosts say of the folder, mounted so; both say the same."""
    hosts = [machines[number] for number in NUMBERS[:2]]
    for host in hosts:
        typed(host, f"mount -t glusterfs -o {options} 127.0.0.1:/mail /mnt/mail")
    ends = {"stdout": subprocess.PIPE, "text": True}
    running = [host.begin(["lmtpd-two-hosts", "/mnt/mail"], **ends) for host in hosts]
    said = [(it.communicate(timeout=200)[0], it.returncode) for it in running]
    equal(said[0], said[1])
    for host in hosts:
        typed(host, "test -z \"$(ls -A /mnt/mail)\"; umount /mnt/mail")
    return said[0][::-1]

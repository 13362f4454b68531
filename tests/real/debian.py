"""The package of `make deb` on a plain Debian 12, which debootstrap makes in a folder, with systemd as first process.

PLAIN_DEBIAN names such a folder that is there already; nothing is changed in it.
"""

import functools
import os
import pathlib
import shlex
import subprocess
import tempfile
import time

from cases import Absent, case, equal
from machine import Machine
from many_mailboxes import recipe
from packages import program, need_root
from replies import stored

ROOT = pathlib.Path(__file__).parents[2]
MIRROR = "http://deb.debian.org/debian"
FOLDERS = []  # that go as the program ends
# What an administrator says of a relay over TCP, since a plain Debian has no Postfix.
PORT = r"[Unit]\nAssertPathIsDirectory=\n[Socket]\nListenStream=\nListenStream=127.0.0.1:2003\nSocketUser=\n"
EDITED = f"mkdir -p /run/systemd/system/lmtpd.socket.d; printf '{PORT}' > /run/systemd/system/lmtpd.socket.d/port.conf"
# A letter by bash alone, since a plain Debian has no other client; it prints the replies.
LETTER = (
    "exec 3<> /dev/tcp/127.0.0.1/2003; printf '%s\\r\\n' 'LHLO relay.example' 'MAIL FROM:<carl@a.example>' "
    "'RCPT TO:<anna@mx.example>' DATA 'Subject: hi' '' hello . QUIT >&3; cat <&3"
)
INSTALL = """
set -e
mount -t proc none "$1/proc"
printf '%s\\n' '#!/bin/sh' 'exit 101' > "$1/usr/sbin/policy-rc.d"
chmod 755 "$1/usr/sbin/policy-rc.d"
cp /etc/resolv.conf "$1/etc/resolv.conf"
cp "$2" "$1/root/"
DEBIAN_FRONTEND=noninteractive TMPDIR=/tmp chroot "$1" apt-get install -y "/root/$(basename "$2")"
rm "$1/usr/sbin/policy-rc.d"
"""


@case
def a_package_on_a_plain_machine(folder):
    """a plain Debian 12: dpkg installs the package, a port is its socket; a purge leaves mailboxes and user"""
    site = site_with_package(folder)
    with Machine(folder, site, plain_debian()) as there:
        equal(there.run("dpkg -i lmtpd_*_amd64.deb")[0], 0)
        equal(there.run("systemctl is-enabled lmtpd.socket; systemctl is-active lmtpd")[1], "disabled\ninactive\n")
        lacking = there.run("systemctl start lmtpd.socket; ls /var/spool/postfix")
        equal((lacking[0], "Assertion failed on job for lmtpd.socket." in lacking[1]), (2, True))
        equal(there.run(f"{EDITED}; systemctl daemon-reload; systemctl enable --now lmtpd.socket")[0], 0)
        said = there.run(f"bash -c {shlex.quote(LETTER)}")
        equal((said[0], f"{stored('anna')}\r\n" in said[1]), (0, True))
        look_at_upgrade(there)
        look_at_purge(there)


a_package_on_a_plain_machine.seconds = 600


@case
def a_package_with_a_relay(folder):
    """a plain Debian 12: apt-get installs the package and Postfix with it, whose letter is in the mailbox; an upgrade
    has two instances begin again, and a purge ends them and leaves their files"""
    site, root = site_with_package(folder), folder / "debian"
    subprocess.run(["cp", "-a", plain_debian(), root], check=True)
    installed = shell(INSTALL, root, next(site.iterdir()))
    equal((installed.returncode, installed.stdout[-300:] if installed.returncode else ""), (0, ""))
    with Machine(folder, site, root) as there:
        for line in [
            "systemctl enable --now lmtpd.socket",
            "postconf -e virtual_mailbox_domains=mx.example virtual_mailbox_maps=inline:{anna@mx.example=x}",
            "postconf -e virtual_transport=lmtp:unix:private/lmtpd lmtp_destination_concurrency_limit=4",
            "systemctl restart postfix",
            "printf 'Subject: hi\\n\\nhello\\n' | sendmail anna@mx.example",
            "for _ in $(seq 100); do grep -q ^hello /var/mail/lmtpd/anna.mbox && break; sleep 0.1; done",
        ]:
            equal((line, there.run(line)[0]), (line, 0))
        equal(there.run("lmtpd check /var/mail/lmtpd/anna.mbox"), (0, "/var/mail/lmtpd/anna.mbox letters 1\n"))
        whose = there.run("stat -c '%U %a %F' /var/spool/postfix/private/lmtpd")
        equal(whose, (0, "postfix 600 socket\n"))
        look_at_instances(there)


a_package_with_a_relay.seconds = 600


def look_at_upgrade(there):
    """The package over itself has a server that runs begin again, with the administrator's words; its socket stays."""
    there.run("sed -i s/mx.example/mx2.example/ /etc/lmtpd.conf")
    before, since = main_process(there), socket_since(there)
    equal(there.run("dpkg -i lmtpd_*_amd64.deb")[0], 0)
    equal(there.run("systemctl is-active lmtpd; grep ^HOST /etc/lmtpd.conf")[1], "active\nHOST=mx2.example\n")
    equal((before != main_process(there), before), (True, before))
    equal(socket_since(there), since)


def look_at_instances(there):
    """Two servers in the one's place, with anna and ben, and what an upgrade and a purge make of them."""
    there.run("mkdir /etc/lmtpd; echo anna > /etc/lmtpd/a.boxes; echo ben > /etc/lmtpd/b.boxes")
    send = "printf 'Subject: two\\n\\nhello\\n' | sendmail anna@mx.example ben@mx.example"
    for line in [*recipe(), send]:
        equal((line, there.run(line)[0]), (line, 0))
    check = "lmtpd check /var/mail/lmtpd/anna.mbox /var/mail/lmtpd/ben.mbox"
    until = time.monotonic() + 30
    while there.run(check) != (0, letters(" letters ", anna=2, ben=1)):
        assert time.monotonic() < until, there.run("postqueue -p; journalctl -n 30 --no-pager")[1][-800:]
        time.sleep(0.5)
    units = ["lmtpd@a", "lmtpd@b"]
    before = [(main_process(there, unit), socket_since(there, unit)) for unit in units]
    equal(there.run("dpkg -i lmtpd_*_amd64.deb")[0], 0)
    equal(there.run("systemctl is-active lmtpd@a lmtpd@b lmtpd")[1], "active\nactive\ninactive\n")
    for unit, (process, since) in zip(units, before):
        equal((main_process(there, unit) != process, socket_since(there, unit)), (True, since))
    equal(there.run("dpkg -P lmtpd")[0], 0)
    sockets = [f"{unit}.socket" for unit in units]
    equal(there.run(f"systemctl is-active {' '.join([*units, *sockets])}")[1], "inactive\n" * 4)
    equal(there.run("find /etc/systemd /var/lib/systemd /var/spool/postfix/private -name '*lmtpd*'"), (0, ""))
    equal(there.run("cat /etc/lmtpd/a.boxes /etc/lmtpd/b.boxes"), (0, "anna\nben\n"))
    counted = there.run("grep -c ^hello /var/mail/lmtpd/anna.mbox /var/mail/lmtpd/ben.mbox")
    equal(counted[1], letters(":", anna=2, ben=1))


def letters(between, **counts):
    return "".join(f"/var/mail/lmtpd/{name}.mbox{between}{count}\n" for name, count in counts.items())


def look_at_purge(there):
    equal(there.run("dpkg -P lmtpd")[0], 0)
    # the list of mailboxes is the site's
    equal(there.run("find /etc /usr /var/lib -name '*lmtpd*' | grep -v /share/doc/"), (0, "/etc/lmtpd.boxes\n"))
    equal(there.run("systemctl is-active lmtpd.socket lmtpd")[1], "inactive\ninactive\n")
    equal(there.run("stat -c '%U %G %a' /var/mail/lmtpd"), (0, "lmtpd lmtpd 700\n"))
    equal(there.run("grep -c ^hello /var/mail/lmtpd/anna.mbox"), (0, "1\n"))


def main_process(there, unit="lmtpd"):
    return there.run(f"systemctl show -p MainPID --value {unit}")[1]


def socket_since(there, unit="lmtpd"):
    return there.run(f"systemctl show -p ActiveEnterTimestampMonotonic --value {unit}.socket")[1]


def site_with_package(folder):
    """A folder with the package alone."""
    for name, package in [("dpkg-shlibdeps", "dpkg-dev"), ("strip", "binutils"), ("make", "make")]:
        program(name, package)
    site = folder / "site"
    site.mkdir()
    words = ["make", "-s", "deb", f"PROGRAM={os.environ['LMTPD']}", f"FOLDER={site}"]
    subprocess.run(words, cwd=ROOT, check=True, stdout=subprocess.DEVNULL)
    return site


@functools.lru_cache(None)
def plain_debian():
    """A folder with what debootstrap makes without a further word."""
    need_root()
    if os.environ.get("PLAIN_DEBIAN"):
        return os.environ["PLAIN_DEBIAN"]
    command = program("debootstrap", "debootstrap")
    FOLDERS.append(tempfile.TemporaryDirectory(dir="/var/tmp"))
    root = pathlib.Path(FOLDERS[-1].name) / "debian"
    made = subprocess.run([command, "bookworm", root, MIRROR], stdout=subprocess.PIPE, stderr=subprocess.STDOUT)
    if made.returncode != 0:
        raise Absent(f"debootstrap: {made.stdout.decode(errors='replace')[-200:].strip()}")
    return root


def shell(text, *words):
    """Runs that as root, with mounts and processes of its own."""
    apart = ["unshare", "--mount", "--pid", "--fork", "--kill-child", "sh", "-c", text, "sh", *words]
    return subprocess.run(apart, stdin=subprocess.DEVNULL, stdout=subprocess.PIPE, stderr=subprocess.STDOUT)

"""The ten lines of docs/operating/SETUP.md, and the service that they begin, where the first process is systemd."""

import contextlib
import os
import pathlib
import re
import shutil
import time

from cases import case, equal
from machine import Machine
from packages import program, need_root

ROOT = pathlib.Path(__file__).parents[2]
HEADING = "## From nothing to a letter in ten lines"
# What stands in another's place there: the program is proved and built already, and of the network there is loopback
# alone, so that what apt-get installs was installed before.
REPLACED = {"make build": "test -x crates/lmtpd/out/lmtpd", "apt-get update": "true"}
SEND = "printf 'Subject: {}\\n\\nhello\\n' | sendmail anna@mx.example"


@case
def ten_lines(folder):
    """the ten lines of docs/operating/SETUP.md, typed as they stand: Postfix's letter is in the mailbox"""
    with machine(folder) as there:
        said = type_lines(there)
        equal((said.startswith("From root@"), said.endswith("\n\nhello\n\n")), (True, True))
        equal(subjects(there), ["hi"])
        equal(there.run("lmtpd check /var/mail/lmtpd/*.mbox"), (0, checked(anna=1)))
        owners = there.run("stat -c '%U %G %a' /var/mail/lmtpd /var/mail/lmtpd/anna.mbox")
        equal(owners, (0, "lmtpd lmtpd 700\nlmtpd lmtpd 600\n"))
        equal(there.run("systemctl is-enabled lmtpd.socket && systemctl is-active lmtpd"), (0, "enabled\nactive\n"))
        looks_for_domains(there)


def looks_for_domains(there):
    """What the page has for a letter that isn't there: nothing so far, and a domain that Postfix alone has."""
    page = (ROOT / "docs/operating/SETUP.md").read_text()
    [command] = re.findall("`(journalctl [^`]* -g 'domain not served')`", page)
    equal(there.run(f"journalctl --sync; {command}")[1].replace("-- No entries --\n", ""), "")
    for line in [
        "postconf -e virtual_mailbox_domains=mx.example,real.tld virtual_mailbox_maps=static:x",
        "systemctl reload postfix",
        SEND.format("two").replace("mx.example", "real.tld"),
    ]:
        equal((line, there.run(line)[0]), (line, 0))
    until = time.monotonic() + 30
    while not there.run(f"journalctl --sync; {command}")[1].endswith(" domain not served domain=real.tld\n"):
        assert time.monotonic() < until, there.run("journalctl -n 20 --no-pager")[1]
        time.sleep(0.2)


ten_lines.seconds = 120


@case
def a_service_that_ends_begins_again(folder):
    """systemd begins a server again that ends after three conversations: Postfix's queue comes, each letter once"""
    with machine(folder) as there:
        type_lines(there)
        begin_for_few(there, 3)
        for number in range(12):
            equal(there.run(SEND.format(f"letter{number}"))[0], 0)
        wait_for_letters(there, 13)
        equal(sorted(subjects(there)), sorted(["hi", *(f"letter{number}" for number in range(12))]))
        begun = restarts(there)
        assert begun >= 3, begun


a_service_that_ends_begins_again.seconds = 180


@case
def a_service_that_is_killed_begins_again(folder):
    """systemd begins a server again at once after SIGTERM, after a fault in 5 s, never where a word is wrong"""
    with machine(folder) as there:
        type_lines(there)
        begun = time.monotonic()
        equal(there.run("systemctl kill lmtpd"), (0, ""))
        wait_for_restarts(there, 1)
        assert time.monotonic() - begun < 4, "not at once"
        # the mailboxes' folder is away for eight seconds, so that the server ends with status 1
        begun = time.monotonic()
        there.run("cd /var/mail; mv lmtpd away; (sleep 8; mv away lmtpd) > /dev/null 2>&1 &")
        there.run("systemctl kill --signal=KILL lmtpd")
        wait_for_letter(there, "later")
        assert time.monotonic() - begun > 4, "it didn't wait"
        begun = time.monotonic()
        equal(there.run("systemctl stop lmtpd.socket lmtpd"), (0, ""))
        time.sleep(1)
        equal((there.run("systemctl is-active lmtpd")[1], time.monotonic() - begun < 8), ("inactive\n", True))
        there.run("sed -i 's/^BOXES=.*/BOXES=anna anna/' /etc/lmtpd.conf; systemctl restart lmtpd")
        time.sleep(7)
        equal(there.run("systemctl is-failed lmtpd"), (0, "failed\n"))
        equal(there.run("systemctl show -p ExecMainStatus --value lmtpd")[1], "2\n")


a_service_that_is_killed_begins_again.seconds = 180


@case
def a_service_that_lacks_something(folder):
    """systemd tries a server again each 5 s while its folder is away, and leaves it where /etc/lmtpd.conf is missing"""
    with machine(folder) as there:
        type_lines(there)
        there.run("mv /var/mail/lmtpd /var/mail/away; systemctl restart lmtpd")
        time.sleep(8)
        begun = restarts(there)
        assert begun in [1, 2], begun
        equal("lmtpd: cannot open anna.mbox" in there.run("journalctl -u lmtpd --no-pager")[1], True)
        there.run("mv /var/mail/away /var/mail/lmtpd")
        wait_for_letter(there, "later")
        there.run("mv /etc/lmtpd.conf /root; systemctl restart lmtpd")
        time.sleep(15)
        equal(there.run("systemctl is-failed lmtpd"), (0, "failed\n"))
        equal(there.run("mv /root/lmtpd.conf /etc; systemctl reset-failed lmtpd; systemctl start lmtpd"), (0, ""))


a_service_that_lacks_something.seconds = 180


@contextlib.contextmanager
def machine(folder):
    """With the sources in place that `make install` needs, and the built program."""
    need_root()
    for name in ["make", "postfix"]:
        program(name, name)
    site = folder / "site"
    for name in ["packaging", "docs"]:
        shutil.copytree(ROOT / name, site / name)
    shutil.copy(ROOT / "Makefile", site)
    (site / "crates/lmtpd/out").mkdir(parents=True)
    shutil.copy(os.environ["LMTPD"], site / "crates/lmtpd/out/lmtpd")
    with Machine(folder, site) as there:
        yield there


def type_lines(there):
    """What the last of the lines says; each ends with status 0."""
    lines = (ROOT / "docs/operating/SETUP.md").read_text().split(HEADING)[1].split("```\n")[1].splitlines()
    equal((len(lines) <= 10, len(lines)), (True, len(lines)))
    for line in lines:
        for old, new in REPLACED.items():
            line = line.replace(old, new)
        status, said = there.run(line)
        equal((line, status, said if status else ""), (line, 0, ""))
    return said


def begin_for_few(there, count):
    """Has the service end after that many conversations, and Postfix hold one for each letter."""
    there.run(f"sed -i 's/^OPTIONS=.*/OPTIONS=--connections {count}/' /etc/lmtpd.conf")
    equal(there.run("systemctl restart lmtpd"), (0, ""))
    equal(there.run("postconf -e lmtp_connection_cache_on_demand=no && postfix reload")[0], 0)


def checked(**letters):
    return "".join(f"/var/mail/lmtpd/{name}.mbox letters {count}\n" for name, count in letters.items())


def wait_for_letters(there, count):
    """Has Postfix try its queue until anna has that many letters."""
    until = time.monotonic() + 90
    while time.monotonic() < until:
        if there.run("lmtpd check /var/mail/lmtpd/anna.mbox") == (0, checked(anna=count)):
            return
        there.run("postqueue -f")
        time.sleep(1)
    raise RuntimeError(there.run("postqueue -p; journalctl -u lmtpd -n 20 --no-pager")[1][-800:])


def wait_for_letter(there, subject):
    until = time.monotonic() + 60
    equal(there.run(SEND.format(subject))[0], 0)
    while subject not in subjects(there):
        assert time.monotonic() < until, there.run("postqueue -p")[1]
        there.run("postqueue -f")
        time.sleep(0.5)


def subjects(there):
    said = there.run("grep ^Subject: /var/mail/lmtpd/anna.mbox")[1]
    return [line.removeprefix("Subject: ") for line in said.splitlines()]


def restarts(there):
    return int(there.run("systemctl show -p NRestarts --value lmtpd")[1])


def wait_for_restarts(there, count):
    until = time.monotonic() + 20
    while restarts(there) < count or there.run("systemctl is-active lmtpd")[0] != 0:
        assert time.monotonic() < until, there.run("systemctl status lmtpd --no-pager")[1]
        time.sleep(0.1)

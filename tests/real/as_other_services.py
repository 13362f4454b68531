"""The service as it is installed, where a machine treats it as it treats others: signals, names and priorities in the
journal, reloads that meet, a container, its package removed and installed again."""

import os
import pathlib
import re
import signal
import subprocess
import time

from cases import case, equal
from clients import Client, deliver_one
from in_a_machine import in_a_machine
from pages import lines_of, type_lines
from replies import STOPPING, not_stored, stored
from service import CONF, Service, systemctl

SIGNALS = [signal.SIGHUP, signal.SIGINT, signal.SIGQUIT, signal.SIGUSR1, signal.SIGUSR2, signal.SIGALRM]
BOXES = pathlib.Path("/etc/lmtpd.boxes")
OLD = pathlib.Path("/tmp/old")  # a package as it was made when the list of mailboxes was a file of dpkg's


@case
@in_a_machine()
def signals_that_end_nothing(_folder):
    """the installed service and an instance: HUP, INT, QUIT, USR1, USR2 and ALRM end nothing, and the journal has them
    by their names, lmtpd and lmtpd@a"""
    for service in [Service(["anna"]), Service(["anna"], name="a")]:
        with service:
            process = service.told("MainPID")
            for number in SIGNALS:
                os.kill(int(process), number)
                equal(deliver_one(service.address, ["anna"], f"by {number.name}"), [stored("anna")])
            equal((service.told("MainPID"), service.restarts()), (process, 0))
            found = service.mailbox("anna").read_text()
            equal([found.count(f"\nby {number.name}\n") for number in SIGNALS], [1] * len(SIGNALS))
            equal("stored code=250" in said_as(service.unit), True)
        service.mailbox("anna").unlink()


@case
@in_a_machine()
def reloads_that_meet(_folder):
    """systemctl reload of the installed service, twice at once and at many moments, and once again right after: each
    succeeds, the new names are in force then, and nothing is put off"""
    with Service(["anna"]) as service:
        CONF.write_text("HOST=mx.example\nBOXES=/etc/lmtpd.boxes\n")
        BOXES.write_text("anna\n")
        service.restart()
        for pause in [0, 0, 0.05, 0.2, 0.4, 0.8, 1.2, 1.6]:
            name = f"ben{len(BOXES.read_text())}"
            with BOXES.open("a") as file:
                file.write(f"{name}\n")
            asked = [subprocess.Popen(["systemctl", "reload", service.unit], stderr=subprocess.PIPE)]
            time.sleep(pause)
            asked.append(subprocess.Popen(["systemctl", "reload", service.unit], stderr=subprocess.PIPE))
            said = [one.communicate()[1].decode() for one in asked]
            equal((pause, [one.returncode for one in asked], said), (pause, [0, 0], ["", ""]))
            equal(deliver_one(service.address, [name], "hello"), [stored(name)])
        systemctl("reload", service.unit)
        equal(service.told("ActiveState"), "active")
        equal([line for line in service.lines() if "Failed" in line or line.startswith("lmtpd: ")], [])


@case
@in_a_machine()
def news_that_is_good(_folder):
    """the installed service: the journal has a mailbox in use at err, and that it is free again at notice alone"""
    with Service(["anna"], "--lock-wait", 0) as service:
        service.lock_file("anna").touch()
        equal(deliver_one(service.address, ["anna"], "hello"), [not_stored("anna")])
        service.lock_file("anna").unlink()
        equal(deliver_one(service.address, ["anna"], "hello"), [stored("anna")])
        begun = [[line.partition(" mailbox=")[0] for line in service.lines(at)] for at in ["err", "notice"]]
        in_use = "[ERROR lmtpd] mailbox in use"
        equal(begun, [[in_use], [in_use, "[ERROR lmtpd] mailbox free again"]])


@case
@in_a_machine()
def a_container(_folder):
    """the typed line of 'In a container' in docs/operating/SETUP.md, as a first process: at TERM and at INT it ends in
    order, its client is told so, and its status is 0; HUP and the others end nothing"""
    type_lines("install -d /var/mail/lmtpd")
    for last in [signal.SIGTERM, signal.SIGINT]:
        words = ["unshare", "--pid", "--fork", "sh", "-c", f"exec {lines_of('SETUP.md', '### In a container')}"]
        with subprocess.Popen(words, stdout=subprocess.PIPE, text=True) as begun:
            equal(begun.stdout.readline(), "listening on 0.0.0.0:2003\n")
            first = int(pathlib.Path(f"/proc/{begun.pid}/task/{begun.pid}/children").read_text())
            with Client(("127.0.0.1", 2003)).greet() as client:
                equal(client.deliver(["anna"], "hello")[1], [stored("anna")])
                for number in [one for one in SIGNALS if one != signal.SIGINT]:
                    os.kill(first, number)
                equal(client.deliver(["ben"], "hello")[1], [stored("ben")])
                since = time.monotonic()
                os.kill(first, last)
                equal(client.hear(), STOPPING)
            equal(begun.stdout.read(), "anna stored 1\nben stored 1\n")
            equal((begun.wait(), time.monotonic() - since < 10), (0, True))


@case
@in_a_machine()
def a_package_that_comes_again(_folder):
    """the package, removed and installed again: sockets that were active are active, an instance's too, those that
    weren't aren't, and the list of mailboxes is as it was; it is made where none is, and a purge leaves it"""
    package = next(pathlib.Path("/root/site").glob("lmtpd_*.deb"))
    # by which a container's image has packages start and stop nothing
    pathlib.Path("/usr/sbin/policy-rc.d").unlink(missing_ok=True)
    one, two, three = (Service(["anna"], name=name) for name in "abc")
    with Service(["anna"]) as service, one, two, three:
        two.stop()
        dpkg("-r", "lmtpd")
        equal(states(service, one, two, three), ["inactive"] * 4)
        dpkg("-i", package)
        equal(states(service, one, two, three), ["active", "active", "inactive", "active"])
        for each in [service, one, three]:
            equal(deliver_one(each.address, ["anna"], "hello"), [stored("anna")])
        dpkg("-i", package)
        equal(states(two), ["inactive"])
    BOXES.unlink()
    dpkg("-i", package)
    equal(re.findall("(?m)^[a-z]+$", BOXES.read_text()), ["anna", "ben"])
    for text in ["carla\n", "# nobody\n"]:
        BOXES.write_text(text)
        for verb in ["-r", "-P"]:
            dpkg("-i", package)
            dpkg(verb, "lmtpd")
            equal(BOXES.read_text(), text)


@case
@in_a_machine()
def a_list_of_an_earlier_package(_folder):
    """an upgrade from the package whose list of mailboxes was a file of dpkg's, with a changed and an unchanged list:
    each byte of it stays, after a purge too, and the service goes on"""
    package = next(pathlib.Path("/root/site").glob("lmtpd_*.deb"))
    dpkg("-P", "lmtpd")
    earlier = made_earlier(package)
    for change in [None, b"anna\n# a comment\ncarla\n", b"", b"anna\r\nben\r\n"]:
        BOXES.unlink(missing_ok=True)
        dpkg("-i", earlier)
        if change is not None:
            BOXES.write_bytes(change)
        text, mode = BOXES.read_bytes(), BOXES.stat().st_mode
        dpkg("-i", package)
        equal((change, BOXES.read_bytes(), BOXES.stat().st_mode), (change, text, mode))
        dpkg("-P", "lmtpd")
        equal((change, BOXES.read_bytes(), BOXES.stat().st_mode), (change, text, mode))


@case
@in_a_machine()
def an_upgrade_beside_a_mistake(_folder):
    """an upgrade of the package while /etc/lmtpd.conf has a word that the service doesn't know: it is said, and the
    server runs on; once it is mended, an upgrade has it begin again"""
    package = next(pathlib.Path("/root/site").glob("lmtpd_*.deb"))
    pathlib.Path("/usr/sbin/policy-rc.d").unlink(missing_ok=True)
    with Service(["anna"]) as service:
        words, process = CONF.read_text(), service.told("MainPID")
        CONF.write_text(f"{words}DOMAIN=b.example\n")
        said = dpkg("-i", package)
        for text in [f"unknown word key=DOMAIN file={CONF} line=", "goes on with the program of before"]:
            assert text in said, said
        equal((service.told("MainPID"), service.told("ActiveState")), (process, "active"))
        equal(deliver_one(service.address, ["anna"], "hello"), [stored("anna")])
        CONF.write_text(words)
        dpkg("-i", package)
        equal((service.told("MainPID") != process, service.told("ActiveState")), (True, "active"))


for each in [
    signals_that_end_nothing,
    reloads_that_meet,
    news_that_is_good,
    a_container,
    a_package_that_comes_again,
    a_list_of_an_earlier_package,
    an_upgrade_beside_a_mistake,
]:
    each.seconds = 240


def made_earlier(package):
    """A package of an earlier version, which has the list as dpkg's file."""
    subprocess.run(["dpkg-deb", "-R", package, OLD], check=True)
    (OLD / "usr/share/lmtpd/lmtpd.boxes").rename(OLD / "etc/lmtpd.boxes")
    (OLD / "DEBIAN/conffiles").write_text("/etc/lmtpd.boxes\n/etc/lmtpd.conf\n")
    (OLD / "DEBIAN/postrm").unlink()
    control = OLD / "DEBIAN/control"
    control.write_text(re.sub("(?m)^Version: .*$", "Version: 0.0.1", control.read_text()))
    made = OLD.with_suffix(".deb")
    subprocess.run(["dpkg-deb", "--root-owner-group", "--build", OLD, made], check=True, capture_output=True)
    return made


def dpkg(*words):
    said = subprocess.run(["dpkg", *map(str, words)], stdout=subprocess.PIPE, stderr=subprocess.STDOUT, text=True)
    equal((words, said.returncode, said.stdout if said.returncode else ""), (words, 0, ""))
    return said.stdout


def states(*services):
    return [Service.told(Socket(service), "ActiveState") for service in services]


class Socket:
    """The unit of a service's socket, as `told` looks at one."""

    def __init__(self, service):
        self.unit = f"{service.unit}.socket"


def said_as(name):
    """What the journal has by that identifier."""
    subprocess.run(["journalctl", "--sync"], check=True)
    words = ["journalctl", "-t", name, "-o", "cat", "--no-pager"]
    return subprocess.run(words, check=True, capture_output=True, text=True).stdout

"""A start of the service as it is installed that comes to nothing: systemctl says so, and nobody is told that it is
active."""

import contextlib
import subprocess
import threading
import time

from cases import case, equal
from clients import Client, deliver_one
from in_a_machine import in_a_machine
from replies import stored
from service import CONF, FOLDER, Service, systemctl

PAUSE = 5  # seconds after which it is tried again
AWAY = FOLDER.with_name("away")


@case
@in_a_machine()
def a_wrong_word(_folder):
    """systemd, a word that is wrong (status 2): start and restart fail, --failed names it, it is never active, and the
    journal has the line; with a client at the socket it is tried again each five seconds, until the word is right"""
    with Service(["anna"]) as service:
        systemctl("stop", "lmtpd.socket", "lmtpd")
        words = CONF.read_text()
        service.set("HOST", "a_b")
        with states_of(service) as seen:
            for verb in ["start", "restart"]:
                equal((verb, status_of(verb, service.unit)), (verb, 1))
                equal(names_failed(), ["lmtpd.service"])
                equal(service.told("ExecMainStatus"), "2")
            equal(service.lines().count("lmtpd: bad host"), 2)
            systemctl("start", "lmtpd.socket")
            with Client(service.address) as client:
                time.sleep(2 * PAUSE + 5)
                tries = service.lines().count("lmtpd: bad host") - 2
                equal((tries in [2, 3], tries), (True, tries))
                equal("active" in seen, False)
                CONF.write_text(words)
                client.greet().quit()
        service.wait(lambda: service.told("ActiveState") == "active")
        equal(names_failed(), [])


@case
@in_a_machine()
def a_folder_that_is_away(_folder):
    """systemd, a folder that is away (status 1): start and restart fail, it is tried again each five seconds and is
    never active; once the folder is back, it is"""
    with Service(["anna"]) as service:
        systemctl("stop", "lmtpd")
        FOLDER.rename(AWAY)
        with states_of(service) as seen:
            for verb in ["start", "restart"]:
                equal((verb, status_of(verb, service.unit)), (verb, 1))
            time.sleep(PAUSE + 2)
            equal("active" in seen, False)
            assert service.lines().count("lmtpd: cannot open anna.mbox") >= 3
            AWAY.rename(FOLDER)
            service.wait(lambda: service.told("ActiveState") == "active")
        equal(deliver_one(service.address, ["anna"], "hello"), [stored("anna")])
        equal(status_of("start", service.unit), 0)


@case
@in_a_machine()
def an_end_within_the_first_second(_folder):
    """systemd, a server that ends in order, or by SIGTERM, within its first second: it begins again at once"""
    with Service(["anna"], "--connections", 1, "--lanes", 1) as service:
        since = time.monotonic()
        for number in range(4):  # it begins again three times meanwhile
            equal(deliver_one(service.address, ["anna"], f"letter {number}"), [stored("anna")])
        assert time.monotonic() - since < 2 * PAUSE, "not at once"
        service.set("OPTIONS")
        service.restart()
        for _ in range(3):  # within its first second
            process, since = service.told("MainPID"), time.monotonic()
            systemctl("kill", "--kill-who=main", "--signal=TERM", service.unit)
            service.wait(lambda: service.told("MainPID") not in ["0", process])
            assert time.monotonic() - since < PAUSE - 1, "not at once"
            service.wait(lambda: service.told("SubState") == "running")
        time.sleep(0.3)
        service.stop()
        equal(service.told("ActiveState"), "inactive")


for one in [a_wrong_word, a_folder_that_is_away, an_end_within_the_first_second]:
    one.seconds = 180


def status_of(verb, unit):
    return subprocess.run(["systemctl", verb, unit], capture_output=True).returncode


def names_failed():
    words = ["systemctl", "--failed", "--plain", "--no-legend"]
    said = subprocess.run(words, check=True, capture_output=True, text=True).stdout
    return [name for name in (line.split()[0] for line in said.splitlines()) if name.startswith("lmtpd")]


@contextlib.contextmanager
def states_of(service):
    """Collects what `systemctl is-active` says meanwhile."""
    seen, over = set(), threading.Event()

    def look():
        while not over.is_set():
            words = ["systemctl", "is-active", service.unit]
            seen.add(subprocess.run(words, capture_output=True, text=True).stdout.strip())

    thread = threading.Thread(target=look)
    thread.start()
    try:
        yield seen
    finally:
        over.set()
        thread.join()
